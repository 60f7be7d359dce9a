/* SPDX-License-Identifier: Apache-2.0 */
#include "trims.h"

#include "../include/fm3130.h"
#include "hold.h"

enum { MOST_ERROR = 20000, CODES = 32, PLUS_STEP = 512, MINUS_STEP = 256, BEYOND = 2 };

enum { ACCEPTED_SETTING, NOT_NEAREST, UNKNOWN_SIGN, OUT_OF_RANGE, CODE_TOO_GREAT };

/* A question to the checker, of which any number may be passed. */
struct setting {
    int32_t error;
    uint64_t sign;
    uint64_t code;
};

/* ---- number 9, written down once more, in numbers wide enough for every error and code that get to a sum */

static int is_in_range(int64_t error) { return error >= -MOST_ERROR && error <= MOST_ERROR; }

static int64_t left_of(struct setting asked)
{
    int64_t code = (int64_t)asked.code;
    return asked.sign == 1 ? asked.error + PLUS_STEP * code : asked.error - MINUS_STEP * code;
}

static int64_t distance_of(struct setting asked)
{
    int64_t left = left_of(asked);
    return left < 0 ? -left : left;
}

/* The smallest distance from zero that any of the 64 settings leaves. */
static int64_t least_distance(int32_t error)
{
    int64_t least = INT64_MAX;
    for (uint64_t sign = 0; sign < 2; sign++)
        for (uint64_t code = 0; code < CODES; code++) {
            int64_t distance = distance_of((struct setting){error, sign, code});
            least = distance < least ? distance : least;
        }
    return least;
}

static uint64_t verdict_on(struct setting asked, int64_t least)
{
    if (asked.sign > 1)
        return UNKNOWN_SIGN;
    if (!is_in_range(asked.error))
        return OUT_OF_RANGE;
    if (asked.code >= CODES)
        return CODE_TOO_GREAT;
    return distance_of(asked) > least ? NOT_NEAREST : ACCEPTED_SETTING;
}

/* ---- what is held */

static void hold_setting(struct setting asked, int64_t least)
{
    uint64_t verdict = verdict_on(asked, least);
    int64_t left = verdict <= NOT_NEAREST ? left_of(asked) : 0;
    hold(fm3130_trim_check(asked.error, asked.sign, asked.code) == verdict, "the verdict is that of plain arithmetic");
    hold(fm3130_trim_residue(asked.error, asked.sign, asked.code) == left, "the residue is that of plain arithmetic");
}

/* Of several nearest settings D63 proposes minus for an error of 0 or more, else plus, and the greater code. */
static uint64_t proposal_for(int32_t error, int64_t least)
{
    struct setting best = {.error = error, .sign = error < 0, .code = CODES - 1};
    while (distance_of(best) != least)
        best.code--;
    return CODES * best.sign + best.code;
}

static void hold_proposal(int32_t error, int64_t least)
{
    uint64_t proposed = fm3130_trim_propose(error);
    if (!is_in_range(error)) {
        hold(proposed == 2 * CODES, "outside the range nothing is proposed");
        return;
    }
    hold(proposed < 2 * CODES, "within the range a setting is proposed");
    hold(fm3130_trim_check(error, proposed / CODES, proposed % CODES) == ACCEPTED_SETTING, "a proposal is accepted");
    hold(proposed == proposal_for(error, least), "of several nearest settings the one of D63 is proposed");
}

/* Within the range, beside its ends, where two settings leave as much or nearly so, or any. */
static int32_t choose_error(struct choices *choices)
{
    uint8_t way = choose_byte(choices);
    int32_t sign = way & 1 ? -1 : 1;
    int32_t pair = choose_pair(choices);
    switch (way / 2 % 8) {
    case 0: return sign * (MOST_ERROR - 2 + pair % 4);
    case 1:
    case 2:
    case 3: return sign * (pair % 160 * 128 + way / 16 % 3 - 1);
    case 4: return (int32_t)((uint32_t)pair << 16 | choose_pair(choices));
    case 5: return sign < 0 ? INT32_MIN + pair % 4 : INT32_MAX - pair % 4;
    default: return sign * (pair % (MOST_ERROR + 1));
    }
}

/* All 64 settings of an error, and the proposal. */
static void hold_error(int32_t error)
{
    int64_t least = least_distance(error);
    for (uint64_t sign = 0; sign < 2; sign++)
        for (uint64_t code = 0; code < CODES; code++)
            hold_setting((struct setting){error, sign, code}, least);
    hold_proposal(error, least);
}

void hold_range(void)
{
    for (int32_t error = -MOST_ERROR - BEYOND; error <= MOST_ERROR + BEYOND; error++)
        hold_error(error);
}

void hold_trims(struct choices *choices)
{
    struct setting asked = {.error = choose_error(choices)};
    asked.sign = choose_near(choices, 2);
    asked.code = choose_near(choices, CODES);
    hold_setting(asked, least_distance(asked.error));
    hold_error(asked.error);
}
