/* SPDX-License-Identifier: Apache-2.0 */
/* The fuzzer's bytes, taken one after another as choices; once they are used up, every choice is 0. */
#ifndef CHOICE_H
#define CHOICE_H

#include <stddef.h>
#include <stdint.h>

struct choices {
    const uint8_t *next;
    size_t left;
};

static inline uint8_t choose_byte(struct choices *choices)
{
    if (choices->left == 0)
        return 0;
    choices->left--;
    return *choices->next++;
}

static inline uint16_t choose_pair(struct choices *choices)
{
    uint16_t high = choose_byte(choices);
    return (uint16_t)(high << 8 | choose_byte(choices));
}

/* The next so many bytes, as choices of their own. */
static inline struct choices take_choices(struct choices *choices, size_t count)
{
    struct choices taken = {.next = choices->next, .left = count < choices->left ? count : choices->left};
    choices->next += taken.left;
    choices->left -= taken.left;
    return taken;
}

/* Numbers around which sums wrap and limits lie, or any small one. */
static inline uint64_t choose_number(struct choices *choices)
{
    uint16_t small = choose_pair(choices);
    switch (choose_byte(choices) & 7) {
    case 0: return UINT64_MAX - small;
    case 1: return ((uint64_t)1 << 63) + small;
    case 2: return (uint64_t)small << 48;
    case 3: return 8192u + (uint64_t)small % 4 - 2;
    case 4: return 15u + (uint64_t)small % 8 - 3;
    case 5: return 32768u + (uint64_t)small % 4 - 2;
    default: return small;
    }
}

/* A number below a limit, one of the two beside it, or one below it and a power of 16, which is lost where a number is
 * cut. */
static inline uint64_t choose_near(struct choices *choices, unsigned limit)
{
    uint8_t way = choose_byte(choices);
    uint64_t number = choose_byte(choices) % (way & 1 ? limit + 2 : limit);
    return way % 16 == 14 ? number + ((uint64_t)1 << way / 16 * 4) : number;
}

#endif
