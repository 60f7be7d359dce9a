/* SPDX-License-Identifier: Apache-2.0 */
#include "images.h"

#include <string.h>

#include "../bench/plain.h"
#include "hold.h"

enum { TIME_PLACE = 2, CORE_PLACE = 15, CALENDAR_BYTES = 7, DATE = 4, MONTH = 5, YEAR = 6 };

enum { CHANGE_BYTES = 3, MOST_CHANGES = 32 };

static struct fence changes_fence;
static uint8_t old_image[MOST_IMAGE];

void prepare_images(void) { changes_fence = fence_around(MOST_CHANGES); }

static int image_is_as_it_was(struct call call) { return memcmp(call.image.start, old_image, call.image.length) == 0; }

static void begin(struct call call) { memcpy(old_image, call.image.start, call.image.length); }

static void end(struct call call)
{
    hold(guard_is_whole(call.image), "the bytes beside the image are untouched");
    memcpy(call.image.start, old_image, call.image.length);
}

/* ---- catching up */

static uint64_t choose_ticks(struct choices *choices)
{
    uint8_t way = choose_byte(choices);
    uint16_t small = choose_pair(choices);
    switch (way % 8) {
    case 4: return small % (MOST_EVENTS + 1u);
    case 5: return MOST_TICKS - 2 + small % 4u;
    case 6: return (uint64_t)small << 9;
    case 7: return choose_number(choices);
    default: return small % 300u;
    }
}

/* So many ticks as a list, by the plain program and by the proved run. */
static void hold_as_a_list(struct call call, uint64_t ticks)
{
    static uint8_t events[MOST_EVENTS], answers[MOST_EVENTS], memory[MEMORY_BYTES];
    uint8_t image[IMAGE_BYTES];
    memset(events, FM3130_TICK, sizeof events);
    memcpy(image, old_image, IMAGE_BYTES);
    plain_run(image, memory, events, ticks, answers);
    hold(memcmp(image, call.image.start, IMAGE_BYTES) == 0, "catching up equals so many ticks of the plain program");
    memcpy(image, old_image, IMAGE_BYTES);
    struct fm3130_ran ran = fm3130_run(image, IMAGE_BYTES, memory, MEMORY_BYTES, events, ticks, answers, ticks);
    hold(ran.number == ACCEPTED && ran.count == ticks, "a list of so many ticks is accepted");
    hold(memcmp(image, call.image.start, IMAGE_BYTES) == 0, "catching up equals a list run of so many ticks");
}

/* A longer sleep is the same in two pieces. */
static void hold_two_sleeps(struct call call, uint64_t ticks, uint64_t first)
{
    uint8_t image[IMAGE_BYTES];
    memcpy(image, old_image, IMAGE_BYTES);
    hold(fm3130_catch_up(image, IMAGE_BYTES, first) == ACCEPTED, "the first of two sleeps is accepted");
    hold(fm3130_catch_up(image, IMAGE_BYTES, ticks - first) == ACCEPTED, "the second of two sleeps is accepted");
    hold(memcmp(image, call.image.start, IMAGE_BYTES) == 0, "two sleeps equal the one of their sum");
}

static void hold_slept(struct call call, uint64_t ticks, uint64_t first)
{
    if (ticks <= MOST_EVENTS)
        hold_as_a_list(call, ticks);
    hold_two_sleeps(call, ticks, first % (ticks + 1));
}

void hold_catch_up(struct call call, struct choices *choices)
{
    uint64_t ticks = choose_ticks(choices);
    uint64_t first = (uint64_t)choose_pair(choices) * 483;
    uint64_t number = ticks > MOST_TICKS ? TOO_MANY_TICKS : ACCEPTED;
    if (!image_is_accepted(&fm3130_limits, call.image.start, call.image.length))
        number = WRONG_STATE;
    begin(call);
    hold(fm3130_catch_up(call.image.start, call.image.length, ticks) == number, "catching up gives its number");
    if (number == ACCEPTED)
        hold_slept(call, ticks, first);
    else
        hold(image_is_as_it_was(call), "a refused catching up writes nothing");
    end(call);
}

/* ---- mending, as request 14 says it */

static uint8_t last_day(uint8_t month, uint8_t year)
{
    static const uint8_t last[0x13] = {[1] = 0x31, [2] = 0x28, [3] = 0x31, [4] = 0x30,    [5] = 0x31,    [6] = 0x30,
                                       [7] = 0x31, [8] = 0x31, [9] = 0x30, [0x10] = 0x31, [0x11] = 0x30, [0x12] = 0x31};
    int leaps = ((year >> 4) * 10 + (year & 15)) % 4 == 0;
    return month == 2 && leaps ? 0x29 : last[month];
}

/* Each field that is out of range on its own, then a date beyond its month's end. */
static void put_right(uint8_t *calendar)
{
    static const uint8_t low[CALENDAR_BYTES] = {0, 0, 0, 1, 1, 1, 0};
    static const uint8_t top[CALENDAR_BYTES] = {0x59, 0x59, 0x23, 7, 0x31, 0x12, 0x99};
    for (int i = 0; i < CALENDAR_BYTES; i++)
        if ((calendar[i] & 15) > 9 || calendar[i] < low[i] || calendar[i] > top[i])
            calendar[i] = low[i];
    if (calendar[DATE] > last_day(calendar[MONTH], calendar[YEAR]))
        calendar[DATE] = last_day(calendar[MONTH], calendar[YEAR]);
}

/* The list of changes between two images; how many there are. */
static uint64_t list_changes(const uint8_t *from, const uint8_t *to, uint8_t *changes)
{
    uint64_t count = 0;
    for (uint8_t i = TIME_PLACE; i < TIME_PLACE + CALENDAR_BYTES; i++)
        if (from[i] != to[i]) {
            const uint8_t change[CHANGE_BYTES] = {i, from[i], to[i]};
            memcpy(changes + CHANGE_BYTES * count, change, CHANGE_BYTES);
            count++;
        }
    return count;
}

/* What mending gives and leaves. */
struct mending {
    uint64_t number, count;
    uint8_t image[MOST_IMAGE], list[MOST_CHANGES];
};

static struct mending refused(struct call call, uint64_t number)
{
    struct mending mending = {.number = number, .count = 0};
    memcpy(mending.image, call.image.start, call.image.length);
    memset(mending.list, OLD_BYTE, sizeof mending.list);
    return mending;
}

/* What request 14 asks, with room for so many bytes of the list. */
static struct mending mending_of(struct call call, uint64_t room)
{
    struct mending mending = refused(call, ACCEPTED);
    if (!image_is_accepted(&fm3130_limits, call.image.start, call.image.length))
        return refused(call, WRONG_STATE);
    put_right(mending.image + TIME_PLACE);
    put_right(mending.image + CORE_PLACE);
    mending.count = list_changes(call.image.start, mending.image, mending.list);
    return room < CHANGE_BYTES * mending.count ? refused(call, SHORT_ANSWERS) : mending;
}

static void hold_mended_again(struct call call)
{
    uint8_t image[IMAGE_BYTES], none;
    memcpy(image, call.image.start, IMAGE_BYTES);
    struct fm3130_mended again = fm3130_mend(image, IMAGE_BYTES, &none, 0);
    hold(again.number == ACCEPTED && again.count == 0, "a mended image needs no mending");
    hold(memcmp(image, call.image.start, IMAGE_BYTES) == 0, "mending twice is mending once");
}

void hold_mend(struct call call, struct choices *choices)
{
    uint8_t room = choose_byte(choices);
    struct buffer changes = fenced_buffer(changes_fence, room / 2 % MOST_CHANGES, room & 1);
    struct mending must_be = mending_of(call, changes.length);
    memset(changes.start, OLD_BYTE, changes.length);
    begin(call);
    struct fm3130_mended is = fm3130_mend(call.image.start, call.image.length, changes.start, changes.length);
    hold(is.number == must_be.number, "mending gives its number");
    hold(is.count == must_be.count, "the count is the number of registers changed");
    hold(memcmp(call.image.start, must_be.image, call.image.length) == 0, "the image is put right, and no other byte");
    hold(memcmp(changes.start, must_be.list, changes.length) == 0, "the list names what changed, and no byte past it");
    hold(guard_is_whole(changes), "the bytes beside the list of changes are untouched");
    if (is.number == ACCEPTED)
        hold_mended_again(call);
    end(call);
}
