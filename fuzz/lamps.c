/* SPDX-License-Identifier: Apache-2.0 */
#include "lamps.h"

#include <string.h>

#include "hold.h"
#include "lamps_plain.h"

enum { RECORD_BYTES = 20, MOST_RECORD = 40 };

/* So many events after the cut are done one by one. */
enum { MOST_SINGLE = 16 };

static struct fence record_fence;
static struct contents before, after, expected;
static uint8_t old_record[MOST_RECORD], new_record[MOST_RECORD];

void prepare_lamps(void) { record_fence = fence_around(MOST_RECORD); }

/* ---- the record */

/* The greatest value of each byte (docs/DECISIONS.md, D102): of each lamp what the transaction under way gave, then the
 * ticks that are left to it. */
static const uint8_t most[RECORD_BYTES] = {1, 31, 255, 255, 2, 3, 2, 3, 2, 3, 2, 3, 2, 3, 2, 3, 2, 3, 2, 3};

static int record_is_accepted(struct buffer record)
{
    if (record.length != RECORD_BYTES)
        return 0;
    for (int i = 0; i < RECORD_BYTES; i++)
        if (record.start[i] > most[i])
            return 0;
    return 1;
}

static int record_is_of_nothing(struct buffer record)
{
    static const uint8_t zeros[RECORD_BYTES];
    return record.length == RECORD_BYTES && memcmp(record.start, zeros, RECORD_BYTES) == 0;
}

struct buffer choose_record(struct choices *choices)
{
    uint8_t way = choose_byte(choices);
    size_t length = way % 32 == 31 ? choose_byte(choices) % (MOST_RECORD + 1u) : RECORD_BYTES;
    struct buffer record = fenced_buffer(record_fence, length, way & 0x80);
    memset(record.start, 0, length);
    for (size_t i = 0; way % 4 == 3 && i < length; i++)
        record.start[i] = (uint8_t)(choose_byte(choices) % (most[i % RECORD_BYTES] + 1));
    if (way % 16 == 7 && length > 0) {
        size_t place = choose_byte(choices) % length;
        record.start[place] = way & 0x40 ? choose_byte(choices) : (uint8_t)(most[place % RECORD_BYTES] + 1);
    }
    return record;
}

/* ---- one call */

/* The list run's numbers, a record that is none being a state that is none. */
static uint64_t lamps_number(struct call call, struct buffer record)
{
    uint64_t number = run_number(&fm3130_limits, call.image.start, call.image.length, call.memory.length,
                                 call.events.start, call.events.length, call.answers.length);
    return number == WRONG_MEMORY || record_is_accepted(record) ? number : WRONG_STATE;
}

static struct fm3130_shown show(struct call call, struct buffer record, uint64_t from, uint64_t to)
{
    return fm3130_lamps(call.image.start, call.image.length, call.memory.start, call.memory.length,
                        call.events.start + from, to - from, call.answers.start + from, call.answers.length - from,
                        record.start, record.length);
}

static void begin_again(struct call call, struct buffer record)
{
    restore(call, &before);
    memcpy(record.start, old_record, record.length);
}

static void hold_both_guards(struct call call, struct buffer record)
{
    hold_guards(call);
    hold(guard_is_whole(record), "the bytes beside the record are untouched");
}

/* ---- what is held of an accepted list */

static void hold_as_the_list_run(struct call call)
{
    copy(&expected, &before, call);
    struct fm3130_ran ran = fm3130_run(expected.image, IMAGE_BYTES, expected.memory, MEMORY_BYTES, expected.events,
                                       call.events.length, expected.answers, call.events.length);
    hold(ran.number == ACCEPTED && ran.count == call.events.length, "the list run accepts the same list");
    hold(holds(call, &expected), "image, memory and answers are those of the list run");
}

/* The record that is left is one, is taken again, and with no events stays as it is. */
static void hold_taken_again(struct call call, struct buffer record, uint64_t report)
{
    uint64_t end = call.events.length;
    hold(record_is_accepted(record), "the record that is left is one");
    struct fm3130_shown again = show(call, record, end, end);
    hold(again.number == ACCEPTED && again.report == report, "the record that is left is accepted and shows the same");
    hold(memcmp(record.start, new_record, record.length) == 0 && holds(call, &after),
         "a list of no events changes nothing");
}

/* The ticks left to each lamp in the record that is left are its light. */
static void hold_lights(struct buffer record, uint64_t report)
{
    for (unsigned lamp = 0; lamp < FM3130_LAMPS; lamp++)
        hold((report >> lamp & 1) == (record.start[5 + 2 * lamp] > 0), "a lamp is lit with ticks left to it");
    hold(report >> FM3130_LAMPS == 0, "there are eight lamps");
}

static uint64_t hold_piece(struct call call, struct buffer record, uint64_t from, uint64_t to)
{
    struct fm3130_shown shown = show(call, record, from, to);
    hold(shown.number == ACCEPTED, "a piece of an accepted list is accepted");
    return shown.report;
}

static void hold_end(struct call call, struct buffer record, uint64_t report, uint64_t whole)
{
    hold(holds(call, &after), "image, memory and answers of a list in pieces are those of the whole");
    hold(memcmp(record.start, new_record, record.length) == 0, "the record of a list in pieces is that of the whole");
    hold(report == whole, "the report of a list in pieces is that of the whole");
    hold_both_guards(call, record);
}

static void hold_pieces(struct call call, struct buffer record, uint64_t report)
{
    begin_again(call, record);
    hold_piece(call, record, 0, call.cut);
    hold_end(call, record, hold_piece(call, record, call.cut, call.events.length), report);
}

/* From a device between transfers and the record before any event: the plain program's lamps at the end, at the cut and
 * after each of some events from there on. */
static void hold_plain(struct call call, struct buffer record, uint64_t report)
{
    static struct lamps_log log;
    uint64_t last = call.events.length - call.cut < MOST_SINGLE ? call.events.length : call.cut + MOST_SINGLE;
    copy(&expected, &before, call);
    lamps_follow(&log, expected.image, expected.memory, expected.events, call.events.length);
    hold(report == lamps_lit(&log, call.events.length), "the lamps after a list are the plain program's");
    begin_again(call, record);
    hold(hold_piece(call, record, 0, call.cut) == lamps_lit(&log, call.cut),
         "the lamps at the cut are the plain program's");
    for (uint64_t place = call.cut; place < last; place++)
        hold(hold_piece(call, record, place, place + 1) == lamps_lit(&log, place + 1),
             "the lamps after each event are the plain program's");
    hold_end(call, record, hold_piece(call, record, last, call.events.length), report);
}

static void hold_accepted(struct call call, struct buffer record, uint64_t report)
{
    keep(&after, call);
    memcpy(new_record, record.start, record.length);
    hold_as_the_list_run(call);
    hold_lights(record, report);
    hold_taken_again(call, record, report);
    hold_pieces(call, record, report);
    begin_again(call, record);
    if (record_is_of_nothing(record) && call.image.start[PHASE_PLACE] == 0)
        hold_plain(call, record, report);
}

static void hold_refused(struct call call, struct buffer record, uint64_t report)
{
    hold(report == 0, "under a refusal all lamps are dark");
    hold(holds(call, &before), "a refused list writes nothing");
    hold(memcmp(record.start, old_record, record.length) == 0, "a refused list leaves the record");
}

void hold_lamps(struct call call, struct buffer record)
{
    uint64_t number = lamps_number(call, record);
    keep(&before, call);
    memcpy(old_record, record.start, record.length);
    struct fm3130_shown shown = show(call, record, 0, call.events.length);
    hold(shown.number == number, "the number is 01's, a record that is none being refused by 2");
    hold_both_guards(call, record);
    if (number == ACCEPTED)
        hold_accepted(call, record, shown.report);
    else
        hold_refused(call, record, shown.report);
}
