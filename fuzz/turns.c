/* SPDX-License-Identifier: Apache-2.0 */
#include "turns.h"

#include <string.h>

#include "hold.h"

enum { NOBODY, RIG, HANDHELD, MOST_BUS = 4 };

/* One turn: who makes it, the bus as it is lent, and the buffers of a call. */
struct turn {
    uint64_t master;
    struct buffer bus;
    struct call call;
};

static struct fence bus_fence, events_fence, answers_fence;

void prepare_turns(void)
{
    bus_fence = fence_around(MOST_BUS);
    events_fence = fence_around(MOST_EVENTS);
    answers_fence = fence_around(MOST_ANSWERS);
}

/* ---- number 8, written down once more */

/* A bus that some master or nobody holds, and one of the two masters. */
static int names_are_known(const struct turn *turn)
{
    return turn->bus.length == 1 && turn->bus.start[0] <= HANDHELD && (turn->master == RIG || turn->master == HANDHELD);
}

static int holds_the_bus(const struct turn *turn) { return turn->bus.start[0] == turn->master; }

static uint64_t ask_number(const struct turn *turn)
{
    if (!names_are_known(turn))
        return WRONG_STATE;
    return turn->bus.start[0] == NOBODY || holds_the_bus(turn) ? ACCEPTED : NOT_HELD;
}

/* Starts, Stops and Clocks do; ticks and power events belong to neither master. */
static int needs_the_bus(struct buffer events)
{
    for (uint64_t i = 0; i < events.length; i++)
        if (events.start[i] <= FM3130_CLOCK_HIGH)
            return 1;
    return 0;
}

/* The list run's numbers, with the bus and the master tested after the image, and 7 between 3 and 4. */
static uint64_t call_number(const struct turn *turn)
{
    const struct call *call = &turn->call;
    uint64_t number = run_number(&fm3130_limits, call->image.start, call->image.length, call->memory.length,
                                 call->events.start, call->events.length, call->answers.length);
    if (number == WRONG_MEMORY || !names_are_known(turn))
        return number == WRONG_MEMORY ? number : WRONG_STATE;
    if (number == WRONG_STATE || number == UNKNOWN_EVENT)
        return number;
    return needs_the_bus(call->events) && !holds_the_bus(turn) ? NOT_HELD : number;
}

static int is_an_end(uint8_t event)
{
    return event == FM3130_STOP || event == FM3130_POWER_LOST_WITH_BACKUP || event == FM3130_POWER_LOST_WITHOUT_BACKUP;
}

/* Whether the last Stop, event 5 or event 6 has no Start after it: which of these is met first from the end. */
static int frees_the_bus(struct buffer events)
{
    for (uint64_t i = events.length; i > 0; i--)
        if (is_an_end(events.start[i - 1]) || events.start[i - 1] == FM3130_START)
            return events.start[i - 1] != FM3130_START;
    return 0;
}

/* ---- what is held of a turn */

/* Who holds the bus after a turn; an odd bus, which is refused, stays as it was lent. */
static void hold_bus(struct buffer bus, const uint8_t *must_be)
{
    hold(memcmp(bus.start, must_be, bus.length) == 0, "the bus is held by whom number 8 says");
    hold(guard_is_whole(bus), "the bytes beside the bus are untouched");
}

static void hold_ask(struct turn turn)
{
    uint8_t bus[MOST_BUS];
    uint64_t number = ask_number(&turn);
    memcpy(bus, turn.bus.start, turn.bus.length);
    if (number == ACCEPTED)
        bus[0] = (uint8_t)turn.master;
    hold(fm3130_ask(turn.bus.start, turn.bus.length, turn.master) == number, "an ask's number is that of number 8");
    hold_bus(turn.bus, bus);
}

static struct fm3130_ran make_call(struct turn turn)
{
    struct call call = turn.call;
    return fm3130_call(turn.bus.start, turn.bus.length, turn.master, call.image.start, call.image.length,
                       call.memory.start, call.memory.length, call.events.start, call.events.length, call.answers.start,
                       call.answers.length);
}

/* Image, memory and answers after an accepted call, by the list run and by the plain program. */
static void hold_as_the_list_run(struct call call, const struct contents *before)
{
    static struct contents expected;
    copy(&expected, before, call);
    struct fm3130_ran ran = fm3130_run(expected.image, IMAGE_BYTES, expected.memory, MEMORY_BYTES, expected.events,
                                       call.events.length, expected.answers, call.events.length);
    hold(ran.number == ACCEPTED && ran.count == call.events.length, "the list run accepts the same list");
    hold(holds(call, &expected), "an accepted call is the list run");
    copy(&expected, before, call);
    call.part->plain(expected.image, expected.memory, expected.events, call.events.length, expected.answers);
    hold(holds(call, &expected), "an accepted call is the plain program's");
}

static void hold_call(struct turn turn)
{
    static struct contents before;
    uint8_t bus[MOST_BUS];
    uint64_t number = call_number(&turn);
    memcpy(bus, turn.bus.start, turn.bus.length);
    if (number == ACCEPTED && frees_the_bus(turn.call.events))
        bus[0] = NOBODY;
    keep(&before, turn.call);
    struct fm3130_ran ran = make_call(turn);
    hold(ran.number == number, "a call's number is that of number 8, in its order");
    hold(ran.count == (number == ACCEPTED ? turn.call.events.length : 0), "the count is the number of events done");
    hold_bus(turn.bus, bus);
    hold_guards(turn.call);
    if (number == ACCEPTED)
        hold_as_the_list_run(turn.call, &before);
    else
        hold(holds(turn.call, &before), "a refused call changes nothing");
}

/* ---- turns of two masters */

/* The bus as it stands; at times any byte in its place, or another length. */
static struct buffer lend_bus(struct choices *choices, uint8_t holder)
{
    uint8_t way = choose_byte(choices);
    size_t length = way % 32 == 31 ? way / 32 % (MOST_BUS + 1u) : 1;
    struct buffer bus = fenced_buffer(bus_fence, length, way & 0x20);
    memset(bus.start, way % 32 == 30 ? choose_byte(choices) : holder, length);
    return bus;
}

/* Where the list is cut for a turn: after some events, or a little after the next end of a transaction. */
static uint64_t choose_cut(struct choices *choices, struct buffer events, uint64_t from)
{
    uint8_t way = choose_byte(choices);
    uint64_t to = from;
    while (way & 1 && to < events.length && !is_an_end(events.start[to]))
        to++;
    to += way & 1 ? 1 + way / 2 % 4 : way / 2;
    return to < events.length ? to : events.length;
}

/* A turn's part of the list as a list of its own; at times every event is made one of ticks and power. */
static struct buffer deal(struct choices *choices, struct buffer events, uint64_t from, uint64_t to)
{
    uint8_t way = choose_byte(choices);
    struct buffer dealt = fenced_buffer(events_fence, to - from, way & 1);
    for (uint64_t i = from; i < to; i++)
        dealt.start[i - from] = events.start[i] | (way % 8 >= 6 ? FM3130_TICK : 0);
    return dealt;
}

static struct buffer lend_answers(struct choices *choices, uint64_t events)
{
    uint8_t way = choose_byte(choices);
    struct buffer answers = fenced_buffer(answers_fence, answers_length(choose_byte(choices), way, events), way & 0x80);
    memset(answers.start, OLD_BYTE, answers.length);
    return answers;
}

/* One turn; who holds the bus after it. */
static uint8_t hold_turn(struct call call, struct choices *choices, uint8_t holder, uint64_t *place)
{
    uint8_t way = choose_byte(choices);
    struct turn turn = {.master = way % 16 == 15 ? choose_near(choices, 3) : RIG + (way & 1u), .call = call};
    turn.bus = lend_bus(choices, holder);
    if (way & 0x40) {
        hold_ask(turn);
    } else {
        uint64_t from = *place;
        *place = choose_cut(choices, call.events, from);
        turn.call.events = deal(choices, call.events, from, *place);
        turn.call.answers = lend_answers(choices, turn.call.events.length);
        hold_call(turn);
    }
    return names_are_known(&turn) ? turn.bus.start[0] : holder;
}

void hold_turns(struct call call, struct choices *choices)
{
    uint8_t holder = choose_byte(choices) % (HANDHELD + 1);
    uint64_t place = 0;
    while (choices->left > 0)
        holder = hold_turn(call, choices, holder, &place);
}
