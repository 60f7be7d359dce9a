/* SPDX-License-Identifier: Apache-2.0 */
/*
 * K12's exact run, and every refusal of the entries that a 32-bit caller uses, with untouched
 * buffers. Lengths have 64 bits on every target: one whose low 32 bits are right is refused all the
 * same.
 */
#include "board.h"
#include "fm3130.h"

enum { FILL = 0xA5, POWER_AT = 25 };

#define ABOVE (UINT64_C(1) << 32)

static const uint8_t exact_events[] = {0, 3, 2, 3, 2, 2, 2, 2, 2, 3, 1};
static const uint8_t exact_answers[] = {5, 5, 4, 5, 4, 4, 4, 4, 4, 4, 5};

/* One call's buffers and lengths; `answers` is also what fm3130_step tells. */
static struct call {
    uint64_t image_length, memory_length, events_length, answers_length;
    uint8_t image[FM3130_IMAGE_BYTES];
    uint8_t events[16], answers[16];
} call;
static uint8_t memory[FM3130_MEMORY_BYTES];
static uint32_t cases;

static uint8_t memory_byte(uint32_t at) {
    return (uint8_t)(at * 7 + (at >> 8));
}

static void begin(void) {
    for (uint32_t i = 0; i < sizeof memory; i++) {
        memory[i] = memory_byte(i);
    }
    for (unsigned i = 0; i < 16; i++) {
        call.events[i] = i < sizeof exact_events ? exact_events[i] : FILL;
        call.answers[i] = FILL;
    }
    call.image_length = FM3130_IMAGE_BYTES;
    call.memory_length = FM3130_MEMORY_BYTES;
    call.events_length = call.answers_length = sizeof exact_events;
    check_equal("fm3130_fresh", (uint32_t)fm3130_fresh(call.image, sizeof call.image), FM3130_OK);
}

static uint64_t do_run(void) {
    return fm3130_run_number(call.image, call.image_length, memory, call.memory_length, call.events,
                             call.events_length, call.answers, call.answers_length);
}

static uint64_t event;

static uint64_t do_step(void) {
    return fm3130_step(call.image, call.image_length, memory, call.memory_length, event,
                       call.answers, call.answers_length);
}

static uint64_t do_line(void) {
    return fm3130_line(call.image, call.image_length, memory, call.memory_length);
}

static void check_memory(const char *what) {
    for (uint32_t i = 0; i < sizeof memory; i++) {
        check_equal(what, memory[i], memory_byte(i));
    }
}

/* The call is refused by this number, all 64 bits of it, and writes nothing. */
static void check_refused(const char *what, uint64_t (*entry)(void), uint32_t number) {
    static struct call before;
    before = call;
    uint64_t got = entry();
    check_equal(what, (uint32_t)(got >> 32), 0);
    check_equal(what, (uint32_t)got, number);
    for (unsigned i = 0; i < sizeof call.image; i++) {
        check_equal(what, call.image[i], before.image[i]);
    }
    for (unsigned i = 0; i < sizeof call.answers; i++) {
        check_equal(what, call.answers[i], before.answers[i]);
    }
    check_memory(what);
    cases++;
}

static void check_exact_run(void) {
    begin();
    check_equal("K12: number", (uint32_t)do_run(), FM3130_OK);
    for (unsigned i = 0; i < sizeof exact_answers; i++) {
        check_equal("K12: an answer", call.answers[i], exact_answers[i]);
    }
    check_equal("K12: the byte past the answers", call.answers[sizeof exact_answers], FILL);
    check_memory("K12: memory");
    begin();
    for (unsigned i = 0; i < sizeof exact_events; i++) {
        event = exact_events[i];
        call.answers_length = FM3130_TOLD_BYTES;
        check_equal("K12 by steps: number", (uint32_t)do_step(), FM3130_OK);
        check_equal("K12 by steps: an answer", call.answers[0], exact_answers[i]);
        check_equal("K12 by steps: field", call.answers[1], FM3130_ROLLED_NOTHING);
        check_equal("K12 by steps: the byte past", call.answers[2], FILL);
    }
    check_memory("K12 by steps: memory");
    cases += 2;
}

/* Every length that is not the right one; among them the right one and a multiple of 2^32. */
static void check_lengths(const char *what, uint64_t (*entry)(void)) {
    static const uint64_t memories[] = {
        0, 8191, 8193, ABOVE, ABOVE + 8192, 8 * ABOVE + 8192, (ABOVE << 31) + 8192, UINT64_MAX};
    static const uint64_t images[] = {
        0, 63, 65, ABOVE, ABOVE + 64, 8 * ABOVE + 64, (ABOVE << 31) + 64, UINT64_MAX};
    for (unsigned i = 0; i < sizeof memories / sizeof memories[0]; i++) {
        begin();
        call.memory_length = memories[i];
        check_refused(what, entry, FM3130_WRONG_MEMORY);
        call.image_length = 63;
        check_refused(what, entry, FM3130_WRONG_MEMORY);
    }
    for (unsigned i = 0; i < sizeof images / sizeof images[0]; i++) {
        begin();
        call.image_length = images[i];
        check_refused(what, entry, FM3130_WRONG_STATE);
    }
    begin();
    call.image[POWER_AT] = 3;
    check_refused(what, entry, FM3130_WRONG_STATE);
}

static void check_fresh(void) {
    static const uint64_t lengths[] = {0, 63, 65, ABOVE, ABOVE + 64, (ABOVE << 31) + 64};
    for (unsigned i = 0; i < sizeof lengths / sizeof lengths[0]; i++) {
        begin();
        call.image[0] = FILL;
        check_equal("fm3130_fresh of another length",
                    (uint32_t)fm3130_fresh(call.image, lengths[i]), FM3130_WRONG_STATE);
        check_equal("fm3130_fresh of another length", call.image[0], FILL);
        cases++;
    }
}

/* Numbers 3 and 4, and that they are tested after 1 and 2 and in this order. */
static void check_events(void) {
    static const uint64_t unknown[] = {8, 255, 256 + FM3130_TICK, ABOVE + FM3130_TICK, UINT64_MAX};
    for (unsigned i = 0; i < sizeof unknown / sizeof unknown[0]; i++) {
        begin();
        event = unknown[i];
        check_refused("an unknown event", do_step, FM3130_UNKNOWN_EVENT);
        call.answers_length = 1;
        check_refused("an unknown event and a short answer", do_step, FM3130_UNKNOWN_EVENT);
    }
    begin();
    event = FM3130_TICK;
    call.answers_length = 1;
    check_refused("a short answer", do_step, FM3130_SHORT_ANSWERS);
    begin();
    call.events[10] = 8;
    check_refused("an unknown event in a list", do_run, FM3130_UNKNOWN_EVENT);
    call.answers_length = 10;
    check_refused("both in a list", do_run, FM3130_UNKNOWN_EVENT);
    call.events[10] = FM3130_STOP;
    check_refused("short answers of a list", do_run, FM3130_SHORT_ANSWERS);
}

int main(void) {
    check_exact_run();
    event = FM3130_CLOCK_HIGH;
    check_lengths("fm3130_run_number of other lengths", do_run);
    check_lengths("fm3130_step of other lengths", do_step);
    check_lengths("fm3130_line of other lengths", do_line);
    check_fresh();
    check_events();
    say_number(cases, 0);
    say(" cases\n");
    return 0;
}
