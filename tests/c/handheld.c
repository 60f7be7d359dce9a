/* SPDX-License-Identifier: Apache-2.0 */
/*
 * Two masters through the header: every bus byte with every master that asks, every short list of
 * events by each master against rules written out here, the order of the refusals with untouched
 * buffers, and a session in which a read that sets its address is answered as if it were alone.
 */
#include <string.h>

#include "check.h"
#include "fm3130.h"

enum { ROOM = 128, FILL = 0xA5, LONGEST = 4, EVENTS = 8 };

static uint8_t bus[2], image[FM3130_IMAGE_BYTES], memory[FM3130_MEMORY_BYTES], answers[ROOM];

static void begin(uint8_t holder) {
    bus[0] = holder;
    bus[1] = FILL;
    check_equal("fm3130_fresh", fm3130_fresh(image, sizeof image), FM3130_OK);
    memset(memory, 0x3C, sizeof memory);
    memset(answers, FILL, sizeof answers);
}

static struct fm3130_ran call(uint64_t master, const uint8_t *events, uint64_t count) {
    return fm3130_call(bus, FM3130_BUS_BYTES, master, image, sizeof image, memory, sizeof memory,
                       events, count, answers, sizeof answers);
}

/* All bus bytes, all masters that a byte can name, and some that a cut number would make good. */
static void check_asks(void) {
    static const uint64_t far[] = {256, 257, 258, UINT64_C(1) << 32 | 1, UINT64_MAX};
    for (unsigned holder = 0; holder < 256; holder++) {
        for (unsigned master = 0; master < 256; master++) {
            int exists = holder <= 2 && (master == 1 || master == 2);
            int granted = exists && (holder == 0 || holder == master);
            begin((uint8_t)holder);
            check_equal("ask: number", fm3130_ask(bus, FM3130_BUS_BYTES, master),
                        granted ? FM3130_OK : exists ? FM3130_NOT_HELD : FM3130_WRONG_STATE);
            check_equal("ask: bus", bus[0], granted ? master : holder);
            check_equal("ask: byte past", bus[1], FILL);
        }
    }
    for (unsigned i = 0; i < sizeof far / sizeof far[0]; i++) {
        begin(FM3130_NOBODY);
        check_equal("ask: far", fm3130_ask(bus, FM3130_BUS_BYTES, far[i]), FM3130_WRONG_STATE);
        check_equal("ask: far, bus", bus[0], FM3130_NOBODY);
    }
    for (uint64_t length = 0; length <= 2; length += 2) {
        begin(FM3130_NOBODY);
        check_equal("ask: length", fm3130_ask(bus, length, FM3130_RIG), FM3130_WRONG_STATE);
        check_equal("ask: length, bus", bus[0], FM3130_NOBODY);
    }
}

/* The request's words: the last Stop, event 5 or event 6 has no Start after it. */
static int frees(const uint8_t *events, unsigned count) {
    int freed = 0;
    for (unsigned i = 0; i < count; i++) {
        if (events[i] == FM3130_START) {
            freed = 0;
        } else if (events[i] == FM3130_STOP || events[i] == FM3130_POWER_LOST_WITH_BACKUP
                   || events[i] == FM3130_POWER_LOST_WITHOUT_BACKUP) {
            freed = 1;
        }
    }
    return freed;
}

/* One call: number and bus by the request's words, all else as the list run leaves it. */
static void check_call(uint8_t holder, uint64_t master, const uint8_t *events, unsigned count) {
    static uint8_t alone_image[sizeof image], alone_memory[sizeof memory], alone_answers[ROOM];
    int needs_bus = 0;
    for (unsigned i = 0; i < count; i++) {
        needs_bus = needs_bus || events[i] <= FM3130_CLOCK_HIGH;
    }
    int answered = !needs_bus || holder == master;
    begin(holder);
    memcpy(alone_image, image, sizeof image);
    memcpy(alone_memory, memory, sizeof memory);
    memcpy(alone_answers, answers, sizeof answers);
    if (answered) {
        check_equal("run: number",
                    fm3130_run(alone_image, sizeof image, alone_memory, sizeof memory, events,
                               count, alone_answers, sizeof alone_answers)
                        .number,
                    FM3130_OK);
    }
    struct fm3130_ran ran = call(master, events, count);
    check_equal("call: number", ran.number, answered ? FM3130_OK : FM3130_NOT_HELD);
    check_equal("call: count", ran.count, answered ? count : 0);
    check_equal("call: bus", bus[0], answered && frees(events, count) ? FM3130_NOBODY : holder);
    check_equal("call: image", (uint64_t)memcmp(image, alone_image, sizeof image), 0);
    check_equal("call: memory", (uint64_t)memcmp(memory, alone_memory, sizeof memory), 0);
    check_equal("call: answers", (uint64_t)memcmp(answers, alone_answers, sizeof answers), 0);
}

/* Every list of up to four events, by each master, under each holder. */
static unsigned long check_calls(void) {
    unsigned long calls = 0;
    for (unsigned count = 0, lists = 1; count <= LONGEST; count++, lists *= EVENTS) {
        for (unsigned list = 0; list < lists; list++) {
            uint8_t events[LONGEST];
            for (unsigned i = 0, rest = list; i < count; i++, rest /= EVENTS) {
                events[i] = (uint8_t)(rest % EVENTS);
            }
            for (uint8_t holder = 0; holder <= 2; holder++) {
                check_call(holder, FM3130_RIG, events, count);
                check_call(holder, FM3130_HANDHELD, events, count);
                calls += 2;
            }
        }
    }
    return calls;
}

struct refusal {
    const char *what;
    uint64_t number, bus_length, master, image_length, memory_length, answers_length;
    uint8_t holder, event;
};

/* Each has all the faults of the later ones too: the first number in the order is given. */
static const struct refusal refusals[] = {
    {"call: 1 before all", 1, 2, 3, 63, 8191, 0, 3, 8},
    {"call: 2 by the image", 2, 2, 3, 63, 8192, 0, 3, 8},
    {"call: 2 by the bus's length", 2, 2, 2, 64, 8192, 0, 1, 8},
    {"call: 2 with no bus", 2, 0, 2, 64, 8192, 0, 1, 8},
    {"call: 2 by the bus byte", 2, 1, 2, 64, 8192, 0, 3, 8},
    {"call: 2 by master 0", 2, 1, 0, 64, 8192, 0, 1, 8},
    {"call: 2 by master 3", 2, 1, 3, 64, 8192, 0, 1, 8},
    {"call: 2 by master 258", 2, 1, 258, 64, 8192, 0, 1, 8},
    {"call: 3 before 7", 3, 1, 2, 64, 8192, 0, 1, 8},
    {"call: 7 before 4", 7, 1, 2, 64, 8192, 0, 1, 0},
    {"call: 7 where nobody holds it", 7, 1, 2, 64, 8192, 0, 0, 0},
    {"call: 4", 4, 1, 2, 64, 8192, 0, 2, 0},
    {"call: 4 without the bus", 4, 1, 2, 64, 8192, 0, 1, 4},
};

static void check_refusals(void) {
    static uint8_t image_before[sizeof image], memory_before[sizeof memory],
        answers_before[sizeof answers];
    for (unsigned i = 0; i < sizeof refusals / sizeof refusals[0]; i++) {
        const struct refusal *one = &refusals[i];
        begin(one->holder);
        memcpy(image_before, image, sizeof image);
        memcpy(memory_before, memory, sizeof memory);
        memcpy(answers_before, answers, sizeof answers);
        struct fm3130_ran ran =
            fm3130_call(bus, one->bus_length, one->master, image, one->image_length, memory,
                        one->memory_length, &one->event, 1, answers, one->answers_length);
        check_equal(one->what, ran.number, one->number);
        check_equal(one->what, ran.count, 0);
        check_equal(one->what, bus[0], one->holder);
        check_equal(one->what, bus[1], FILL);
        check_equal(one->what, (uint64_t)memcmp(image, image_before, sizeof image), 0);
        check_equal(one->what, (uint64_t)memcmp(memory, memory_before, sizeof memory), 0);
        check_equal(one->what, (uint64_t)memcmp(answers, answers_before, sizeof answers), 0);
    }
}

/* Adds a byte that the master sends, its ninth clock released. */
static unsigned add_byte(uint8_t *events, unsigned at, uint8_t byte) {
    for (unsigned bit = 0; bit < 8; bit++) {
        events[at++] = byte & (0x80u >> bit) ? FM3130_CLOCK_HIGH : FM3130_CLOCK_LOW;
    }
    events[at++] = FM3130_CLOCK_HIGH;
    return at;
}

/* Start, A0h, an address: the opening of a transaction with the memory. */
static unsigned add_opening(uint8_t *events, uint16_t address) {
    events[0] = FM3130_START;
    unsigned at = add_byte(events, 1, 0xA0);
    at = add_byte(events, at, (uint8_t)(address >> 8));
    return add_byte(events, at, (uint8_t)(address & 0xFFu));
}

/* A read of one byte, with its address set or from the current one; returns the byte. */
static uint8_t read_byte(uint64_t master, int sets_address, uint16_t address) {
    uint8_t events[ROOM];
    unsigned at = sets_address ? add_opening(events, address) : 0;
    events[at++] = FM3130_START;
    at = add_byte(events, at, 0xA1);
    unsigned first = at;
    at = add_byte(events, at, 0xFF);
    events[at++] = FM3130_STOP;
    check_equal("session: ask", fm3130_ask(bus, FM3130_BUS_BYTES, master), FM3130_OK);
    check_equal("session: call", call(master, events, at).number, FM3130_OK);
    check_equal("session: freed", bus[0], FM3130_NOBODY);
    uint8_t byte = 0;
    for (unsigned bit = 0; bit < 8; bit++) {
        byte = (uint8_t)(byte << 1 | (answers[first + bit] & FM3130_ANSWER_LINE));
    }
    return byte;
}

/* The other aims at another byte between two reads: one that sets its address does not notice. */
static void check_session(void) {
    uint8_t events[ROOM];
    unsigned at = add_opening(events, 0x0123);
    events[at++] = FM3130_STOP;
    begin(FM3130_NOBODY);
    memory[0x0000] = 0x11;
    memory[0x0123] = 0x22;
    check_equal("session: set, alone", read_byte(FM3130_RIG, 1, 0x0000), 0x11);
    check_equal("session: handheld asks", fm3130_ask(bus, FM3130_BUS_BYTES, FM3130_HANDHELD), 0);
    check_equal("session: rig asks", fm3130_ask(bus, FM3130_BUS_BYTES, FM3130_RIG),
                FM3130_NOT_HELD);
    check_equal("session: handheld aims", call(FM3130_HANDHELD, events, at).number, FM3130_OK);
    check_equal("session: current, other's", read_byte(FM3130_RIG, 0, 0), 0x22);
    check_equal("session: set, after the other", read_byte(FM3130_RIG, 1, 0x0000), 0x11);
}

unsigned long check_handheld(void) {
    check_asks();
    check_refusals();
    check_session();
    return check_calls();
}
