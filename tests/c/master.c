/* SPDX-License-Identifier: Apache-2.0 */
/*
 * The master's functions through include/fm3130.h: the exact events of a short write and a short
 * read, written out by hand; bytes written and read on a device, of every count and over the end of
 * the memory; what answers tell that are not as they should be; and every refusal, with the buffer
 * untouched.
 */
#include <stddef.h>
#include <string.h>

#include "check.h"
#include "fm3130.h"

enum { FILL = 0xA5, MOST = FM3130_MASTER_MOST, ROOM = FM3130_READ_EVENTS(MOST) + 8 };

static uint8_t image[FM3130_IMAGE_BYTES], memory[FM3130_MEMORY_BYTES];
static uint8_t events[ROOM], answers[ROOM], got[MOST + 8];

static void check_filled(const char *what, struct fm3130_filled is, uint64_t number,
                         uint64_t count) {
    check_equal(what, is.number, number);
    check_equal(what, is.count, count);
}

/* The bytes of a buffer from a place on must be as they were. */
static void check_left(const char *what, const uint8_t *buffer, size_t from, size_t length) {
    for (size_t i = from; i < length; i++) {
        if (buffer[i] != FILL) {
            differ("%s: byte %llu was written", what, (unsigned long long)i);
        }
    }
}

static void check_events(const char *what, const uint8_t *must_be, size_t count) {
    for (size_t i = 0; i < count; i++) {
        if (events[i] != must_be[i]) {
            differ("%s: event %llu is %u, must be %u", what, (unsigned long long)i, events[i],
                   must_be[i]);
        }
    }
    check_left(what, events, count, ROOM);
}

/* clang-format off */
static void check_exact(void) {
    /* 5Ah at 1234h: each byte's bits, then its ninth clock, which the master leaves high. */
    static const uint8_t write[] = {
        0,
        3, 2, 3, 2, 2, 2, 2, 2, 3, /* A0h */
        2, 2, 2, 3, 2, 2, 3, 2, 3, /* 12h */
        2, 2, 3, 3, 2, 3, 2, 2, 3, /* 34h */
        2, 3, 2, 3, 3, 2, 3, 2, 3, /* 5Ah */
        1};
    static const uint8_t read[] = {
        0,
        3, 2, 3, 2, 2, 2, 2, 2, 3, /* A0h */
        2, 2, 2, 3, 2, 2, 3, 2, 3, /* 12h */
        2, 2, 3, 3, 2, 3, 2, 2, 3, /* 34h */
        0,
        3, 2, 3, 2, 2, 2, 2, 3, 3, /* A1h */
        3, 3, 3, 3, 3, 3, 3, 3, 2, /* a byte, and on */
        3, 3, 3, 3, 3, 3, 3, 3, 3, /* the last byte, and no more */
        1};
    static const uint8_t byte = 0x5A;
    memset(events, FILL, sizeof events);
    check_filled("a write of one", fm3130_write_events(0x1234, &byte, 1, events, sizeof write),
                 FM3130_MASTER_OK, sizeof write);
    check_events("a write of one", write, sizeof write);
    memset(events, FILL, sizeof events);
    check_filled("a read of two", fm3130_read_events(0x1234, 2, events, sizeof read),
                 FM3130_MASTER_OK, sizeof read);
    check_events("a read of two", read, sizeof read);
}
/* clang-format on */

/* Runs the events that a function gave; the answers are as many. */
static void run(uint64_t count) {
    struct fm3130_ran ran = fm3130_run(image, sizeof image, memory, sizeof memory, events, count,
                                       answers, sizeof answers);
    check_equal("number of the list run", ran.number, FM3130_OK);
    check_equal("count of the list run", ran.count, count);
}

/* So many bytes from an address on, written and read; nothing else in the memory changes. */
static void check_round_trip(uint64_t address, uint64_t count) {
    uint8_t bytes[MOST], flags[MOST + 8];
    for (size_t i = 0; i < MOST; i++) {
        bytes[i] = (uint8_t)(i * 37 + count);
    }
    memset(memory, 0x77, sizeof memory);
    struct fm3130_filled sent = fm3130_write_events(address, bytes, count, events, sizeof events);
    check_filled("round trip: write", sent, FM3130_MASTER_OK, FM3130_WRITE_EVENTS(count));
    run(sent.count);
    memset(flags, FILL, sizeof flags);
    check_filled("round trip: flags",
                 fm3130_write_told(count, answers, sent.count, flags, sizeof flags),
                 FM3130_MASTER_OK, count);
    for (size_t i = 0; i < count; i++) {
        check_equal("round trip: flag", flags[i], 1);
    }
    check_left("round trip: flags", flags, count, sizeof flags);
    for (uint64_t i = 0; i < sizeof memory; i++) {
        uint64_t place = (i + sizeof memory - address) % sizeof memory;
        check_equal("round trip: memory", memory[i], place < count ? bytes[place] : 0x77);
    }
    if (count == 0) {
        return;
    }
    struct fm3130_filled asked = fm3130_read_events(address, count, events, sizeof events);
    check_filled("round trip: read", asked, FM3130_MASTER_OK, FM3130_READ_EVENTS(count));
    run(asked.count);
    memset(got, FILL, sizeof got);
    check_filled("round trip: bytes",
                 fm3130_read_told(count, answers, asked.count, got, sizeof got), FM3130_MASTER_OK,
                 count);
    check_equal("round trip: bytes", (uint64_t)memcmp(got, bytes, count), 0);
    check_left("round trip: bytes", got, count, sizeof got);
}

static void check_round_trips(void) {
    static const uint64_t addresses[] = {0x0000, 0x07FF, 0x1000, 0x1F80, 0x1FFE, 0x1FFF};
    check_equal("fm3130_fresh", fm3130_fresh(image, sizeof image), FM3130_OK);
    for (uint64_t count = 0; count <= MOST; count++) {
        for (size_t i = 0; i < sizeof addresses / sizeof addresses[0]; i++) {
            check_round_trip(addresses[i], count);
        }
    }
}

/* WP 01 protects 0000h to 07FFh: the byte at 0000h is refused, and so is all after it. */
static void check_protected(void) {
    static const uint8_t bytes[] = {1, 2, 3, 4};
    uint8_t flags[sizeof bytes];
    check_equal("fm3130_fresh", fm3130_fresh(image, sizeof image), FM3130_OK);
    image[0x0E] = 0x08;
    memset(memory, 0x77, sizeof memory);
    struct fm3130_filled sent =
        fm3130_write_events(0x1FFE, bytes, sizeof bytes, events, sizeof events);
    check_filled("protected: write", sent, FM3130_MASTER_OK, FM3130_WRITE_EVENTS(sizeof bytes));
    run(sent.count);
    check_filled("protected: flags",
                 fm3130_write_told(sizeof bytes, answers, sent.count, flags, sizeof flags),
                 FM3130_MASTER_OK, sizeof bytes);
    check_equal("protected: 1FFEh", flags[0], 1);
    check_equal("protected: 1FFFh", flags[1], 1);
    check_equal("protected: 0000h", flags[2], 0);
    check_equal("protected: after it", flags[3], 0);
    check_equal("protected: memory", memory[0], 0x77);
}

/* Answers of a device without power, or with one line changed by hand. */
static void check_unacknowledged(void) {
    static const size_t ninths[] = {9, 18, 27, 37};
    uint8_t flag = FILL;
    memset(answers, 0, sizeof answers); /* every line low: all acknowledged, and 00h read */
    check_filled("low lines", fm3130_write_told(1, answers, FM3130_WRITE_EVENTS(1), &flag, 1),
                 FM3130_MASTER_OK, 1);
    check_equal("low lines: flag", flag, 1);
    for (size_t i = 0; i < sizeof ninths / sizeof ninths[0]; i++) {
        memset(answers, 0, sizeof answers);
        answers[ninths[i]] = FM3130_ANSWER_LINE;
        memset(got, FILL, sizeof got);
        check_filled("unacknowledged: read",
                     fm3130_read_told(2, answers, FM3130_READ_EVENTS(2), got, sizeof got),
                     FM3130_MASTER_OK, 0);
        check_left("unacknowledged: read", got, 0, sizeof got);
        if (ninths[i] < FM3130_WRITE_EVENTS(0)) {
            check_filled("unacknowledged: write",
                         fm3130_write_told(1, answers, FM3130_WRITE_EVENTS(1), &flag, 1),
                         FM3130_MASTER_OK, 1);
            check_equal("unacknowledged: flag", flag, 0);
        }
    }
}

static void check_refused(const char *what, struct fm3130_filled is, uint64_t number) {
    check_filled(what, is, number, 0);
    check_left(what, events, 0, sizeof events);
    check_left(what, got, 0, sizeof got);
}

/* Each number, and that the first that applies is given; a number cut to fewer bits would be good. */
static void check_refusals(void) {
    static const uint64_t many[] = {MOST + 1, UINT64_C(1) << 16, UINT64_C(1) << 32, UINT64_MAX};
    static const uint64_t far[] = {0x2000, 0x10000, UINT64_C(1) << 32, UINT64_MAX};
    static const uint8_t bytes[MOST + 1];
    memset(events, FILL, sizeof events);
    memset(got, FILL, sizeof got);
    check_refused("a write of 257", fm3130_write_events(0x2000, bytes, MOST + 1, events, 0), 1);
    for (size_t i = 0; i < sizeof many / sizeof many[0]; i++) {
        check_refused("a read of many", fm3130_read_events(0x2000, many[i], events, 0), 1);
        check_refused("flags of many", fm3130_write_told(many[i], answers, 0, got, 0), 1);
        check_refused("bytes of many", fm3130_read_told(many[i], answers, 0, got, 0), 1);
        check_refused("a write far away", fm3130_write_events(far[i], bytes, 1, events, 0), 3);
        check_refused("a read far away", fm3130_read_events(far[i], 1, events, 0), 3);
    }
    check_refused("a read of none", fm3130_read_events(0x2000, 0, events, 0), 2);
    check_refused("bytes of none", fm3130_read_told(0, answers, 0, got, 0), 2);
    for (uint64_t count = 1; count <= MOST; count++) {
        uint64_t wrote = FM3130_WRITE_EVENTS(count), read = FM3130_READ_EVENTS(count);
        check_refused("room", fm3130_write_events(0, bytes, count, events, wrote - 1), 4);
        check_refused("room", fm3130_read_events(0, count, events, read - 1), 4);
        check_refused("room", fm3130_write_told(count, answers, 0, got, count - 1), 4);
        check_refused("room", fm3130_read_told(count, answers, 0, got, count - 1), 4);
        check_refused("cut", fm3130_write_told(count, answers, wrote - 1, got, count), 5);
        check_refused("cut", fm3130_read_told(count, answers, read - 1, got, count), 5);
        check_refused("long", fm3130_write_told(count, answers, wrote + 1, got, count), 5);
        check_refused("long", fm3130_read_told(count, answers, read + 1, got, count), 5);
    }
}

void check_master(void) {
    check_exact();
    check_round_trips();
    check_protected();
    check_unacknowledged();
    check_refusals();
}
