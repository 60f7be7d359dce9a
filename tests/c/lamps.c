/* SPDX-License-Identifier: Apache-2.0 */
/*
 * fm3130_lamps through include/fm3130.h: a lamp proved by a whole read; what darkens it; the list in
 * pieces; image, memory and answers beside fm3130_run; and what is refused, by which number, with
 * nothing written.
 */
#include <string.h>

#include "check.h"
#include "fm3130.h"

enum { ROOM = 512 };

/* A device with its record, the events of a call, and room for its answers. */
struct bench {
    uint8_t image[FM3130_IMAGE_BYTES];
    uint8_t memory[FM3130_MEMORY_BYTES];
    uint8_t record[FM3130_RECORD_BYTES];
    uint8_t events[ROOM];
    uint8_t answers[ROOM];
    uint64_t count;
};

static void begin(struct bench *bench) {
    memset(bench, 0, sizeof *bench);
    check_equal("lamps: the fresh image", fm3130_fresh(bench->image, sizeof bench->image), 0);
}

static void add(struct bench *bench, uint8_t event) {
    bench->events[bench->count++] = event;
}

/* A byte that the master writes, or 0xFF for one that it reads; its ninth clock is `ninth`. */
static void add_byte(struct bench *bench, unsigned byte, uint8_t ninth) {
    for (unsigned bit = 0x80; bit != 0; bit /= 2) {
        add(bench, byte & bit ? FM3130_CLOCK_HIGH : FM3130_CLOCK_LOW);
    }
    add(bench, ninth);
}

/* A Start, a slave byte and an address. */
static void add_address(struct bench *bench, unsigned address) {
    add(bench, FM3130_START);
    add_byte(bench, 0xA0, FM3130_CLOCK_HIGH);
    add_byte(bench, address / 256, FM3130_CLOCK_HIGH);
    add_byte(bench, address % 256, FM3130_CLOCK_HIGH);
}

/* A whole read of so many bytes, without its Stop. */
static void add_read(struct bench *bench, unsigned address, unsigned count) {
    add_address(bench, address);
    add(bench, FM3130_START);
    add_byte(bench, 0xA1, FM3130_CLOCK_HIGH);
    for (unsigned i = 1; i <= count; i++) {
        add_byte(bench, 0xFF, i < count ? FM3130_CLOCK_LOW : FM3130_CLOCK_HIGH);
    }
}

/* The call, with lengths of its own for three of the buffers. */
static struct fm3130_shown call(struct bench *bench, uint64_t image, uint64_t memory,
                                uint64_t answers, uint64_t record) {
    return fm3130_lamps(bench->image, image, bench->memory, memory, bench->events, bench->count,
                        bench->answers, answers, bench->record, record);
}

/* Does the events that were added, and forgets them. The report must be this one. */
static void check_report(struct bench *bench, const char *what, uint64_t must_be) {
    struct fm3130_shown shown =
        call(bench, FM3130_IMAGE_BYTES, FM3130_MEMORY_BYTES, ROOM, FM3130_RECORD_BYTES);
    check_equal(what, shown.number, FM3130_OK);
    check_equal(what, shown.report, must_be);
    bench->count = 0;
}

/* Lamps 0 and 7 hold 1, the six between them other values; all are proved by one read. */
static void prove(struct bench *bench) {
    static const uint8_t values[FM3130_LAMPS] = {1, 0, 2, 3, 0xFF, 0x81, 0x11, 1};
    begin(bench);
    memcpy(bench->memory + FM3130_LAMP_ADDRESS, values, sizeof values);
    add_read(bench, FM3130_LAMP_ADDRESS, FM3130_LAMPS);
    check_report(bench, "lamps: a read without its Stop", 0);
    add(bench, FM3130_STOP);
    check_report(bench, "lamps: a whole read", 0x81);
}

static void check_ticks(void) {
    struct bench bench;
    prove(&bench);
    add(&bench, FM3130_TICK);
    add(&bench, FM3130_TICK);
    check_report(&bench, "lamps: two ticks", 0x81);
    add(&bench, FM3130_TICK);
    check_report(&bench, "lamps: three ticks", 0);
    add_read(&bench, FM3130_LAMP_ADDRESS + 7, 1);
    add(&bench, FM3130_TICK);
    add(&bench, FM3130_STOP);
    check_report(&bench, "lamps: one of them read again", 0x80);
}

/* A hang after 0 to 9 clocks of a byte, freed by a Start or a Stop. */
static void check_hangs(void) {
    for (unsigned clocks = 0; clocks <= 9; clocks++) {
        for (uint8_t event = FM3130_START; event <= FM3130_STOP; event++) {
            struct bench bench;
            prove(&bench);
            add(&bench, FM3130_START);
            for (unsigned i = 0; i < clocks; i++) {
                add(&bench, 0xA0 << i & 0x80 ? FM3130_CLOCK_HIGH : FM3130_CLOCK_LOW);
            }
            add(&bench, FM3130_TICK);
            check_report(&bench, "lamps: a hang", 0x81);
            add(&bench, event);
            check_report(&bench, "lamps: freed", clocks == 0 || clocks == 9 ? 0x81 : 0);
        }
    }
}

/* A byte that is not acknowledged, and a loss of power. */
static void check_failures(void) {
    struct bench bench;
    prove(&bench);
    add(&bench, FM3130_START);
    add_byte(&bench, 0xA2, FM3130_CLOCK_LOW);
    check_report(&bench, "lamps: a slave byte that names nobody", 0);
    for (uint8_t event = FM3130_POWER_LOST_WITH_BACKUP; event <= FM3130_POWER_RETURNED; event++) {
        prove(&bench);
        add(&bench, event);
        check_report(&bench, "lamps: power", event == FM3130_POWER_RETURNED ? 0x81 : 0);
    }
}

/* One event a call is the whole list in one call, and beside fm3130_run. */
static void check_pieces(void) {
    struct bench whole, pieces, plain;
    begin(&whole);
    whole.memory[FM3130_LAMP_ADDRESS + 3] = 1;
    add_read(&whole, FM3130_LAMP_ADDRESS + 2, 3);
    add(&whole, FM3130_TICK);
    add(&whole, FM3130_STOP);
    add(&whole, FM3130_TICK);
    pieces = whole;
    plain = whole;
    uint64_t count = whole.count, report = 0;
    check_report(&whole, "lamps: the whole list", 0x08);
    for (uint64_t i = 0; i < count; i++) {
        struct fm3130_shown shown = fm3130_lamps(
            pieces.image, sizeof pieces.image, pieces.memory, sizeof pieces.memory,
            pieces.events + i, 1, pieces.answers + i, 1, pieces.record, sizeof pieces.record);
        check_equal("lamps: a piece", shown.number, FM3130_OK);
        report = shown.report;
    }
    check_equal("lamps: the pieces", report, 0x08);
    struct fm3130_ran ran =
        fm3130_run(plain.image, sizeof plain.image, plain.memory, sizeof plain.memory,
                   plain.events, plain.count, plain.answers, sizeof plain.answers);
    check_equal("lamps: the plain list run", ran.count, count);
    if (memcmp(whole.record, pieces.record, sizeof whole.record) != 0 ||
        memcmp(whole.answers, pieces.answers, sizeof whole.answers) != 0 ||
        memcmp(whole.image, pieces.image, sizeof whole.image) != 0) {
        differ("lamps: the list in pieces");
    }
    if (memcmp(whole.image, plain.image, sizeof whole.image) != 0 ||
        memcmp(whole.memory, plain.memory, sizeof whole.memory) != 0 ||
        memcmp(whole.answers, plain.answers, sizeof whole.answers) != 0) {
        differ("lamps: beside the plain list run");
    }
}

/* Refused by the first number that fits: all dark, and nothing is written. */
static void check_refused(struct bench *bench, uint64_t image, uint64_t memory, uint64_t answers,
                          uint64_t record, uint64_t number) {
    struct bench before = *bench;
    struct fm3130_shown shown = call(bench, image, memory, answers, record);
    check_equal("lamps: a refusal's number", shown.number, number);
    check_equal("lamps: a refusal's report", shown.report, 0);
    if (memcmp(&before, bench, sizeof before) != 0) {
        differ("lamps: number %llu has written", (unsigned long long)number);
    }
}

static void check_refusals(void) {
    enum { I = FM3130_IMAGE_BYTES, M = FM3130_MEMORY_BYTES, R = FM3130_RECORD_BYTES };
    struct bench bench;
    prove(&bench);
    add(&bench, FM3130_TICK);
    add(&bench, 8);
    check_refused(&bench, I - 1, M - 1, 1, R - 1, FM3130_WRONG_MEMORY);
    check_refused(&bench, I - 1, M, 1, R - 1, FM3130_WRONG_STATE);
    check_refused(&bench, I, M, 1, R - 1, FM3130_WRONG_STATE);
    check_refused(&bench, I, M, 1, R, FM3130_UNKNOWN_EVENT);
    bench.events[1] = FM3130_TICK;
    check_refused(&bench, I, M, 1, R, FM3130_SHORT_ANSWERS);
    static const struct {
        unsigned place;
        uint8_t least; /* the least byte that is none there */
    } limits[] = {{0, 2}, {1, 32}, {4, 3}, {5, 4}, {18, 3}, {19, 4}};
    for (size_t i = 0; i < sizeof limits / sizeof limits[0]; i++) {
        for (unsigned byte = limits[i].least; byte <= 255; byte++) {
            uint8_t kept = bench.record[limits[i].place];
            bench.record[limits[i].place] = (uint8_t)byte;
            check_refused(&bench, I, M, 2, R, FM3130_WRONG_STATE);
            bench.record[limits[i].place] = kept;
        }
    }
}

void check_lamps(void) {
    check_equal("bytes of struct fm3130_shown", sizeof(struct fm3130_shown), 16);
    check_ticks();
    check_hangs();
    check_failures();
    check_pieces();
    check_refusals();
}
