/* SPDX-License-Identifier: Apache-2.0 */
/*
 * Lamp switchings counted, read frozen, and a serial number locked. Every switching is an edge on
 * the pin of a counter. scripts/counting.bus has the same events.
 */
#include "counting.h"

#include <string.h>

#include "files.h"

/* The slave bytes of the companion. */
enum { WRITE_REGISTERS = 0xD0, READ_REGISTERS = 0xD1 };

static void add(struct counting *counting, uint8_t event) {
    if (counting->count == COUNTING_ROOM) {
        fail(EXIT_SESSION, "the counting has more than %d events", COUNTING_ROOM);
    }
    counting->events[counting->count++] = event;
}

static void add_edges(struct counting *counting, uint8_t edge, unsigned times) {
    for (unsigned i = 0; i < times; i++) {
        add(counting, edge);
    }
}

/* A Start, and bytes that the master writes; at each ninth clock it releases the line. */
static void add_written(struct counting *counting, const uint8_t *bytes, size_t count) {
    add(counting, FM31_START);
    for (size_t i = 0; i < count; i++) {
        for (unsigned bit = 0; bit < 8; bit++) {
            add(counting, bytes[i] << bit & 0x80 ? FM31_CLOCK_HIGH : FM31_CLOCK_LOW);
        }
        add(counting, FM31_CLOCK_HIGH);
    }
}

/* A whole write of registers. */
static void add_write(struct counting *counting, const uint8_t *bytes, size_t count) {
    add_written(counting, bytes, count);
    add(counting, FM31_STOP);
}

/* So many clocks that read a bit each. */
static void add_bits(struct counting *counting, unsigned clocks) {
    for (unsigned i = 0; i < clocks; i++) {
        counting->bits[counting->bit_count++] = counting->count;
        add(counting, FM31_CLOCK_HIGH);
    }
}

/*
 * Reads registers from an address on; the last byte is not acknowledged. If `is_disturbed`, a lamp
 * is switched in the middle of the second byte.
 */
static void add_read(struct counting *counting, uint8_t address, unsigned count, int is_disturbed) {
    static const uint8_t slave = READ_REGISTERS;
    const uint8_t pointer[] = {WRITE_REGISTERS, address};
    add_written(counting, pointer, sizeof pointer);
    add_written(counting, &slave, 1);
    for (unsigned i = 1; i <= count; i++) {
        add_bits(counting, 4);
        if (is_disturbed && i == 2) {
            add(counting, FM31_EDGE_1);
        }
        add_bits(counting, 4);
        add(counting, i < count ? FM31_CLOCK_LOW : FM31_CLOCK_HIGH);
    }
    add(counting, FM31_STOP);
}

static void switch_lamps(struct counting *counting) {
    add_edges(counting, FM31_EDGE_1, 7);
    add_edges(counting, FM31_EDGE_2, 3);
}

static void read_frozen(struct counting *counting) {
    static const uint8_t freeze[] = {WRITE_REGISTERS, FM31_COUNTING, FM31_RC};
    add_write(counting, freeze, sizeof freeze);
    add(counting, FM31_EDGE_1);
    add_read(counting, FM31_COUNTER_1_LOW, 4, 1);
}

static void read_running(struct counting *counting) {
    add_read(counting, FM31_COUNTER_1_LOW, 4, 0);
}

static void lock_serial(struct counting *counting) {
    static const uint8_t serial[] = {
        WRITE_REGISTERS, FM31_SERIAL_FIRST, 'L', 'A', 'M', 'P', '0', '0', '4', '2'};
    static const uint8_t lock[] = {WRITE_REGISTERS, FM31_CONTROL, FM31_SNL};
    add_write(counting, serial, sizeof serial);
    add_write(counting, lock, sizeof lock);
}

static void try_to_forge(struct counting *counting) {
    static const uint8_t forged[] = {WRITE_REGISTERS, FM31_SERIAL_FIRST, 0xFF};
    static const uint8_t unlock[] = {WRITE_REGISTERS, FM31_CONTROL, 0x00};
    add_write(counting, forged, sizeof forged);
    add_write(counting, unlock, sizeof unlock);
    add(counting, FM31_POWER_LOST_WITHOUT_BACKUP);
    add(counting, FM31_POWER_RETURNED);
    add_read(counting, FM31_SERIAL_FIRST, 8, 0);
}

static void roll_over(struct counting *counting) {
    static const uint8_t top[] = {WRITE_REGISTERS, FM31_COUNTING, FM31_CC, 0xFF, 0xFF, 0xFF, 0xFF};
    add_write(counting, top, sizeof top);
    add(counting, FM31_EDGE_1);
}

/*
 * A step: what it is, its events, the bytes it must read, the counters and 0Bh after it, and what
 * that says.
 */
struct step {
    const char *title;
    void (*events)(struct counting *counting);
    unsigned read_count;
    uint8_t read[COUNTING_READ_ROOM];
    uint8_t counters[4];
    uint8_t control;
    const char *outcome;
};

static const struct step steps[] = {
    {"Lamp 1 is switched seven times, lamp 2 three times",
     switch_lamps,
     0,
     {0},
     {7, 0, 3, 0},
     0,
     "an edge each: counter 1 is 7, counter 2 is 3"},
    {"The counters are read frozen, while lamp 1 is switched twice",
     read_frozen,
     4,
     {7, 0, 3, 0},
     {9, 0, 3, 0},
     0,
     "RC took a snapshot: it was read whole, and no edge was lost"},
    {"They are read again",
     read_running,
     4,
     {9, 0, 3, 0},
     {9, 0, 3, 0},
     0,
     "10h was read, so RC is 0 again and reads run"},
    {"A serial number is written and locked",
     lock_serial,
     0,
     {0},
     {9, 0, 3, 0},
     FM31_SNL,
     "SNL is 1: nothing changes it any more"},
    {"A forged byte, SNL written as 0, and the loss of both supplies",
     try_to_forge,
     8,
     {'L', 'A', 'M', 'P', '0', '0', '4', '2'},
     {0, 0, 0, 0},
     FM31_SNL,
     "the counters are lost, the serial number and its lock are not"},
    {"Both counters as one, at FFFFFFFFh, and an edge",
     roll_over,
     0,
     {0},
     {0, 0, 0, 0},
     FM31_SNL,
     "the pair has gone from its top to zero"},
};

/* The byte that was read as the step's n-th. */
static unsigned byte_read(const struct counting *counting, size_t n) {
    unsigned byte = 0;
    for (size_t bit = 8 * n; bit < 8 * n + 8; bit++) {
        byte = byte * 2 + (counting->answers[counting->bits[bit]] & FM31_ANSWER_LINE);
    }
    return byte;
}

/* Whether a step read and counted what it must; tells what it read and counted. */
static int tell_step(const struct counting *counting, const struct step *step, FILE *out) {
    uint64_t number;
    const uint8_t *counters =
        fm3164_view(counting->image, counting->memory, FM31_VIEW_REGISTERS,
                    FM31_PLACE(FM31_COUNTER_1_LOW), sizeof step->counters, &number);
    if (number != FM31_OK) {
        return 0;
    }
    int holds = memcmp(counters, step->counters, sizeof step->counters) == 0;
    holds = holds && counting->image[FM31_PLACE(FM31_CONTROL)] == step->control;
    holds = holds && counting->bit_count == 8 * step->read_count;
    for (size_t n = 0; n < counting->bit_count / 8; n++) {
        unsigned byte = byte_read(counting, n);
        fprintf(out, "%s%02X%s", n == 0 ? "read    " : " ", byte,
                n + 1 == counting->bit_count / 8 ? "\n" : "");
        holds = holds && byte == step->read[n];
    }
    fprintf(out, "counts  1: %u, 2: %u\n", counters[0] + 256u * counters[1],
            counters[2] + 256u * counters[3]);
    return holds;
}

int counting_play(struct counting *counting, FILE *out) {
    memset(counting, 0, sizeof *counting);
    memset(counting->answers, FM31_ANSWER_LINE, sizeof counting->answers);
    int all_hold = fm31_fresh(counting->image, sizeof counting->image) == FM31_OK;
    for (size_t i = 0; i < sizeof steps / sizeof steps[0]; i++) {
        size_t from = counting->count;
        counting->bit_count = 0;
        steps[i].events(counting);
        uint64_t number =
            fm3164_run(counting->image, sizeof counting->image, counting->memory,
                       sizeof counting->memory, counting->events + from, counting->count - from,
                       counting->answers + from, counting->count - from);
        fprintf(out, "%s%zu. %s\n", i == 0 ? "" : "\n", i + 1, steps[i].title);
        int holds = number == FM31_OK && tell_step(counting, &steps[i], out);
        fprintf(out, "=> %s\n", holds ? steps[i].outcome : "NOT AS IT MUST BE");
        all_hold = all_hold && holds;
    }
    return all_hold;
}
