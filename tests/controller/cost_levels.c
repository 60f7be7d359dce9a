/* SPDX-License-Identifier: Apache-2.0 */
/*
 * cost_levels STRIDE: as cost.c, of firmware/levels.c.
 * The board's four functions are as short as can be here: a byte in memory stands for each pin.
 */
#include "../wires/wires.h"
#include "board.h"
#include "fm3130.h"
#include "levels.h"
#include "table.h"

enum { CLOCKS_AT = 27, BEFORE_EIGHTH = 7 };

enum kind { IDLE, RISE, FALL, EIGHTH, FALL_WITH_TICK, AFTER_START, TURN, DUE, SDA_TURNED, KINDS };

static const char *const names[KINDS] = {
    "levels: no change",     "levels: SCL rises",           "levels: SCL falls, a Clock",
    "levels: .. the eighth", "levels: .. and a tick",       "levels: SCL falls after a Start",
    "levels: Start or Stop", "levels: tick or power event", "levels: SDA turned"};

struct played played;
static struct row rows[KINDS];
static struct levels levels;
static uint8_t image[FM3130_IMAGE_BYTES], memory[FM3130_MEMORY_BYTES];
static volatile uint8_t scl, sda, is_pulled;
static uint32_t places, tick_at, overhead, stack_overhead, began;
static uint32_t ticks, ticks_waiting, ticks_then; /* done, for the pulse's end, at the last Clock */

/* What is being measured, and what it took. */
static measurable *measured;
static uint32_t instructions;

static uint32_t do_look(uint32_t event);

/* ---- the board's four functions */

int pins_read_scl(void) {
    return scl;
}

int pins_read_sda(void) {
    return sda & ~is_pulled;
}

/*
 * What is measured up to here is the time that the master waits for SDA after a fall. A tick or a
 * power event that turns SDA does so at its end, and has a row of its own.
 */
static void turned(uint8_t pulled) {
    if (pulled != is_pulled && !scl) {
        uint32_t now = board_ticks();
        is_pulled = pulled;
        if (measured == do_look) {
            row_note(&rows[SDA_TURNED], board_instructions(now - began) - overhead);
        }
        began += board_ticks() - now; /* this note is not the device's */
    }
    is_pulled = pulled;
}

void pins_pull_sda(void) {
    turned(1);
}

void pins_release_sda(void) {
    turned(0);
}

/* ---- looks that are measured */

__attribute__((noinline)) static uint32_t do_look(uint32_t event) {
    (void)event;
    return levels_look(&levels);
}

__attribute__((noinline)) static uint32_t do_due(uint32_t event) {
    return levels_due(&levels, (uint8_t)event);
}

__attribute__((noinline)) static uint32_t do_nothing(uint32_t event) {
    __asm__ volatile("");
    return event;
}

/* What stack_of calls: it notes the instructions as well. */
__attribute__((noinline)) static uint32_t do_measured(uint32_t event) {
    began = board_ticks();
    uint32_t number = measured(event);
    instructions = board_instructions(board_ticks() - began) - overhead;
    return number;
}

static void measure(struct row *row, measurable *what, uint32_t event) {
    measured = what;
    uint32_t stack = stack_of(do_measured, event) - stack_overhead;
    row_note(row, instructions);
    row->stack = stack > row->stack ? stack : row->stack;
}

static unsigned has(uint64_t bits) {
    return (levels.word & bits) != 0;
}

static enum kind kind_of_look(void) {
    if (!scl && has(FM3130_PINS_SCL)) {
        if (!has(FM3130_PINS_OPEN)) {
            return AFTER_START;
        }
        if (has(FM3130_PINS_WAITING)) {
            return FALL_WITH_TICK;
        }
        return image[CLOCKS_AT] == BEFORE_EIGHTH ? EIGHTH : FALL;
    }
    if (scl && !has(FM3130_PINS_SCL)) {
        return RISE;
    }
    return scl && sda_level() != has(FM3130_PINS_SDA) ? TURN : IDLE;
}

static void look(void) {
    enum kind kind = kind_of_look();
    measure(&rows[kind], do_look, 0);
}

/* ---- the wires of tests/wires, without a reference */

void wires_differ(const char *what, uint32_t is, uint32_t must_be) {
    differ(what, is, must_be);
}

void must_equal(const char *what, uint32_t is, uint32_t must_be) {
    check_equal(what, is, must_be);
}

uint8_t sda_level(void) {
    return sda & (uint8_t)~is_pulled;
}

void set_scl(uint8_t level) {
    scl = level;
    look();
    look();
}

void set_sda(uint8_t level) {
    sda = level;
    look();
}

void due(uint8_t event) {
    if (has(FM3130_PINS_OPEN)) {
        check_equal("levels_due", levels_due(&levels, event), FM3130_OK);
        ticks_waiting += event == FM3130_TICK;
    } else {
        measure(&rows[DUE], do_due, event);
        ticks += event == FM3130_TICK;
    }
}

uint32_t place(void) {
    if (places++ == tick_at) {
        due(FM3130_TICK);
    }
    return places;
}

void meant(uint8_t event, uint8_t line) {
    (void)line;
    if (event >= FM3130_CLOCK_LOW) {
        played.clocks++;
        ticks_then = ticks;
    }
    ticks += ticks_waiting;
    ticks_waiting = 0;
}

uint32_t ticks_at_clock(void) {
    return ticks_then;
}

void check_device(void) {
    check_equal("the device's number", levels.number, FM3130_OK);
}

void wires_begin(enum pace pace, uint32_t at) {
    (void)pace;
    for (unsigned i = 0; i < sizeof memory; i++) {
        memory[i] = 0;
    }
    check_equal("fm3130_fresh", (uint32_t)fm3130_fresh(image, sizeof image), FM3130_OK);
    scl = sda = 1;
    is_pulled = 0;
    places = ticks = ticks_waiting = ticks_then = 0;
    tick_at = at;
    check_equal("levels_begin", levels_begin(&levels, image, memory), FM3130_OK);
    played.sessions++;
}

int main(void) {
    struct row nothing = {0, 0, 0, 0};
    measure(&nothing, do_nothing, 0);
    overhead = nothing.worst;
    stack_overhead = nothing.stack;
    play_session(number_of(board_word(1)));
    play_turn_of_year(number_of(board_word(1)));
    play_hangs();
    table_say(names, rows, KINDS);
    return 0;
}
