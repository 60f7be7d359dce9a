/* SPDX-License-Identifier: Apache-2.0 */
/*
 * count FRAMES: the instructions and the stack of one call, over the frames of crates/main_standin,
 * event by event through fm3130_step; before each event fm3130_line too. What a call costs is what
 * its caller pays: arguments, call and return.
 */
#include "board.h"
#include "fm3130.h"
#include "table.h"

enum { ANEW = 0xFFFF, ROOM = 2560, CLOCKS_AT = 27, ADDRESS_AT = 23 };

enum kind { START, STOP, CLOCK, EIGHTH, TICK, POWER, LINE, KINDS };

static const char *const names[KINDS] = {"Start", "Stop",  "Clock",      "Clock, a byte's eighth",
                                         "tick",  "power", "fm3130_line"};

static struct row rows[KINDS];
static uint8_t image[FM3130_IMAGE_BYTES], memory[FM3130_MEMORY_BYTES], events[ROOM],
    told[FM3130_TOLD_BYTES];
static uint32_t overhead;

/* ---- the calls that are measured, each with an event, so that all cost the same around */

__attribute__((noinline)) static uint32_t do_nothing(uint32_t event) {
    __asm__ volatile("");
    return event;
}

__attribute__((noinline)) static uint32_t do_step(uint32_t event) {
    return (uint32_t)fm3130_step(image, sizeof image, memory, sizeof memory, event, told,
                                 sizeof told);
}

__attribute__((noinline)) static uint32_t do_line(uint32_t event) {
    (void)event;
    return (uint32_t)fm3130_line(image, sizeof image, memory, sizeof memory);
}

__attribute__((noinline)) static uint32_t do_thousand(uint32_t event) {
    __asm__ volatile(".rept 1000\n nop\n .endr");
    return event;
}

/* The instructions of a call, with the cost of measuring in them. */
__attribute__((noinline)) static uint32_t gross(measurable *measured, uint32_t event,
                                                uint32_t *result) {
    uint32_t began = board_ticks();
    *result = measured(event);
    return board_instructions(board_ticks() - began);
}

/* ---- the frames */

static void note(enum kind kind, uint32_t instructions) {
    row_note(&rows[kind], instructions - overhead);
}

static enum kind kind_of(uint8_t event) {
    if (event <= FM3130_STOP) {
        return event == FM3130_START ? START : STOP;
    }
    if (event <= FM3130_CLOCK_HIGH) {
        return image[CLOCKS_AT] == 7 ? EIGHTH : CLOCK;
    }
    return event == FM3130_TICK ? TICK : POWER;
}

/*
 * The step once more on the same state, to measure its stack. A step changes the image, and of the
 * memory at most the byte at the memory address: both are put back.
 */
static void measure_stack(enum kind kind, uint8_t event) {
    static uint8_t kept[FM3130_IMAGE_BYTES];
    uint32_t address = image[ADDRESS_AT] * 256u + image[ADDRESS_AT + 1];
    uint8_t byte = memory[address];
    for (unsigned i = 0; i < sizeof image; i++) {
        kept[i] = image[i];
    }
    uint32_t used = stack_of(do_step, event);
    for (unsigned i = 0; i < sizeof image; i++) {
        image[i] = kept[i];
    }
    memory[address] = byte;
    if (used > rows[kind].stack) {
        rows[kind].stack = used;
    }
}

static void one_event(uint8_t event) {
    enum kind kind = kind_of(event);
    uint32_t number;
    note(LINE, gross(do_line, event, &number));
    check_equal("fm3130_line: number", number & FM3130_LINE_NUMBER, FM3130_OK);
    uint32_t used = stack_of(do_line, event);
    rows[LINE].stack = used > rows[LINE].stack ? used : rows[LINE].stack;
    measure_stack(kind, event);
    note(kind, gross(do_step, event, &number));
    check_equal("fm3130_step: number", number, FM3130_OK);
}

static void run_frames(uintptr_t frames) {
    uint8_t head[2];
    while (file_read(frames, head, 2) == 2) {
        uint32_t length = head[0] + 256u * head[1];
        if (length == ANEW) {
            for (unsigned i = 0; i < sizeof memory; i++) {
                memory[i] = 0;
            }
            check_equal("fm3130_fresh", (uint32_t)fm3130_fresh(image, sizeof image), FM3130_OK);
        } else if (length != 0) {
            check_equal("a frame that fits", length <= ROOM, 1);
            check_equal("the bytes of a frame", file_read(frames, events, length), length);
            for (uint32_t i = 0; i < length; i++) {
                one_event(events[i]);
            }
        }
    }
}

/* The clock counts instructions: a thousand of them are a thousand. */
static void check_clock(void) {
    uint32_t ignored;
    overhead = gross(do_nothing, 0, &ignored);
    check_equal("a thousand instructions", gross(do_thousand, 0, &ignored) - overhead, 1000);
}

int main(void) {
    check_clock();
    run_frames(file_open(board_word(1)));
    table_say(names, rows, KINDS);
    return 0;
}
