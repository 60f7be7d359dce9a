/* SPDX-License-Identifier: Apache-2.0 */
/*
 * line FRAMES: before each event of the frames, what fm3130_line says beside what Clocks on a copy
 * of the device show: the line of the next Clock, and of the one after it, if that is low and if it
 * is high.
 */
#include "board.h"
#include "fm3130.h"

enum { ANEW = 0xFFFF, ROOM = 2560, ADDRESS_AT = 23, MOST_STORED = 2 };

static uint8_t image[FM3130_IMAGE_BYTES], memory[FM3130_MEMORY_BYTES], events[ROOM];
static uint32_t asked;

static uint32_t step(uint8_t event) {
    uint8_t told[FM3130_TOLD_BYTES];
    check_equal(
        "fm3130_step: number",
        (uint32_t)fm3130_step(image, sizeof image, memory, sizeof memory, event, told, sizeof told),
        FM3130_OK);
    return told[0];
}

static uint32_t address(void) {
    return image[ADDRESS_AT] * 256u + image[ADDRESS_AT + 1];
}

/*
 * Whether the device pulls the line of the last of these Clocks. Image and memory are put back: a
 * Clock stores at most one byte, at the memory address that stood before it.
 */
static uint32_t pulls(const uint8_t *clocks, unsigned count) {
    uint8_t kept[FM3130_IMAGE_BYTES], bytes[MOST_STORED];
    uint32_t places[MOST_STORED], line = 0;
    for (unsigned i = 0; i < sizeof image; i++) {
        kept[i] = image[i];
    }
    for (unsigned i = 0; i < count; i++) {
        places[i] = address();
        bytes[i] = memory[places[i]];
        line = step(clocks[i]) & FM3130_ANSWER_LINE;
    }
    for (unsigned i = count; i-- > 0;) {
        memory[places[i]] = bytes[i];
    }
    for (unsigned i = 0; i < sizeof image; i++) {
        image[i] = kept[i];
    }
    return !line;
}

static void check_line(void) {
    static const uint8_t high[] = {FM3130_CLOCK_HIGH, FM3130_CLOCK_HIGH};
    static const uint8_t low[] = {FM3130_CLOCK_LOW, FM3130_CLOCK_HIGH};
    uint64_t told = fm3130_line(image, sizeof image, memory, sizeof memory);
    check_equal("fm3130_line", (uint32_t)told,
                FM3130_LINE_PULLED * pulls(high, 1) + FM3130_LINE_PULLED_AFTER_LOW * pulls(low, 2) +
                    FM3130_LINE_PULLED_AFTER_HIGH * pulls(high, 2));
    check_equal("fm3130_line, above 32 bits", (uint32_t)(told >> 32), 0);
    asked++;
}

int main(void) {
    uintptr_t frames = file_open(board_word(1));
    uint8_t head[2];
    while (file_read(frames, head, 2) == 2) {
        uint32_t length = head[0] + 256u * head[1];
        if (length == ANEW) {
            for (unsigned i = 0; i < sizeof memory; i++) {
                memory[i] = 0;
            }
            check_equal("fm3130_fresh", (uint32_t)fm3130_fresh(image, sizeof image), FM3130_OK);
        } else if (length != 0) {
            check_equal("a frame that fits", length <= ROOM, 1);
            check_equal("the bytes of a frame", file_read(frames, events, length), length);
            for (uint32_t i = 0; i < length; i++) {
                check_line();
                step(events[i]);
            }
        }
    }
    say_number(asked, 0);
    say(" states\n");
    return asked < 200000;
}
