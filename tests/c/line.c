/* SPDX-License-Identifier: Apache-2.0 */
/*
 * fm3130_line through the header: at every place of the frames, held to the answers of events 3; 2, 3; and 3, 3 on copies of the
 * device; what it must not change; its refusals. And fm3130_run_number, held to fm3130_run at the same places.
 */
#include <stdio.h>
#include <string.h>

#include "check.h"
#include "fm3130.h"

enum { ANEW = 0xFFFF, ROOM = 0x10000 };

static uint8_t image[FM3130_IMAGE_BYTES], memory[FM3130_MEMORY_BYTES];
static uint8_t image_copy[FM3130_IMAGE_BYTES], memory_copy[FM3130_MEMORY_BYTES];
static unsigned long asked;

static uint64_t line(void) {
    return fm3130_line(image, sizeof image, memory, sizeof memory);
}

/*
 * Whether the device pulls the line of the last of these events, done on a copy of the device. An event changes at most one
 * byte of the memory, the one at the memory address: so one byte is put back, and not all 8,192.
 */
static int pulls(const uint8_t *events, uint64_t length) {
    uint8_t answers[2];
    unsigned at = image[23] * 256u + image[24];
    memcpy(image_copy, image, sizeof image);
    struct fm3130_ran ran = fm3130_run(image_copy, sizeof image_copy, memory_copy,
                                       sizeof memory_copy, events, length, answers, sizeof answers);
    check_equal("line: the copy runs", ran.number, FM3130_OK);
    memory_copy[at] = memory[at];
    return (answers[length - 1] & FM3130_ANSWER_LINE) == 0;
}

static void check_here(void) {
    static const uint8_t next[] = {3}, after_low[] = {2, 3}, after_high[] = {3, 3};
    uint64_t must_be = (pulls(next, 1) ? FM3130_LINE_PULLED : 0) |
                       (pulls(after_low, 2) ? FM3130_LINE_PULLED_AFTER_LOW : 0) |
                       (pulls(after_high, 2) ? FM3130_LINE_PULLED_AFTER_HIGH : 0);
    check_equal("line", line(), must_be);
    asked++;
}

/* Every event of a frame, with the question before it. */
static void check_frame(const uint8_t *events, uint64_t length) {
    for (uint64_t i = 0; i < length; i++) {
        uint8_t answer, other;
        check_here();
        unsigned at = image[23] * 256u + image[24];
        memcpy(image_copy, image, sizeof image);
        check_equal("line: number",
                    fm3130_run_number(image, sizeof image, memory, sizeof memory, events + i, 1,
                                      &answer, 1),
                    FM3130_OK);
        struct fm3130_ran ran = fm3130_run(image_copy, sizeof image_copy, memory_copy,
                                           sizeof memory_copy, events + i, 1, &other, 1);
        check_equal("run_number: number", ran.number, FM3130_OK);
        check_equal("run_number: answer", answer, other);
        check_equal("run_number: image", (uint64_t)memcmp(image, image_copy, sizeof image), 0);
        check_equal("run_number: memory", memory[at], memory_copy[at]);
    }
}

unsigned long check_lines(const char *frames) {
    static uint8_t events[ROOM];
    uint8_t head[2];
    FILE *file = fopen(frames, "rb");
    if (file == 0) {
        differ("line: %s cannot be read", frames);
    }
    while (fread(head, 1, 2, file) == 2) {
        unsigned length = head[0] + 256u * head[1];
        if (length == ANEW) {
            memset(memory, 0, sizeof memory);
            memset(memory_copy, 0, sizeof memory_copy);
            check_equal("line: fresh", fm3130_fresh(image, sizeof image), FM3130_OK);
        } else {
            check_equal("line: a whole frame", fread(events, 1, length, file), length);
            check_frame(events, length);
        }
    }
    fclose(file);
    return asked;
}

/* Every refusal says its number alone, in the order of the numbers; nothing is changed. */
void check_line_refusals(void) {
    static const uint8_t unknown[] = {FM3130_START, 8};
    uint8_t answers[2] = {0xA5, 0xA5};
    check_equal("line: fresh", fm3130_fresh(image, sizeof image), FM3130_OK);
    check_equal("line: idle", line(), FM3130_OK);
    check_equal("line: memory", fm3130_line(image, sizeof image, memory, 8191),
                FM3130_WRONG_MEMORY);
    check_equal("line: memory, 2^32 bytes more",
                fm3130_line(image, sizeof image, memory, (UINT64_C(1) << 32) + sizeof memory),
                FM3130_WRONG_MEMORY);
    check_equal("line: image", fm3130_line(image, 63, memory, sizeof memory), FM3130_WRONG_STATE);
    check_equal("line: image, 2^32 bytes more",
                fm3130_line(image, (UINT64_C(1) << 32) + sizeof image, memory, sizeof memory),
                FM3130_WRONG_STATE);
    check_equal("line: memory first", fm3130_line(image, 63, memory, 8191), FM3130_WRONG_MEMORY);
    for (unsigned i = 30; i < sizeof image; i++) {
        image[i] ^= 1;
        check_equal("line: a byte of the end", line(), FM3130_WRONG_STATE);
        image[i] ^= 1;
    }
    check_equal("run_number: event",
                fm3130_run_number(image, sizeof image, memory, sizeof memory, unknown,
                                  sizeof unknown, answers, sizeof answers),
                FM3130_UNKNOWN_EVENT);
    check_equal(
        "run_number: answers",
        fm3130_run_number(image, sizeof image, memory, sizeof memory, unknown, 1, answers, 0),
        FM3130_SHORT_ANSWERS);
    check_equal("run_number: answers untouched", answers[0], 0xA5);
    check_equal("run_number: image",
                fm3130_run_number(image, 63, memory, sizeof memory, unknown, 1, answers, 0),
                FM3130_WRONG_STATE);
    check_equal("run_number: memory",
                fm3130_run_number(image, 63, memory, 8191, unknown, 1, answers, 0),
                FM3130_WRONG_MEMORY);
}
