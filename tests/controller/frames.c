/* SPDX-License-Identifier: Apache-2.0 */
/*
 * frames FRAMES LINES: the frames of crates/main_standin through the two entries that a 32-bit caller
 * uses, whole frames by fm3130_run_number, event by event by fm3130_step, on RISC-V by fm3130_run
 * too, each beside the lines that the second program wrote. tests/c/frames.c says what stands in
 * the two files.
 */
#include "board.h"
#include "fm3130.h"

enum { ANEW = 0xFFFF, ROOM = 2560, LINE = 160 };

static uint8_t image[FM3130_IMAGE_BYTES], memory[FM3130_MEMORY_BYTES], events[ROOM], answers[ROOM];
static char line[LINE];
static unsigned line_length;
static uint32_t line_number, event_count;

/* ---- a line, made here and compared with the second program's */

static void put(char character) {
    check_equal("a line that fits", line_length < LINE, 1);
    line[line_length++] = character;
}

static void put_text(const char *text) {
    while (*text != '\0') {
        put(*text++);
    }
}

static void put_hex(uint32_t number, unsigned digits) {
    for (unsigned i = digits; i-- > 0;) {
        put("0123456789abcdef"[number >> 4 * i & 15]);
    }
}

static void put_number(uint32_t number) {
    static const uint32_t powers[] = {10000, 1000, 100, 10, 1};
    unsigned begun = 0;
    for (unsigned i = 0; i < 5; i++) {
        char digit = '0';
        for (; number >= powers[i]; number -= powers[i]) {
            digit++;
        }
        begun |= digit != '0' || i == 4;
        if (begun) {
            put(digit);
        }
    }
}

static void check_line(uintptr_t lines) {
    char expected[LINE];
    line_number++;
    put('\n');
    check_equal("the bytes of a line of the second program",
                file_read(lines, expected, line_length), line_length);
    for (unsigned i = 0; i < line_length; i++) {
        if (line[i] != expected[i]) {
            expected[LINE - 1] = line[LINE - 1] = '\0';
            say(line);
            say(expected);
            differ("a character of line", line_number, 0);
        }
    }
    line_length = 0;
}

/* Sums below the prime 2^32 - 5, in 32 bits alone: what is carried out of them counts 5. */
#define PRIME 4294967291u

static uint32_t add(uint32_t one, uint32_t other) {
    uint32_t sum = one + other;
    if (sum < one) {
        return sum + 5;
    }
    return sum >= PRIME ? sum - PRIME : sum;
}

/* A sum over bytes in their order: each step is times 257, and the byte. */
static uint32_t sum_of(const uint8_t *bytes, uint32_t length) {
    uint32_t sum = 0;
    for (uint32_t i = 0; i < length; i++) {
        uint32_t times_256 = add(add(sum << 8, 0), (sum >> 24) * 5);
        sum = add(add(times_256, sum), bytes[i]);
    }
    return sum;
}

/* ---- the two entries */

static uint32_t run_whole(uint32_t length) {
    return (uint32_t)fm3130_run_number(image, sizeof image, memory, sizeof memory, events, length,
                                       answers, length);
}

static uint32_t run_steps(uint32_t length) {
    uint8_t told[FM3130_TOLD_BYTES];
    uint32_t number = FM3130_OK;
    for (uint32_t i = 0; i < length && number == FM3130_OK; i++) {
        number = (uint32_t)fm3130_step(image, sizeof image, memory, sizeof memory, events[i], told,
                                       sizeof told);
        answers[i] = told[0];
    }
    return number;
}

#ifdef __riscv
/* The one 32-bit target here on which the header offers it. */
static uint32_t run_counted(uint32_t length) {
    struct fm3130_ran ran =
        fm3130_run(image, sizeof image, memory, sizeof memory, events, length, answers, length);
    check_equal("the count of fm3130_run", (uint32_t)ran.count, length);
    return (uint32_t)ran.number;
}
#endif

typedef uint32_t run(uint32_t length);

/* ---- the frames */

static void begin_anew(void) {
    for (unsigned i = 0; i < sizeof memory; i++) {
        memory[i] = 0;
    }
    check_equal("fm3130_fresh", (uint32_t)fm3130_fresh(image, sizeof image), FM3130_OK);
}

static void put_report(void) {
    put_text("image ");
    for (unsigned i = 0; i < sizeof image; i++) {
        put_hex(image[i], 2);
    }
    put_text(" memory ");
    put_hex(sum_of(memory, sizeof memory), 8);
}

static void put_answers(run *entry, uint32_t length) {
    uint32_t number = entry(length);
    uint32_t count = number == FM3130_OK ? length : 0;
    put_number(number);
    put(' ');
    put_number(count);
    put(' ');
    put_hex(sum_of(answers, count), 8);
    event_count += count;
}

static void run_frames(run *entry) {
    uintptr_t frames = file_open(board_word(1));
    uintptr_t lines = file_open(board_word(2));
    uint8_t head[2];
    line_number = 0;
    while (file_read(frames, head, 2) == 2) {
        uint32_t length = head[0] + 256u * head[1];
        if (length == ANEW) {
            begin_anew();
            continue;
        }
        if (length == 0) {
            put_report();
        } else {
            check_equal("a frame that fits", length <= ROOM, 1);
            check_equal("the bytes of a frame", file_read(frames, events, length), length);
            put_answers(entry, length);
        }
        check_line(lines);
    }
    check_equal("lines that are left", file_read(lines, head, 1), 0);
}

int main(void) {
    run_frames(run_whole);
    run_frames(run_steps);
#ifdef __riscv
    run_frames(run_counted);
#endif
    say_number(event_count, 0);
    say(" events\n");
    return event_count < 200000;
}
