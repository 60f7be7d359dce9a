/* SPDX-License-Identifier: Apache-2.0 */
/* What the test programs need on every board, by semihosting. */
#include "board.h"

enum {
    SYS_OPEN = 0x01,
    SYS_WRITE0 = 0x04,
    SYS_READ = 0x06,
    SYS_GET_CMDLINE = 0x15,
    SYS_EXIT_EXTENDED = 0x20,
    OPEN_TO_READ = 1, /* "rb" */
    APPLICATION_EXIT = 0x20026,
    PAINT = 0x5EED5EED,
    PAINTED_WORDS = 320
};

extern uint32_t image_of_data[], begin_of_data[], end_of_data[], begin_of_bss[], end_of_bss[];

void board_run(void) {
    board_begin();
    uint32_t *from = image_of_data;
    for (uint32_t *to = begin_of_data; to != end_of_data;) {
        *to++ = *from++;
    }
    for (uint32_t *to = begin_of_bss; to != end_of_bss;) {
        *to++ = 0;
    }
    board_end(main());
}

void board_end(int status) {
    uintptr_t words[2] = {APPLICATION_EXIT, (uintptr_t)status};
    board_call(SYS_EXIT_EXTENDED, words);
    for (;;) {
    }
}

void say(const char *text) {
    board_call(SYS_WRITE0, text);
}

void say_number(uint32_t number, unsigned width) {
    static const uint32_t powers[] = {1000000000, 100000000, 10000000, 1000000, 100000,
                                      10000,      1000,      100,      10,      1};
    char text[16];
    char *end = text;
    unsigned begun = 0;
    for (unsigned i = 0; i < 10; i++) {
        char digit = '0';
        while (number >= powers[i]) {
            number -= powers[i];
            digit++;
        }
        begun |= digit != '0' || i == 9;
        if (begun || 10 - i <= width) {
            *end++ = begun ? digit : ' ';
        }
    }
    *end = '\0';
    say(text);
}

void say_hex(uint32_t number, unsigned digits) {
    char text[16];
    for (unsigned i = 0; i < digits; i++) {
        text[i] = "0123456789abcdef"[number >> 4 * (digits - 1 - i) & 15];
    }
    text[digits] = '\0';
    say(text);
}

void differ(const char *what, uint32_t is, uint32_t must_be) {
    say("DIFFERENT: ");
    say(what);
    say(" is ");
    say_number(is, 0);
    say(", must be ");
    say_number(must_be, 0);
    say("\n");
    board_end(1);
}

void check_equal(const char *what, uint32_t is, uint32_t must_be) {
    if (is != must_be) {
        differ(what, is, must_be);
    }
}

/* The stack pointer: all below it is free. */
static inline uint32_t *stack_pointer(void) {
    uint32_t *pointer;
#ifdef __riscv
    __asm__ volatile("mv %0, sp" : "=r"(pointer));
#else
    __asm__ volatile("mov %0, sp" : "=r"(pointer));
#endif
    return pointer;
}

__attribute__((noinline)) uint32_t stack_of(measurable *measured, uint32_t argument) {
    volatile uint32_t *here = stack_pointer();
    volatile uint32_t *at = here - PAINTED_WORDS;
    for (unsigned i = 0; i < PAINTED_WORDS; i++) {
        at[i] = PAINT;
    }
    measured(argument);
    while (at != here && *at == PAINT) {
        at++;
    }
    return (uint32_t)((uintptr_t)here - (uintptr_t)at);
}

static uint32_t length_of(const char *text) {
    uint32_t length = 0;
    while (text[length] != '\0') {
        length++;
    }
    return length;
}

uintptr_t file_open(const char *name) {
    uintptr_t words[3] = {(uintptr_t)name, OPEN_TO_READ, length_of(name)};
    uintptr_t file = board_call(SYS_OPEN, words);
    if (file == (uintptr_t)-1) {
        say(name);
        differ(": a file that cannot be opened", 1, 0);
    }
    return file;
}

uint32_t file_read(uintptr_t file, void *bytes, uint32_t length) {
    uintptr_t words[3] = {file, (uintptr_t)bytes, length};
    return length - (uint32_t)board_call(SYS_READ, words);
}

uint32_t number_of(const char *text) {
    uint32_t number = 0;
    for (; *text >= '0' && *text <= '9'; text++) {
        number = number * 10 + (uint32_t)(*text - '0');
    }
    return number;
}

const char *board_word(unsigned which) {
    static char line[256];
    uintptr_t words[2] = {(uintptr_t)line, sizeof line};
    board_call(SYS_GET_CMDLINE, words);
    char *at = line;
    while (which-- > 0) {
        while (*at != '\0' && *at++ != ' ') {
        }
    }
    for (char *end = at; *end != '\0'; end++) {
        if (*end == ' ') {
            *end-- = '\0';
        }
    }
    return at;
}
