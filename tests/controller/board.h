/* SPDX-License-Identifier: Apache-2.0 */
/*
 * What the emulated boards give to the test programs: words to the person who runs them, files of
 * his, and a count of the instructions done. One of m4.c, m0.c and riscv32.c is linked, with
 * support.c.
 *
 * No program here divides: the Cortex-M0 has no instruction for it, and no library is linked.
 */
#ifndef CONTROLLER_BOARD_H
#define CONTROLLER_BOARD_H

#include <stdint.h>

/* ---- by each board */

/* One semihosting call: the emulator does it for the program. */
uintptr_t board_call(uintptr_t operation, const void *argument);

/*
 * Makes the processor ready and the clock of board_ticks run; it is called first, before C's own
 * memory is.
 */
void board_begin(void);

/* The emulated clock, which goes on by the same span at every instruction. It wraps. */
uint32_t board_ticks(void);

/* The instructions between two readings of the clock, this many ticks apart. */
uint32_t board_instructions(uint32_t ticks);

/* ---- by support.c */

/* The program, which returns its status: 0 is right. */
int main(void);

/* Clears and copies what C takes for granted, runs main, and ends with what it returns. */
void board_run(void) __attribute__((noreturn));

/* Ends the emulator with a status. */
void board_end(int status) __attribute__((noreturn));

void say(const char *text);
void say_number(uint32_t number, unsigned width);
void say_hex(uint32_t number, unsigned digits);

/* Says what differs and ends with status 1. */
void differ(const char *what, uint32_t is, uint32_t must_be) __attribute__((noreturn));
void check_equal(const char *what, uint32_t is, uint32_t must_be);

/* A call that is measured. */
typedef uint32_t measurable(uint32_t argument);

/*
 * Makes a call and returns the bytes of stack that it wrote below its caller's: they were painted
 * before.
 */
uint32_t stack_of(measurable *measured, uint32_t argument);

/* A file of the person who runs the emulator; reading past its end ends the program. */
uintptr_t file_open(const char *name);
uint32_t file_read(uintptr_t file, void *bytes, uint32_t length);

/* A number in decimal digits. */
uint32_t number_of(const char *text);

/* A word of the emulator's command line, counted from 1. */
const char *board_word(unsigned which);

#endif
