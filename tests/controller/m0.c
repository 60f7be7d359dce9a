/* SPDX-License-Identifier: Apache-2.0 */
/*
 * microbit: an nRF51 with a Cortex-M0, 256 KiB of flash and 16 KiB of RAM. Timer 0 counts at 16
 * MHz, every 62.5 ns; the emulator is told that an instruction lasts 128 ns (-icount shift=7), so
 * 256 ticks are 125 instructions.
 */
#include "arm.h"

#define TIMER_START (*(volatile uint32_t *)0x40008000u)
#define TIMER_CAPTURE (*(volatile uint32_t *)0x40008040u)
#define TIMER_BITS (*(volatile uint32_t *)0x40008508u)
#define TIMER_PRESCALER (*(volatile uint32_t *)0x40008510u)
#define TIMER_CAPTURED (*(volatile uint32_t *)0x40008540u)

void board_begin(void) {
    TIMER_BITS = 3; /* 32 */
    TIMER_PRESCALER = 0;
    TIMER_START = 1;
}

uint32_t board_ticks(void) {
    TIMER_CAPTURE = 1;
    return TIMER_CAPTURED;
}

uint32_t board_instructions(uint32_t ticks) {
    return (ticks * 125 + 128) / 256;
}
