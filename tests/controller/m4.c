/* SPDX-License-Identifier: Apache-2.0 */
/*
 * mps2-an386: a Cortex-M4 with 4 MiB for code and 4 MiB for data. Timer 0 counts down at 25 MHz,
 * every 40 ns; the emulator is told that an instruction lasts 128 ns (-icount shift=7), so 16 ticks
 * are 5 instructions.
 */
#include "arm.h"

struct timer {
    uint32_t control, value, reload;
};

#define TIMER ((volatile struct timer *)0x40000000u)

#define ACCESS_CONTROL (*(volatile uint32_t *)0xE000ED88u)

enum { FLOATING_POINT = 0xF << 20 };

/*
 * GCC moves words through the registers of floating point, where a target has them: they must be
 * on.
 */
void board_begin(void) {
    ACCESS_CONTROL |= FLOATING_POINT;
    TIMER->reload = 0xFFFFFFFFu;
    TIMER->value = 0xFFFFFFFFu;
    TIMER->control = 1;
}

uint32_t board_ticks(void) {
    return ~TIMER->value;
}

uint32_t board_instructions(uint32_t ticks) {
    return (ticks * 5 + 8) / 16;
}
