/* SPDX-License-Identifier: Apache-2.0 */
/*
 * riscv32 virt: an RV32IMAC with its memory at 80000000h. Its own counter counts instructions
 * (-icount shift=0).
 */
#include "board.h"

extern uint32_t top_of_stack[];

uintptr_t board_call(uintptr_t operation, const void *argument) {
    register uintptr_t a0 __asm__("a0") = operation;
    register const void *a1 __asm__("a1") = argument;
    __asm__ volatile(".option push\n"
                     ".option norvc\n"
                     ".balign 16\n" /* the three must stand in one page */
                     "slli x0, x0, 0x1f\n"
                     "ebreak\n"
                     "srai x0, x0, 7\n"
                     ".option pop\n"
                     : "+r"(a0)
                     : "r"(a1)
                     : "memory");
    return a0;
}

__attribute__((aligned(4))) static void fault(void) {
    say("a fault of the processor\n");
    board_end(3);
}

__attribute__((naked, section(".vectors"), used)) void reset(void) {
    __asm__ volatile("la sp, top_of_stack\n"
                     "la t0, %0\n"
                     "csrw mtvec, t0\n"
                     "j board_run\n"
                     :
                     : "i"(fault));
}

void board_begin(void) {
}

uint32_t board_ticks(void) {
    uint32_t cycles;
    __asm__ volatile("csrr %0, mcycle" : "=r"(cycles));
    return cycles;
}

uint32_t board_instructions(uint32_t ticks) {
    return ticks;
}
