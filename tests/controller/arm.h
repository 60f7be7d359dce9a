/* SPDX-License-Identifier: Apache-2.0 */
/* What the two ARM boards share: the vectors, and the call to the emulator. */
#ifndef CONTROLLER_ARM_H
#define CONTROLLER_ARM_H

#include "board.h"

extern uint32_t top_of_stack[];

uintptr_t board_call(uintptr_t operation, const void *argument) {
    register uintptr_t r0 __asm__("r0") = operation;
    register const void *r1 __asm__("r1") = argument;
    __asm__ volatile("bkpt 0xab" : "+r"(r0) : "r"(r1) : "memory");
    return r0;
}

static void fault(void) {
    say("a fault of the processor\n");
    board_end(3);
}

/* The stack, the first function, and the faults: no interrupt is used. */
struct vectors {
    uint32_t *stack;
    void (*functions[15])(void);
};

__attribute__((section(".vectors"), used)) static const struct vectors vectors = {
    top_of_stack, {board_run, fault, fault, fault, fault, fault}};

#endif
