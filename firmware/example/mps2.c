/* SPDX-License-Identifier: Apache-2.0 */
/* The board mps2-an386: vectors, memory as C takes it for granted, and UART 0. */
#include "example.h"

extern uint32_t top_of_stack[];
extern uint32_t image_of_data[], begin_of_data[], end_of_data[], begin_of_bss[], end_of_bss[];

struct uart {
    uint32_t data, state, control, interrupt, divider;
};

#define UART ((volatile struct uart *)0x40004000u)

enum { UART_FULL = 1, UART_SENDS = 1, UART_DIVIDER = 217 /* 115,200 baud of 25 MHz */ };

void uart_prepare(void) {
    UART->divider = UART_DIVIDER;
    UART->control = UART_SENDS;
}

void uart_put(char character) {
    while (UART->state & UART_FULL) {
    }
    UART->data = (uint8_t)character;
}

void reset(void);

void reset(void) {
    uint32_t *from = image_of_data;
    for (uint32_t *to = begin_of_data; to != end_of_data;) {
        *to++ = *from++;
    }
    for (uint32_t *to = begin_of_bss; to != end_of_bss;) {
        *to++ = 0;
    }
    uart_prepare();
    pins_prepare();
    firmware_begin();
    run();
    for (;;) {
    }
}

static void fault(void) {
    uart_put('!');
    for (;;) {
    }
}

/* Only the seconds of gpio.c interrupt; where it is not linked the vector stays a fault's. */
__attribute__((weak)) void second_interrupt(void) {
    fault();
}

struct vectors {
    uint32_t *stack;
    void (*functions[15])(void);
};

__attribute__((section(".vectors"), used)) static const struct vectors vectors = {
    top_of_stack, {reset, fault, fault, fault, fault, fault, [14] = second_interrupt}};
