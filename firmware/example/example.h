/* SPDX-License-Identifier: Apache-2.0 */
/*
 * The parts of the example: what the board gives, what stands at its pins, and the firmware
 * between.
 */
#ifndef EXAMPLE_H
#define EXAMPLE_H

#include <stdint.h>

/* ---- firmware.c */

/* A fresh device with a memory of zeros, on the bus. */
void firmware_begin(void);

/* One turn of the firmware's loop: a look at the pins, or the second that has passed. */
void firmware_turn(void);

/* Says over the UART what maintenance would see. */
void firmware_report(void);

/* ---- pins: gpio.c on the board, or played.c under the emulator */

/* Returns 1 once for each second that has passed. */
int second_passed(void);

/* Makes the pins ready. */
void pins_prepare(void);

/* What there is to do, for ever or until the end. */
void run(void);

/* ---- mps2.c: the board */

void uart_prepare(void);
void uart_put(char character);

#endif
