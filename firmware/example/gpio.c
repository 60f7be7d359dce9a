/* SPDX-License-Identifier: Apache-2.0 */
/*
 * The example on the pins of the board: SCL is pin 0 and SDA pin 1 of GPIO 0. This is compiled and
 * linked with each `make controller`, and was never run: the emulator has nothing at these pins.
 */
#include "example.h"
#include "pins.h"

struct gpio {
    uint32_t data, output, reserved[2], output_enable, output_disable;
};

#define GPIO ((volatile struct gpio *)0x40010000u)
#define SYSTICK_CONTROL (*(volatile uint32_t *)0xE000E010u)
#define SYSTICK_RELOAD (*(volatile uint32_t *)0xE000E014u)

enum { SCL = 1 << 0, SDA = 1 << 1, CORE_HERTZ = 25000000, PER_SECOND = 2 };

static volatile uint32_t interrupts;

int pins_read_scl(void) {
    return (GPIO->data & SCL) != 0;
}

int pins_read_sda(void) {
    return (GPIO->data & SDA) != 0;
}

/* Open drain: the output is always 0, and it is on or off. */
void pins_pull_sda(void) {
    GPIO->output_enable = SDA;
}

void pins_release_sda(void) {
    GPIO->output_disable = SDA;
}

void pins_prepare(void) {
    GPIO->output_disable = SCL | SDA;
    GPIO->output &= ~(uint32_t)SDA;
    SYSTICK_RELOAD = CORE_HERTZ / PER_SECOND - 1; /* it counts 24 bits */
    SYSTICK_CONTROL = 7;
}

void second_interrupt(void);

void second_interrupt(void) {
    interrupts++;
}

/* The interrupt only counts; the tick itself is done in the loop, between two looks. */
int second_passed(void) {
    static uint32_t done;
    if (interrupts - done < PER_SECOND) {
        return 0;
    }
    done += PER_SECOND;
    return 1;
}

void run(void) {
    for (;;) {
        firmware_turn();
    }
}
