/* SPDX-License-Identifier: Apache-2.0 */
/*
 * An example: the device with image and memory in RAM, and a report of what maintenance would see.
 * Where FRAM or a battery is at hand, lend those to pins_begin instead.
 */
#include "example.h"
#include "fm3130.h"
#include "pins.h"

static uint8_t image[FM3130_IMAGE_BYTES], memory[FM3130_MEMORY_BYTES];
static struct pins pins;

/* ---- words */

static void put_text(const char *text) {
    while (*text != '\0') {
        uart_put(*text++);
    }
}

static void put_hex(unsigned byte) {
    uart_put("0123456789ABCDEF"[byte >> 4 & 15]);
    uart_put("0123456789ABCDEF"[byte & 15]);
}

static void put_bytes(const char *name, const uint8_t *bytes, unsigned count) {
    put_text(name);
    for (unsigned i = 0; i < count; i++) {
        uart_put(' ');
        put_hex(bytes[i]);
    }
    uart_put('\n');
}

static void put_flag(unsigned is_set, const char *name) {
    if (is_set) {
        uart_put(' ');
        put_text(name);
    }
}

/* ---- the report */

/*
 * Registers 02h to 08h, which are BCD and so are read as they stand: seconds first, the year last.
 */
static void put_calendar(const uint8_t *registers) {
    put_text("calendar ");
    put_hex(registers[4]);
    uart_put(':');
    put_hex(registers[3]);
    uart_put(':');
    put_hex(registers[2]);
    put_text("  ");
    put_hex(registers[6]);
    uart_put('/');
    put_hex(registers[7]);
    uart_put('/');
    put_hex(registers[8]);
    put_text("  day ");
    uart_put((char)('0' + registers[5]));
    uart_put('\n');
}

static void put_flags(const uint8_t *registers) {
    static const char *const names[] = {"R", "W", "CAL", "AEN", "POR", "CF", "AF", "LB"};
    put_text("flags   ");
    for (unsigned bit = 8; bit-- > 0;) {
        put_flag(registers[0] >> bit & 1, names[bit]);
    }
    put_flag(registers[1] >> 7, "OSCEN (the oscillator stands)");
    put_flag(registers[0] == 0 && registers[1] >> 7 == 0, "none");
    uart_put('\n');
}

static void put_pin(void) {
    static const char *const functions[] = {"released", "alarm", "square wave", "calibration"};
    put_text("pin ACS  ");
    put_text(functions[(pins.answer & FM3130_ANSWER_PIN) >> FM3130_ANSWER_PIN_SHIFT]);
    put_text(pins.answer & FM3130_ANSWER_ALARM ? ", pulled\n" : "\n");
}

void firmware_report(void) {
    put_bytes("registers", image, FM3130_REGISTER_BYTES);
    put_calendar(image);
    put_flags(image);
    put_pin();
    put_bytes("lamps 1000h", memory + FM3130_LAMP_ADDRESS, FM3130_LAMPS);
}

/* ---- the loop */

/*
 * The device has left the bus, and its line is released: see docs/CONTROLLER.md, "Refusals". Here
 * it is said and nothing more is done; a rig would also light a lamp of its own.
 */
static void stop(unsigned number) {
    put_text("THE DEVICE HAS LEFT THE BUS: number ");
    put_hex(number);
    uart_put('\n');
    for (;;) {
    }
}

void firmware_begin(void) {
    unsigned number = (unsigned)fm3130_fresh(image, sizeof image);
    if (number == FM3130_OK) {
        number = pins_begin(&pins, image, memory);
    }
    if (number != FM3130_OK) {
        stop(number);
    }
}

void firmware_turn(void) {
    unsigned number = second_passed() ? pins_due(&pins, FM3130_TICK) : pins_look(&pins);
    if (number != FM3130_OK) {
        stop(number);
    }
}
