/* SPDX-License-Identifier: Apache-2.0 */
/*
 * The example under the emulator, which has nothing at the board's pins: two bytes in memory are
 * the wires, and a master that pulls and releases them plays a short session. After each of its
 * changes the firmware has a turn.
 */
#include "example.h"
#include "fm3130.h"
#include "pins.h"

static uint8_t scl = 1, sda = 1, is_pulled;
static unsigned seconds;

int pins_read_scl(void) {
    return scl;
}

int pins_read_sda(void) {
    return sda && !is_pulled;
}

void pins_pull_sda(void) {
    is_pulled = 1;
}

void pins_release_sda(void) {
    is_pulled = 0;
}

void pins_prepare(void) {
}

int second_passed(void) {
    if (seconds == 0) {
        return 0;
    }
    seconds--;
    return 1;
}

/* ---- the master */

static void say(const char *text) {
    while (*text != '\0') {
        uart_put(*text++);
    }
}

static void put(uint8_t *wire, uint8_t level) {
    *wire = level;
    firmware_turn();
}

static void start(void) {
    put(&sda, 1);
    put(&scl, 1);
    put(&sda, 0);
    put(&scl, 0);
}

static void stop(void) {
    put(&sda, 0);
    put(&scl, 1);
    put(&sda, 1);
}

static unsigned clock(unsigned level) {
    put(&sda, (uint8_t)level);
    put(&scl, 1);
    unsigned seen = (unsigned)pins_read_sda();
    put(&scl, 0);
    return seen;
}

/* Sends a byte and, where it is not acknowledged, says so. */
static void send(unsigned byte) {
    for (unsigned bit = 8; bit-- > 0;) {
        clock(byte >> bit & 1);
    }
    if (clock(1)) {
        say("not acknowledged: ");
        uart_put("0123456789ABCDEF"[byte >> 4 & 15]);
        uart_put("0123456789ABCDEF"[byte & 15]);
        uart_put('\n');
    }
}

static void transfer(const uint8_t *bytes, unsigned count) {
    start();
    for (unsigned i = 0; i < count; i++) {
        send(bytes[i]);
    }
    stop();
}

static void pass(unsigned count) {
    seconds = count;
    while (seconds > 0) {
        firmware_turn();
    }
}

/* The emulator ends, by its own call for that. */
static void end(void) {
    register uint32_t operation __asm__("r0") = 0x18;
    register uint32_t reason __asm__("r1") = 0x20026;
    __asm__ volatile("bkpt 0xab" : : "r"(operation), "r"(reason) : "memory");
}

/*
 * Sets the clock, writes two lamps and waits; then a byte for a protected address, and a part that
 * is not there.
 */
void run(void) {
    static const uint8_t runs[] = {0xD0, 0x01, 0x00}, set[] = {0xD0, 0x00, 0x02},
                         time[] = {0xD0, 0x02, 0x58, 0x59, 0x08, 0x07, 0x15, 0x11, 0x26},
                         start_now[] = {0xD0, 0x00, 0x00},
                         lamps[] = {0xA0, 0x10, 0x00, 0x01, 0x00, 0x01},
                         at_half[] = {0xD0, 0x09, 0x30, 0x80, 0x80, 0x80, 0x80},
                         guard[] = {0xD0, 0x0E, 0x98}, alarm[] = {0xD0, 0x00, 0x08},
                         guarded[] = {0xA0, 0x10, 0x07, 0xFF}, nobody[] = {0x50};
    say("A fresh device.\n");
    firmware_report();
    transfer(runs, sizeof runs);
    transfer(set, sizeof set);
    transfer(time, sizeof time);
    transfer(start_now, sizeof start_now);
    transfer(lamps, sizeof lamps);
    pass(3);
    say("\nThe clock was set to 08:59:58, lamps 0 and 2 were written, three seconds passed.\n");
    firmware_report();
    transfer(at_half, sizeof at_half);
    transfer(guard, sizeof guard);
    transfer(alarm, sizeof alarm);
    pass(60);
    say("\nAn alarm at half of every minute, all memory protected, a minute passed.\n");
    transfer(guarded, sizeof guarded);
    transfer(nobody, sizeof nobody);
    firmware_report();
    end();
}
