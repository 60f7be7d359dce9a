/* SPDX-License-Identifier: Apache-2.0 */
/* A bit-banging master: it pulls and releases two wires, and reads one of them. */
#include "fm3130.h"
#include "wires.h"

static uint32_t byte_ticks;

uint32_t ticks_at_byte(void) {
    return byte_ticks;
}

/* From a bus at rest, or again inside a transfer, where SCL is low. */
void master_starts(void) {
    set_sda(1);
    place();
    set_scl(1);
    place();
    set_sda(0);
    meant(FM3130_START, 1);
    place();
    set_scl(0);
    place();
}

void master_stops(void) {
    set_sda(0);
    place();
    set_scl(1);
    place();
    set_sda(1);
    meant(FM3130_STOP, 1);
    place();
}

uint8_t master_clocks(uint8_t level) {
    set_sda(level);
    place();
    set_scl(1);
    place();
    uint8_t seen = sda_level();
    place();
    set_scl(0);
    meant(level ? FM3130_CLOCK_HIGH : FM3130_CLOCK_LOW, seen);
    place();
    return seen;
}

void master_recovers(void) {
    set_sda(1);
    for (unsigned i = 0; i < 9 && !sda_level(); i++) {
        master_clocks(1);
    }
    must_equal("SDA after nine clocks", sda_level(), 1);
}

void master_hangs(uint8_t byte, unsigned clocks) {
    for (unsigned i = 0; i < clocks; i++) {
        master_clocks(byte >> (7 - i) & 1);
    }
}

uint8_t master_sends(uint8_t byte) {
    master_hangs(byte, 8);
    byte_ticks = ticks_at_clock();
    played.bytes++;
    return !master_clocks(1);
}

uint8_t master_reads(uint8_t more) {
    uint8_t byte = 0;
    for (unsigned i = 0; i < 8; i++) {
        byte = (uint8_t)(byte << 1 | master_clocks(1));
        byte_ticks = i == 0 ? ticks_at_clock() : byte_ticks;
    }
    played.bytes++;
    master_clocks(!more);
    return byte;
}
