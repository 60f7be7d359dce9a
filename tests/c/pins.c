/* SPDX-License-Identifier: Apache-2.0 */
/*
 * firmware/pins.c with the archive of this machine: the sessions of tests/wires, which `make
 * controller` plays on emulated controllers with more ticks in them. tests/levels plays them with
 * firmware/levels.c, whose entries are called here by themselves.
 */
#include <string.h>

#include "check.h"
#include "fm3130.h"
#include "wires.h"

enum { SESSION_STRIDE = 61, YEAR_STRIDE = 3, NOISES = 2000 };

void wires_differ(const char *what, uint32_t is, uint32_t must_be) {
    differ("pins: session %lu, clock %lu: %s is %lu, must be %lu", (unsigned long)played.sessions,
           (unsigned long)played.clocks, what, (unsigned long)is, (unsigned long)must_be);
}

/* ---- the entries themselves, with lengths and numbers that firmware never hands them */

static uint8_t image[FM3130_IMAGE_BYTES], memory[FM3130_MEMORY_BYTES];

/* A word with this number, in which SDA is let go and nothing is due. */
static void check_word(const char *what, uint64_t word, uint32_t number) {
    must_equal(what, (uint32_t)((word & FM3130_PINS_NUMBER) >> FM3130_PINS_NUMBER_SHIFT), number);
    must_equal(what, (word & FM3130_PINS_PULLED) != 0, 0);
    must_equal(what, (word & FM3130_PINS_DUE) != 0, 0);
}

static void check_begins(void) {
    check_word("63 bytes of image", fm3130_pins_begin(image, 63, memory, sizeof memory, 0),
               FM3130_WRONG_STATE);
    check_word("8,191 bytes of memory", fm3130_pins_begin(image, sizeof image, memory, 8191, 7),
               FM3130_WRONG_MEMORY);
    check_word("both", fm3130_pins_begin(image, 0, memory, 0, UINT64_MAX), FM3130_WRONG_MEMORY);
}

/* What is due is refused, and neither image nor memory is written. */
static void check_settles(uint64_t word) {
    uint8_t before[FM3130_IMAGE_BYTES];
    memcpy(before, image, sizeof before);
    uint64_t found = fm3130_pins_hand(image, sizeof image, word, FM3130_TICK);
    must_equal("a tick that is due", (found & FM3130_PINS_DUE) != 0, 1);
    check_word("no image", fm3130_pins_settle(image, 0, memory, sizeof memory, found),
               FM3130_WRONG_STATE);
    check_word("no memory", fm3130_pins_settle(image, sizeof image, memory, 0, found),
               FM3130_WRONG_MEMORY);
    must_equal("an image that was refused", (uint32_t)memcmp(before, image, sizeof before), 0);
    check_word("a tick", fm3130_pins_settle(image, sizeof image, memory, sizeof memory, found), 0);
    must_equal("an image that has ticked", memcmp(before, image, sizeof before) != 0, 1);
}

static void check_entries(void) {
    static const uint64_t unknown[] = {0, 3, 8, 0x104, (uint64_t)1 << 32 | FM3130_TICK, UINT64_MAX};
    must_equal("fm3130_fresh", (uint32_t)fm3130_fresh(image, sizeof image), FM3130_OK);
    image[1] = 0; /* the oscillator runs */
    check_begins();
    uint64_t word = fm3130_pins_begin(image, sizeof image, memory, sizeof memory, 7);
    check_word("a fresh device", word, FM3130_OK);
    check_settles(word);
    for (unsigned i = 0; i < sizeof unknown / sizeof *unknown; i++) {
        check_word("an event that is none of these",
                   fm3130_pins_hand(image, sizeof image, word, unknown[i]), FM3130_UNKNOWN_EVENT);
    }
    check_word("SDA turned late",
               fm3130_pins_driven(word ^ FM3130_PINS_PULLED, word, FM3130_PINS_SCL_AFTER),
               FM3130_PINS_LATE);
}

unsigned long check_pins(void) {
    check_entries();
    play_session(SESSION_STRIDE);
    play_turn_of_year(YEAR_STRIDE);
    play_hangs();
    play_noise(NOISES);
    play_leavings();
    return played.clocks;
}
