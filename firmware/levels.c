/* SPDX-License-Identifier: Apache-2.0 */
/*
 * The proved device on the pins of a controller: levels.h says what, docs/CONTROLLER.md why. Here
 * pins are read and set; what they mean, and what is done, are the archive's.
 */
#include "levels.h"

/* The device is on the bus. */
static int is_on(uint64_t word) {
    return (word & FM3130_PINS_NUMBER) == 0;
}

static int is_pulled(uint64_t word) {
    return (word & FM3130_PINS_PULLED) != 0;
}

/* One look: SDA is read between two readings of SCL. */
static unsigned look(void) {
    unsigned seen = 0;
    if (pins_read_scl() != 0) {
        seen |= FM3130_PINS_SCL;
        seen |= pins_read_sda() != 0 ? FM3130_PINS_SDA : 0;
        seen |= pins_read_scl() != 0 ? FM3130_PINS_SCL_AGAIN : 0;
    }
    return seen;
}

/* The levels that a look has left: where SCL fell in it, it is low. */
static uint8_t left_by(unsigned seen) {
    return (uint8_t)((seen & FM3130_PINS_SCL_AGAIN) != 0 ? seen : 0);
}

/* SDA as the word has it; returns SCL as it is read before that and after. */
static uint64_t turn(uint64_t word) {
    if (pins_read_scl() != 0) {
        return FM3130_PINS_SCL_BEFORE;
    }
    if (is_pulled(word)) {
        pins_pull_sda();
    } else {
        pins_release_sda();
    }
    return pins_read_scl() != 0 ? FM3130_PINS_SCL_AFTER : 0;
}

/* From one word to the next: SDA is turned where they differ, and let go where the bus was left. */
static uint64_t drive(uint64_t before, uint64_t word) {
    if (is_on(word) && is_pulled(before) != is_pulled(word)) {
        uint64_t scl = turn(word);
        word = scl == 0 ? word : fm3130_pins_driven(before, word, scl);
    }
    if (!is_on(word)) {
        pins_release_sda();
    }
    return word;
}

static unsigned keep(struct levels *levels, uint64_t word) {
    levels->word = word;
    levels->number = (uint8_t)((word & FM3130_PINS_NUMBER) >> FM3130_PINS_NUMBER_SHIFT);
    levels->answer = (uint8_t)((word & FM3130_PINS_ANSWER) >> FM3130_PINS_ANSWER_SHIFT);
    return levels->number;
}

/* What was found is done, after SDA was turned for it. */
static unsigned settle(struct levels *levels, uint64_t found) {
    found = drive(levels->word, found);
    if ((found & FM3130_PINS_DUE) == 0) {
        return keep(levels, found);
    }
    uint64_t word = fm3130_pins_settle(levels->image, FM3130_IMAGE_BYTES, levels->memory,
                                       FM3130_MEMORY_BYTES, found);
    return keep(levels, drive(found, word));
}

/* A look that sees the levels that the one before it left changes nothing (proved: SeenAgain). */
unsigned levels_look(struct levels *levels) {
    unsigned seen = look();
    if (seen == levels->seen) {
        return levels->number;
    }
    levels->seen = left_by(seen);
    return settle(levels, fm3130_pins_look(levels->word, seen));
}

unsigned levels_due(struct levels *levels, uint8_t event) {
    if (levels_look(levels) != FM3130_OK) {
        return levels->number;
    }
    return settle(levels, fm3130_pins_hand(levels->image, FM3130_IMAGE_BYTES, levels->word, event));
}

unsigned levels_begin(struct levels *levels, uint8_t *image, uint8_t *memory) {
    levels->image = image;
    levels->memory = memory;
    pins_release_sda();
    unsigned seen = look();
    levels->seen = left_by(seen);
    uint64_t word = fm3130_pins_begin(image, FM3130_IMAGE_BYTES, memory, FM3130_MEMORY_BYTES, seen);
    return keep(levels, drive(0, word));
}
