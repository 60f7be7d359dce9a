/* SPDX-License-Identifier: Apache-2.0 */
/* The table of refusals in 01, and the images that docs/IMAGE.md and docs/FAMILY.md accept, written down once more for
 * the fuzzer. What differs from part to part is one record of limits. */
#ifndef RULES_H
#define RULES_H

#include <stdint.h>

enum {
    ACCEPTED,
    WRONG_MEMORY,
    WRONG_STATE,
    UNKNOWN_EVENT,
    SHORT_ANSWERS,
    UNKNOWN_SELECTOR,
    PAST_THE_END,
    NOT_HELD,
    TOO_MANY_TICKS,
    WRONG_COUNT,
    EQUAL_SELECTS,
    IN_TRANSFER
};

enum { IMAGE_BYTES = 64, MEMORY_BYTES = 8192, LARGE_MEMORY_BYTES = 32768, MOST_TICKS = 31622400 };

/* Byte places in an image, the same in every part. */
enum { COMPANION_PLACE = 22, MEMORY_PLACE = 23, SUPPLIES_PLACE = 25, PHASE_PLACE = 26, FRONT_BYTES = 22 };

/* What a part allows; `select` are the select bits of a device of a set. The front of an image is all before the
 * addresses: registers, and the calendar's core or the snapshot; `free_bits` are the bits of it that are not fixed
 * at 0. WP1 and WP0 are bits 4 and 3 of byte `protection_place`. */
struct limits {
    uint64_t memory_bytes;
    uint64_t register_bytes;
    uint8_t lowest_register;
    uint8_t highest_register;
    uint8_t highest_event;
    uint8_t told_bytes;
    uint8_t protection_place;
    uint8_t select;
    uint8_t free_bits[FRONT_BYTES];
    uint8_t mark[3];
};

extern const struct limits fm3130_limits, fm3164_limits, fm31256_limits;

/* Whether the part's layout accepts an image. */
int image_is_accepted(const struct limits *limits, const uint8_t *image, uint64_t length);

/* The number that 01 gives a list run. */
uint64_t run_number(const struct limits *limits, const uint8_t *image, uint64_t image_length, uint64_t memory_length,
                    const uint8_t *events, uint64_t events_length, uint64_t answers_length);

/* The number of one event, which is not a byte and can be any number. */
uint64_t step_number(const struct limits *limits, const uint8_t *image, uint64_t image_length, uint64_t memory_length,
                     uint64_t event, uint64_t told_length);

/* The number that 01 gives a view. */
uint64_t view_number(const struct limits *limits, uint64_t image_length, uint64_t memory_length, uint64_t selector,
                     uint64_t start, uint64_t length);

#endif
