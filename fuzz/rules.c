/* SPDX-License-Identifier: Apache-2.0 */
#include "rules.h"

#include <string.h>

/* Registers 00h to 0Eh, then the core. */
const struct limits fm3130_limits = {
    .memory_bytes = MEMORY_BYTES,
    .register_bytes = 15,
    .lowest_register = 0x00,
    .highest_register = 0x0E,
    .highest_event = 7,
    .told_bytes = 2,
    .protection_place = 14,
    .free_bits = {0xFF, 0xBF, 0x7F, 0x7F, 0x3F, 0x07, 0x3F, 0x1F, 0xFF, 0xFF, 0xFF,
                  0xBF, 0xBF, 0x9F, 0xFF, 0x7F, 0x7F, 0x3F, 0x07, 0x3F, 0x1F, 0xFF},
    .mark = {0x31, 0x30, 0x01},
};

/* Registers 09h to 18h, then the snapshot of 0Dh to 10h, then two zeros. */
#define FAMILY_LIMITS(size)                                                                                            \
    {                                                                                                                  \
        .memory_bytes = (size), .register_bytes = 16, .lowest_register = 0x09, .highest_register = 0x18,               \
        .highest_event = 9, .told_bytes = 1, .protection_place = 2,                                                    \
        .free_bits = {0xEF, 0x9F, 0x9F, 0x0F, 0xFF, 0xFF, 0xFF, 0xFF, 0xFF, 0xFF, 0xFF,                                \
                      0xFF, 0xFF, 0xFF, 0xFF, 0xFF, 0xFF, 0xFF, 0xFF, 0xFF, 0x00, 0x00},                               \
        .mark = {0x31, 0xCC, 0x01},                                                                                    \
    }

const struct limits fm3164_limits = FAMILY_LIMITS(MEMORY_BYTES);
const struct limits fm31256_limits = FAMILY_LIMITS(LARGE_MEMORY_BYTES);

static int fixed_bits_are_0(const struct limits *limits, const uint8_t *image)
{
    for (int i = 0; i < FRONT_BYTES; i++)
        if (image[i] & ~limits->free_bits[i])
            return 0;
    return 1;
}

static int spare_bytes_are_0(const uint8_t *image)
{
    for (int i = 30; i < 61; i++)
        if (image[i] != 0)
            return 0;
    return 1;
}

static int is_a_register(const struct limits *limits, uint8_t address)
{
    return address >= limits->lowest_register && address <= limits->highest_register;
}

static int addresses_are_within(const struct limits *limits, const uint8_t *image)
{
    unsigned memory_address = image[MEMORY_PLACE] * 256u + image[MEMORY_PLACE + 1];
    return is_a_register(limits, image[COMPANION_PLACE]) && memory_address < limits->memory_bytes;
}

static int names_somebody(const struct limits *limits, uint8_t slave_byte)
{
    int lone = slave_byte ^ limits->select << 1;
    return lone == 0xA0 || lone == 0xA1 || lone == 0xD0 || lone == 0xD1;
}

/* The limits of bytes 26 to 29. */
static int transfer_is_within(const struct limits *limits, uint8_t phase, uint8_t clocks, uint8_t byte, uint8_t first)
{
    int fits = clocks <= 8 && byte < 1 << clocks;
    if (phase != 3 && first != 0)
        return 0;
    switch (phase) {
    case 0: return clocks == 0 && byte == 0;
    case 1: return fits && (clocks < 8 || names_somebody(limits, byte));
    case 2:
    case 3:
    case 5:
    case 6: return fits;
    case 4: return fits && (clocks < 8 || is_a_register(limits, byte));
    case 7:
    case 8: return clocks <= 8 && (clocks > 0 || byte == 0);
    default: return 0;
    }
}

int image_is_accepted(const struct limits *limits, const uint8_t *image, uint64_t length)
{
    return length == IMAGE_BYTES && fixed_bits_are_0(limits, image) && addresses_are_within(limits, image) &&
           image[SUPPLIES_PLACE] <= 2 && transfer_is_within(limits, image[26], image[27], image[28], image[29]) &&
           (image[SUPPLIES_PLACE] == 0 || image[PHASE_PLACE] == 0) && spare_bytes_are_0(image) &&
           memcmp(&image[61], limits->mark, sizeof limits->mark) == 0;
}

static int some_event_is_unknown(const struct limits *limits, const uint8_t *events, uint64_t length)
{
    for (uint64_t i = 0; i < length; i++)
        if (events[i] > limits->highest_event)
            return 1;
    return 0;
}

/* Numbers 1 and 2, which every call on a device can get. */
static uint64_t device_number(const struct limits *limits, const uint8_t *image, uint64_t image_length,
                              uint64_t memory_length)
{
    if (memory_length != limits->memory_bytes)
        return WRONG_MEMORY;
    return image_is_accepted(limits, image, image_length) ? ACCEPTED : WRONG_STATE;
}

uint64_t run_number(const struct limits *limits, const uint8_t *image, uint64_t image_length, uint64_t memory_length,
                    const uint8_t *events, uint64_t events_length, uint64_t answers_length)
{
    uint64_t number = device_number(limits, image, image_length, memory_length);
    if (number != ACCEPTED)
        return number;
    if (some_event_is_unknown(limits, events, events_length))
        return UNKNOWN_EVENT;
    return answers_length < events_length ? SHORT_ANSWERS : ACCEPTED;
}

uint64_t step_number(const struct limits *limits, const uint8_t *image, uint64_t image_length, uint64_t memory_length,
                     uint64_t event, uint64_t told_length)
{
    uint64_t number = device_number(limits, image, image_length, memory_length);
    if (number != ACCEPTED)
        return number;
    if (event > limits->highest_event)
        return UNKNOWN_EVENT;
    return told_length < limits->told_bytes ? SHORT_ANSWERS : ACCEPTED;
}

uint64_t view_number(const struct limits *limits, uint64_t image_length, uint64_t memory_length, uint64_t selector,
                     uint64_t start, uint64_t length)
{
    uint64_t total = selector == 0 ? limits->memory_bytes : limits->register_bytes;
    if (memory_length != limits->memory_bytes)
        return WRONG_MEMORY;
    if (image_length != IMAGE_BYTES)
        return WRONG_STATE;
    if (selector > 1)
        return UNKNOWN_SELECTOR;
    return start > total || length > total - start ? PAST_THE_END : ACCEPTED;
}
