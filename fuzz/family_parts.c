/* SPDX-License-Identifier: Apache-2.0 */
#include "family_parts.h"

#include "../include/fm31.h"
#include "family_plain.h"

/* The family's list run gives no count: it is the number of events, or 0 under a refusal. */
static struct fm3130_ran with_count(uint64_t number, uint64_t events)
{
    return (struct fm3130_ran){.number = number, .count = number == ACCEPTED ? events : 0};
}

static struct fm3130_ran run_64(uint8_t *image, uint64_t image_length, uint8_t *memory, uint64_t memory_length,
                                const uint8_t *events, uint64_t events_length, uint8_t *answers,
                                uint64_t answers_length)
{
    return with_count(
        fm3164_run(image, image_length, memory, memory_length, events, events_length, answers, answers_length),
        events_length);
}

static struct fm3130_ran run_256(uint8_t *image, uint64_t image_length, uint8_t *memory, uint64_t memory_length,
                                 const uint8_t *events, uint64_t events_length, uint8_t *answers,
                                 uint64_t answers_length)
{
    return with_count(
        fm31256_run(image, image_length, memory, memory_length, events, events_length, answers, answers_length),
        events_length);
}

static void plain_64(uint8_t *image, uint8_t *memory, const uint8_t *events, size_t count, uint8_t *answers)
{
    family_run(MEMORY_BYTES, LONE, image, memory, events, count, answers);
}

static void plain_256(uint8_t *image, uint8_t *memory, const uint8_t *events, size_t count, uint8_t *answers)
{
    family_run(LARGE_MEMORY_BYTES, LONE, image, memory, events, count, answers);
}

/* RC, CC and the lock as chosen, counters whose bytes are at their tops. */
static void liven(struct choices *choices, uint8_t *image)
{
    uint8_t way = choose_byte(choices);
    image[FM31_PLACE(FM31_COUNTING)] = way & 0x0F;
    for (int i = 0; i < 4; i++)
        image[FM31_PLACE(FM31_COUNTER_1_LOW) + i] = way & 0x10 << i ? 0xFF : choose_byte(choices);
    image[FM31_PLACE(FM31_CONTROL)] ^= choose_byte(choices) & FM31_SNL;
}

/* One event tells its answer alone. */
static void hold_told(const uint8_t *old_image, const uint8_t *new_image, uint64_t event, const uint8_t *told)
{
    (void)old_image;
    (void)new_image;
    (void)event;
    (void)told;
}

static const uint8_t beside[BESIDE] = {0x08, 0x09, 0x0C, 0x10, 0x11, 0x18, 0x19, 0xFF};

const struct part family_parts[2] = {
    {&fm3164_limits, beside, fm31_fresh, run_64, fm3164_step, fm3164_view_number, plain_64, liven, add_bus_traffic,
     hold_told},
    {&fm31256_limits, beside, fm31_fresh, run_256, fm31256_step, fm31256_view_number, plain_256, liven, add_bus_traffic,
     hold_told},
};
