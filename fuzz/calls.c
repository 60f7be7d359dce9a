/* SPDX-License-Identifier: Apache-2.0 */
#include "calls.h"

#include <string.h>

#include "hold.h"

static struct fence image_fence, memory_fence, events_fence, answers_fence;

void lay_fences(void)
{
    image_fence = fence_around(MOST_IMAGE);
    memory_fence = fence_around(MOST_MEMORY);
    events_fence = fence_around(MOST_EVENTS);
    answers_fence = fence_around(MOST_ANSWERS);
}

/* ---- lengths */

static size_t choose_image_length(struct choices *choices, uint8_t way)
{
    return way % 8 == 7 ? choose_byte(choices) : IMAGE_BYTES;
}

/* The right one, one beside it, that of a part of another size, or any. */
static size_t choose_memory_length(const struct limits *limits, struct choices *choices, uint8_t way)
{
    switch (way % 16) {
    case 12: return MEMORY_BYTES + LARGE_MEMORY_BYTES - limits->memory_bytes;
    case 13: return limits->memory_bytes - 1;
    case 14: return limits->memory_bytes + 1;
    case 15: return choose_pair(choices);
    default: return limits->memory_bytes;
    }
}

/* At least one byte an event, or too few. */
size_t answers_length(uint8_t choice, uint8_t way, size_t events)
{
    size_t some = choice % 64;
    if (way % 8 == 7)
        return some < events ? events - some : 0;
    return events + some;
}

/* ---- image and memory */

/* Writes a few chosen bytes at chosen places. */
static void scatter(struct choices *choices, struct buffer buffer, unsigned count)
{
    for (unsigned i = 0; i < count && buffer.length > 0; i++) {
        uint16_t place = choose_pair(choices);
        buffer.start[place % buffer.length] = choose_byte(choices);
    }
}

/* A byte on the bus: one beside a limit, or any. */
uint8_t choose_bus_byte(const struct part *part, struct choices *choices)
{
    uint8_t choice = choose_byte(choices);
    return choice & 1 ? part->beside[choice / 2 % BESIDE] : choose_byte(choices);
}

/* A transfer in any phase at any clock, and at times one that is none. */
static void choose_transfer(const struct part *part, struct choices *choices, uint8_t *image)
{
    image[26] = choose_byte(choices) % 10;
    image[27] = choose_byte(choices) % 10;
    image[28] = choose_bus_byte(part, choices);
    image[29] = image[26] == 3 ? choose_byte(choices) : 0;
}

static uint8_t choose_register(const struct limits *limits, struct choices *choices)
{
    return (uint8_t)(limits->lowest_register + choose_byte(choices) % limits->register_bytes);
}

/* The front of the image, the addresses and the supplies within their limits. */
static void choose_state(const struct part *part, struct choices *choices, uint8_t *image)
{
    const struct limits *limits = part->limits;
    for (int i = 0; i < FRONT_BYTES; i++)
        image[i] = choose_byte(choices) & limits->free_bits[i];
    image[COMPANION_PLACE] = choose_register(limits, choices);
    image[MEMORY_PLACE] = choose_byte(choices) % (limits->memory_bytes / 256);
    image[MEMORY_PLACE + 1] = choose_byte(choices);
    image[SUPPLIES_PLACE] = choose_byte(choices) / 64 % 3;
}

/* A data byte is about to come for the first or the last address of a quarter of the memory, under some protection. */
static void choose_quarter(const struct limits *limits, struct choices *choices, uint8_t *image)
{
    uint8_t choice = choose_byte(choices);
    uint64_t quarters = limits->memory_bytes / 4 * (1 + choice % 4);
    uint64_t address = (quarters - choice / 4 % 2) % limits->memory_bytes;
    uint8_t *protection = &image[limits->protection_place];
    *protection = (uint8_t)((*protection & ~0x18) | (choice & 0x18));
    image[MEMORY_PLACE] = (uint8_t)(address >> 8);
    image[MEMORY_PLACE + 1] = (uint8_t)address;
    image[SUPPLIES_PLACE] = 0;
    image[PHASE_PLACE] = 5;
    memset(&image[PHASE_PLACE + 1], 0, 3);
}

/* The fresh image, one within the limits, or any bytes; then a few bytes are changed. */
void fill_image(const struct part *part, struct choices *choices, struct buffer image, uint8_t way)
{
    uint8_t chosen[IMAGE_BYTES];
    hold(part->fresh(chosen, IMAGE_BYTES) == ACCEPTED, "the fresh image is written");
    if (way & 0x80)
        choose_state(part, choices, chosen);
    if (way & 0x40)
        choose_transfer(part, choices, chosen);
    if (way % 8 >= 4)
        part->liven(choices, chosen);
    if (way & 0x20)
        choose_quarter(part->limits, choices, chosen);
    for (uint64_t i = 0; i < image.length; i++)
        image.start[i] = way % 8 == 2 ? choose_byte(choices) : chosen[i % IMAGE_BYTES];
    scatter(choices, image, way % 8 == 3 ? way / 8 % 8 : 0);
}

void fill_memory(struct choices *choices, struct buffer memory)
{
    memset(memory.start, choose_byte(choices), memory.length);
    scatter(choices, memory, choose_byte(choices) % 8);
}

/* ---- events */

/* A register's address, or the one beside either end. */
uint8_t choose_register_byte(const struct limits *limits, struct choices *choices)
{
    return (uint8_t)(limits->lowest_register - 1 + choose_byte(choices) % (limits->register_bytes + 2));
}

/* One choice of bus traffic: a single event, a byte on the bus, a Start with one of the four slave bytes, or a
 * companion write up to its address byte. */
void add_bus_traffic(const struct part *part, struct choices *choices, struct list *list)
{
    static const uint8_t slave_bytes[4] = {0xA0, 0xA1, 0xD0, 0xD1};
    uint8_t kind = choose_byte(choices);
    if (kind < 0x60) {
        add_event(list, kind % (part->limits->highest_event + 1));
    } else if (kind < 0xC0) {
        add_byte(list, choose_bus_byte(part, choices), kind & 1);
    } else if (kind < 0xE0) {
        add_slave_byte(list, slave_bytes[kind & 3]);
    } else {
        add_slave_byte(list, 0xD0);
        add_byte(list, choose_register_byte(part->limits, choices), 1);
    }
}

/* All that is left of the input: bus traffic, single events of the part, or bytes as they are. */
static void choose_events(const struct part *part, struct choices *choices, struct list *list, uint8_t way)
{
    list->length = 0;
    while (choices->left > 0 && list->length < MOST_EVENTS) {
        if (way % 8 < 5)
            part->add_traffic(part, choices, list);
        else if (way % 8 < 7)
            add_event(list, choose_byte(choices) % (part->limits->highest_event + 1));
        else
            add_event(list, choose_byte(choices));
    }
}

struct call choose_call(const struct part *part, struct choices *choices)
{
    static struct list list;
    struct call call = {.part = part};
    uint8_t ends = choose_byte(choices);
    uint8_t lengths = choose_byte(choices);
    uint8_t image_way = choose_byte(choices);
    uint8_t list_way = choose_byte(choices);
    uint8_t cut = choose_byte(choices);
    uint8_t answers = choose_byte(choices);
    call.image = fenced_buffer(image_fence, choose_image_length(choices, lengths), ends & 1);
    call.memory = fenced_buffer(memory_fence, choose_memory_length(part->limits, choices, lengths / 8), ends & 2);
    fill_image(part, choices, call.image, image_way);
    fill_memory(choices, call.memory);
    choose_events(part, choices, &list, list_way);
    call.events = fenced_buffer(events_fence, list.length, ends & 4);
    memcpy(call.events.start, list.events, list.length);
    call.answers = fenced_buffer(answers_fence, answers_length(answers, list_way / 8, list.length), ends & 8);
    memset(call.answers.start, OLD_BYTE, call.answers.length);
    call.cut = cut * list.length / 255;
    return call;
}

/* ---- the contents of the buffers */

void keep(struct contents *contents, struct call call)
{
    memcpy(contents->image, call.image.start, call.image.length);
    memcpy(contents->memory, call.memory.start, call.memory.length);
    memcpy(contents->events, call.events.start, call.events.length);
    memcpy(contents->answers, call.answers.start, call.answers.length);
}

void copy(struct contents *to, const struct contents *from, struct call call)
{
    memcpy(to->image, from->image, call.image.length);
    memcpy(to->memory, from->memory, call.memory.length);
    memcpy(to->events, from->events, call.events.length);
    memcpy(to->answers, from->answers, call.answers.length);
}

void restore(struct call call, const struct contents *contents)
{
    memcpy(call.image.start, contents->image, call.image.length);
    memcpy(call.memory.start, contents->memory, call.memory.length);
    memcpy(call.answers.start, contents->answers, call.answers.length);
}

int holds(struct call call, const struct contents *contents)
{
    return memcmp(call.image.start, contents->image, call.image.length) == 0 &&
           memcmp(call.memory.start, contents->memory, call.memory.length) == 0 &&
           memcmp(call.events.start, contents->events, call.events.length) == 0 &&
           memcmp(call.answers.start, contents->answers, call.answers.length) == 0;
}

void hold_guards(struct call call)
{
    hold(guard_is_whole(call.image), "the bytes beside the image are untouched");
    hold(guard_is_whole(call.memory), "the bytes beside the memory are untouched");
    hold(guard_is_whole(call.events), "the bytes beside the events are untouched");
    hold(guard_is_whole(call.answers), "the bytes beside the answers are untouched");
}
