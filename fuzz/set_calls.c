/* SPDX-License-Identifier: Apache-2.0 */
#include "set_calls.h"

#include <string.h>

#include "family_parts.h"
#include "hold.h"

/* The first two phases of docs/IMAGE.md. */
enum { IDLE_PHASE, SLAVE_PHASE };

static struct fence plan_fence, images_fence, memory_fences[PLACES], events_fence, answers_fence;

void lay_set_fences(void)
{
    plan_fence = fence_around(MOST_PLAN);
    images_fence = fence_around(MOST_IMAGES);
    for (int place = 0; place < PLACES; place++)
        memory_fences[place] = fence_around(MOST_MEMORY);
    events_fence = fence_around(MOST_EVENTS);
    answers_fence = fence_around(MOST_ANSWERS);
}

/* ---- the plan and what it says */

static uint64_t size_at(const struct set_call *call, uint64_t place)
{
    return call->plan.start[place] & 4 ? LARGE_MEMORY_BYTES : MEMORY_BYTES;
}

static const struct part *part_at(const struct set_call *call, uint64_t place)
{
    return &family_parts[size_at(call, place) == LARGE_MEMORY_BYTES];
}

uint64_t places_of(const struct set_call *call) { return call->plan.length < PLACES ? call->plan.length : PLACES; }

struct limits limits_at(const struct set_call *call, uint64_t place)
{
    struct limits limits = *part_at(call, place)->limits;
    limits.select = call->plan.start[place] & 3;
    return limits;
}

/* ---- the numbers */

/* Numbers 9, 1 and 2, which both entries can give, the count first. */
static uint64_t reading_number(const struct set_call *call)
{
    if (call->plan.length < 1 || call->plan.length > PLACES)
        return WRONG_COUNT;
    for (uint64_t place = 0; place < places_of(call); place++)
        if (call->memories[place].length != size_at(call, place))
            return WRONG_MEMORY;
    if (call->images.length != IMAGE_BYTES * call->plan.length)
        return WRONG_STATE;
    for (uint64_t place = 0; place < places_of(call); place++) {
        struct limits limits = limits_at(call, place);
        if (call->plan.start[place] > 7 ||
            !image_is_accepted(&limits, &call->images.start[IMAGE_BYTES * place], IMAGE_BYTES))
            return WRONG_STATE;
    }
    return ACCEPTED;
}

static int selects_differ(const struct set_call *call)
{
    for (uint64_t place = 0; place < call->plan.length; place++)
        for (uint64_t other = 0; other < place; other++)
            if ((call->plan.start[place] & 3) == (call->plan.start[other] & 3))
                return 0;
    return 1;
}

static const uint8_t *transfer_at(const struct set_call *call, uint64_t place)
{
    return &call->images.start[IMAGE_BYTES * place + PHASE_PLACE];
}

uint64_t check_number(const struct set_call *call)
{
    uint64_t number = reading_number(call);
    if (number != ACCEPTED)
        return number;
    if (!selects_differ(call))
        return EQUAL_SELECTS;
    for (uint64_t place = 0; place < call->plan.length; place++)
        if (transfer_at(call, place)[0] != IDLE_PHASE)
            return IN_TRANSFER;
    return ACCEPTED;
}

/* Of two devices one is idle, or both are in the same slave byte, which is not whole: its phase, its clocks, its bits. */
static int are_clear(const uint8_t *transfer, const uint8_t *other)
{
    if (transfer[0] == IDLE_PHASE || other[0] == IDLE_PHASE)
        return 1;
    return transfer[0] == SLAVE_PHASE && transfer[1] < 8 && memcmp(transfer, other, 3) == 0;
}

static int stands_together(const struct set_call *call)
{
    for (uint64_t place = 0; place < call->plan.length; place++)
        for (uint64_t other = 0; other < place; other++)
            if (!are_clear(transfer_at(call, place), transfer_at(call, other)))
                return 0;
    return 1;
}

uint64_t set_run_number(const struct set_call *call)
{
    uint64_t number = reading_number(call);
    if (number != ACCEPTED)
        return number;
    for (uint64_t i = 0; i < call->events.length; i++)
        if (call->events.start[i] >= 8 + 2 * call->plan.length)
            return UNKNOWN_EVENT;
    if (call->answers.length < call->events.length)
        return SHORT_ANSWERS;
    if (!selects_differ(call))
        return EQUAL_SELECTS;
    return stands_together(call) ? ACCEPTED : IN_TRANSFER;
}

/* ---- choices */

/* Mostly one to four devices with selects of their own; at times any bytes, or too many. */
static void choose_plan(struct choices *choices, struct set_call *call, int at_the_end)
{
    uint8_t way = choose_byte(choices), first = choose_byte(choices);
    size_t length = way % 16 == 15 ? choose_byte(choices) % (MOST_PLAN + 1) : 1 + (size_t)way / 16 % PLACES;
    call->plan = fenced_buffer(plan_fence, length, at_the_end);
    for (size_t place = 0; place < length; place++) {
        uint8_t own = choose_byte(choices);
        call->plan.start[place] = way % 16 < 13 ? (uint8_t)((own & 4) | ((first + place) & 3)) : own % 16;
    }
}

/* The right length, that of the other size, one beside it, or any. */
static size_t choose_memory_length(struct choices *choices, uint64_t right, uint8_t way)
{
    switch (way % 64) {
    case 60: return MEMORY_BYTES + LARGE_MEMORY_BYTES - right;
    case 61: return right - 1;
    case 62: return right + 1;
    case 63: return choose_pair(choices);
    default: return right;
    }
}

static void choose_memories(struct choices *choices, struct set_call *call, uint8_t ends)
{
    for (uint64_t place = 0; place < PLACES; place++) {
        uint8_t way = choose_byte(choices);
        size_t length = place < places_of(call) ? choose_memory_length(choices, size_at(call, place), way) : way % 16;
        call->memories[place] = fenced_buffer(memory_fences[place], length, ends >> place & 1);
        fill_memory(choices, call->memories[place]);
    }
}

/* One of the four slave bytes, with select bits of the set or others. */
static uint8_t slave_byte(uint8_t choice)
{
    static const uint8_t lone[4] = {0xA0, 0xA1, 0xD0, 0xD1};
    return lone[choice & 3] | (uint8_t)((choice >> 2 & 3) << 1);
}

/* A device that has a whole slave byte and is about to acknowledge it. */
static void choose_called(struct choices *choices, uint8_t *image)
{
    image[SUPPLIES_PLACE] = 0;
    image[PHASE_PLACE] = SLAVE_PHASE;
    image[PHASE_PLACE + 1] = 8;
    image[PHASE_PLACE + 2] = slave_byte(choose_byte(choices));
    image[PHASE_PLACE + 3] = 0;
}

/* The transfer's bytes of an image: phase, clocks, byte, first address byte. */
enum { TRANSFER_BYTES = 4 };

/* All devices but one between transfers, or all with main power in one slave byte. */
static void let_stand_together(struct choices *choices, struct set_call *call, uint64_t places)
{
    uint8_t way = choose_byte(choices), clocks = way / 4 % 8;
    uint8_t bits = choose_byte(choices) & ((1u << clocks) - 1);
    for (uint64_t place = 0; place < places; place++) {
        uint8_t *image = &call->images.start[IMAGE_BYTES * place];
        uint8_t called[TRANSFER_BYTES] = {SLAVE_PHASE, clocks, bits, 0}, idle[TRANSFER_BYTES] = {IDLE_PHASE};
        if (way & 0x80 && image[SUPPLIES_PLACE] == 0)
            memcpy(&image[PHASE_PLACE], called, TRANSFER_BYTES);
        else if (place != way % PLACES)
            memcpy(&image[PHASE_PLACE], idle, TRANSFER_BYTES);
    }
}

/* Fresh images or any that a device can have, mostly one a device; half of the time between transfers, else mostly as
 * the devices of a made set can stand. */
static void choose_images(struct choices *choices, struct set_call *call, int at_the_end)
{
    uint8_t way = choose_byte(choices);
    size_t length = IMAGE_BYTES * (size_t)call->plan.length;
    uint64_t places;
    if (way % 32 == 31)
        length = choose_pair(choices) % (MOST_IMAGES + 1);
    call->images = fenced_buffer(images_fence, length, at_the_end);
    memset(call->images.start, 0, length);
    places = call->plan.length < length / IMAGE_BYTES ? call->plan.length : length / IMAGE_BYTES;
    for (uint64_t place = 0; place < places; place++) {
        struct buffer image = {.start = &call->images.start[IMAGE_BYTES * place], .length = IMAGE_BYTES};
        uint8_t image_way = choose_byte(choices);
        fill_image(part_at(call, place), choices, image, way & 0x80 ? image_way & 0x87 : image_way);
        if (image_way % 16 == 1)
            choose_called(choices, image.start);
    }
    if (!(way & 0x80) && way % 4 != 0)
        let_stand_together(choices, call, places);
}

/* One choice of bus traffic: a single event, a byte on the bus, a Start with a slave byte of some device, or a companion
 * write up to its address byte. */
static void add_traffic(struct choices *choices, const struct set_call *call, struct list *list)
{
    uint8_t kind = choose_byte(choices);
    if (kind < 0x60) {
        add_event(list, (uint8_t)(kind % (8 + 2 * call->plan.length)));
    } else if (kind < 0xC0) {
        add_byte(list, choose_bus_byte(&family_parts[0], choices), kind & 1);
    } else if (kind < 0xE0) {
        add_slave_byte(list, slave_byte(kind));
    } else {
        add_slave_byte(list, slave_byte((kind & 0x0C) | 2));
        add_byte(list, choose_register_byte(&fm3164_limits, choices), 1);
    }
}

static void choose_events(struct choices *choices, struct set_call *call, struct list *list)
{
    uint8_t way = choose_byte(choices);
    list->length = 0;
    while (choices->left > 0 && list->length < MOST_EVENTS) {
        if (way % 8 < 6)
            add_traffic(choices, call, list);
        else
            add_event(list, (uint8_t)(choose_byte(choices) % (8 + 2 * call->plan.length + (way % 8 == 7))));
    }
}

struct set_call choose_set_call(struct choices *choices)
{
    static struct list list;
    struct set_call call;
    uint8_t ends = choose_byte(choices), more_ends = choose_byte(choices);
    uint8_t cut = choose_byte(choices), room = choose_byte(choices), room_way = choose_byte(choices);
    choose_plan(choices, &call, ends & 1);
    choose_images(choices, &call, ends & 2);
    choose_memories(choices, &call, more_ends);
    choose_events(choices, &call, &list);
    call.events = fenced_buffer(events_fence, list.length, ends & 4);
    memcpy(call.events.start, list.events, list.length);
    call.answers = fenced_buffer(answers_fence, answers_length(room, room_way, list.length), ends & 8);
    memset(call.answers.start, OLD_BYTE, call.answers.length);
    call.cut = cut * list.length / 255;
    return call;
}

/* ---- the contents of the buffers */

void keep_set(struct set_contents *contents, const struct set_call *call)
{
    memcpy(contents->plan, call->plan.start, call->plan.length);
    memcpy(contents->images, call->images.start, call->images.length);
    for (int place = 0; place < PLACES; place++)
        memcpy(contents->memories[place], call->memories[place].start, call->memories[place].length);
    memcpy(contents->events, call->events.start, call->events.length);
    memcpy(contents->answers, call->answers.start, call->answers.length);
}

void restore_set(const struct set_call *call, const struct set_contents *contents)
{
    memcpy(call->images.start, contents->images, call->images.length);
    for (int place = 0; place < PLACES; place++)
        memcpy(call->memories[place].start, contents->memories[place], call->memories[place].length);
    memcpy(call->answers.start, contents->answers, call->answers.length);
}

int set_holds(const struct set_call *call, const struct set_contents *contents)
{
    for (int place = 0; place < PLACES; place++)
        if (memcmp(call->memories[place].start, contents->memories[place], call->memories[place].length) != 0)
            return 0;
    return memcmp(call->plan.start, contents->plan, call->plan.length) == 0 &&
           memcmp(call->images.start, contents->images, call->images.length) == 0 &&
           memcmp(call->events.start, contents->events, call->events.length) == 0 &&
           memcmp(call->answers.start, contents->answers, call->answers.length) == 0;
}

void hold_set_guards(const struct set_call *call)
{
    hold(guard_is_whole(call->plan), "the bytes beside the plan are untouched");
    hold(guard_is_whole(call->images), "the bytes beside the images are untouched");
    for (int place = 0; place < PLACES; place++)
        hold(guard_is_whole(call->memories[place]), "the bytes beside a memory are untouched");
    hold(guard_is_whole(call->events), "the bytes beside the events are untouched");
    hold(guard_is_whole(call->answers), "the bytes beside the answers are untouched");
}
