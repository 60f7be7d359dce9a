/* SPDX-License-Identifier: Apache-2.0 */
/* A libFuzzer target over the proved judge of captures at its C boundary. The input is a recipe: four sections in a
 * chosen order with gaps, events from the input, the answers of the plain program; then numbers of the table, bytes and
 * the length are changed. Or it is the file itself. What is held: the verdict is the one of fuzz/verdicts.c, and the
 * file is not written. It lies at a page that may not be touched, so nothing beside it is read either. */
#include <string.h>

#include "../bench/plain.h"
#include "../include/fm3130.h"
#include "choice.h"
#include "fenced.h"
#include "hold.h"
#include "rules.h"
#include "verdicts.h"

enum { ROOM = MOST_FILE + 4, MOST_EVENTS = 600 };

/* A file that grows. */
struct growing {
    uint8_t bytes[ROOM];
    uint32_t length;
};

static struct fence fence;
static struct growing made;
static uint8_t before[ROOM];

int LLVMFuzzerInitialize(int *count, char ***words);
int LLVMFuzzerTestOneInput(const uint8_t *data, size_t size);

int LLVMFuzzerInitialize(int *count, char ***words)
{
    (void)count;
    (void)words;
    fence = fence_around(ROOM);
    return 0;
}

static void put_number(uint32_t place, uint32_t number)
{
    for (unsigned i = 0; i < 4; i++)
        made.bytes[place + i] = (uint8_t)(number >> 8 * i);
}

static uint32_t number_in(uint32_t place)
{
    const uint8_t *bytes = made.bytes + place;
    return bytes[0] | (uint32_t)bytes[1] << 8 | (uint32_t)bytes[2] << 16 | (uint32_t)bytes[3] << 24;
}

/* One section: its entry, a gap, its body. */
static void add_section(unsigned entry, unsigned kind, const uint8_t *body, uint32_t size, unsigned gap)
{
    memset(made.bytes + made.length, 0xAA, gap);
    made.length += gap;
    put_number(ENTRY_BYTES * entry, kind);
    put_number(ENTRY_BYTES * entry + 4, made.length);
    put_number(ENTRY_BYTES * entry + 8, size);
    memcpy(made.bytes + made.length, body, size);
    made.length += size;
}

/* A sound file: a fresh device, events from the input, right answers. */
static void build(struct choices *choices)
{
    static uint8_t image[IMAGE_BYTES], memory[MEMORY_BYTES], events[MOST_EVENTS], answers[MOST_EVENTS];
    static uint8_t end_image[IMAGE_BYTES], end_memory[MEMORY_BYTES];
    const uint8_t *bodies[4] = {image, memory, events, answers};
    uint8_t order = choose_byte(choices), gaps = choose_byte(choices);
    uint32_t count = choose_pair(choices) % (MOST_EVENTS + 1);
    hold(fm3130_fresh(image, sizeof image) == ACCEPTED, "the fresh image is written");
    memset(memory, choose_byte(choices), sizeof memory);
    for (uint32_t i = 0; i < count; i++)
        events[i] = choose_byte(choices) & 7;
    memcpy(end_image, image, sizeof image);
    memcpy(end_memory, memory, sizeof memory);
    plain_run(end_image, end_memory, events, count, answers);
    const uint32_t sizes[4] = {IMAGE_BYTES, MEMORY_BYTES, count, count};
    unsigned left[4] = {0, 1, 2, 3};
    made.length = TABLE_BYTES;
    for (unsigned entry = 0; entry < 4; entry++) {
        unsigned chosen = order % (4 - entry), kind = left[chosen];
        order /= 4 - entry;
        left[chosen] = left[3 - entry];
        add_section(entry, kind + 1, bodies[kind], sizes[kind], gaps >> 2 * entry & 3);
    }
}

/* A number beside one that stands in the table, or beside a limit. */
static uint32_t choose_beside(struct choices *choices)
{
    uint8_t choice = choose_byte(choices);
    uint32_t step = (uint32_t)(choice >> 6) - 1;
    switch (choice & 15) {
    case 0: return step;
    case 1: return TABLE_BYTES + step;
    case 2: return made.length + step;
    case 3: return 5 + step;
    default: break;
    }
    unsigned entry = choose_byte(choices) & 3;
    uint32_t from = number_in(ENTRY_BYTES * entry + 4), size = number_in(ENTRY_BYTES * entry + 8);
    switch (choice & 3) {
    case 0: return from + step;
    case 1: return from + size + step;
    case 2: return size + step;
    default: return number_in(ENTRY_BYTES * entry) + step;
    }
}

/* Changes of the table, of any byte, of the length. */
static void disturb(struct choices *choices)
{
    uint8_t way = choose_byte(choices);
    for (unsigned i = 0; i < (way & 3); i++) {
        uint32_t number = choose_beside(choices);
        put_number(4 * (choose_byte(choices) % 12), number);
    }
    for (unsigned i = 0; i < (way >> 2 & 1); i++)
        made.bytes[choose_pair(choices) % made.length] ^= 1 << (choose_byte(choices) & 7);
    for (unsigned i = 0; i < (way >> 3 & 1); i++)
        made.bytes[made.length - 1 - choose_byte(choices) % 200] ^= 1;
    if (way >> 4 == 1)
        made.length = choose_byte(choices) % (TABLE_BYTES + 2);
    if (way >> 4 == 2)
        made.length -= choose_byte(choices) % 100;
    if (way >> 4 == 3) {
        uint32_t longer = MOST_FILE - 1 + choose_byte(choices) % 4;
        memset(made.bytes + made.length, 0, longer - made.length);
        made.length = longer;
    }
}

static void hold_verdict(int at_the_end)
{
    struct buffer file = fenced_buffer(fence, made.length, at_the_end);
    memcpy(file.start, made.bytes, made.length);
    memcpy(before, made.bytes, made.length);
    struct verdict must_be = verdict_on(made.bytes, made.length);
    struct fm3130_judgement is = fm3130_judge(file.start, file.length);
    hold(is.number == must_be.number, "the number is the one of docs/CAPTURE.md");
    hold(is.place == must_be.place, "the place is the one of docs/CAPTURE.md");
    hold(memcmp(file.start, before, made.length) == 0, "the file is not written");
    hold(guard_is_whole(file), "the bytes beside the file are untouched");
}

int LLVMFuzzerTestOneInput(const uint8_t *data, size_t size)
{
    struct choices choices = {.next = data, .left = size};
    uint8_t kind = choose_byte(&choices);
    if (kind >= 0xF0) {
        made.length = (uint32_t)(choices.left < ROOM ? choices.left : ROOM);
        memcpy(made.bytes, choices.next, made.length);
    } else {
        build(&choices);
        disturb(&choices);
    }
    hold_verdict(kind & 1);
    return 0;
}
