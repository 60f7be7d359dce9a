/* SPDX-License-Identifier: Apache-2.0 */
#include "verdicts.h"

#include <string.h>

#include "../bench/plain.h"
#include "rules.h"

struct entry {
    uint64_t kind, from, size;
};

static uint64_t number_at(const uint8_t *bytes)
{
    return bytes[0] | (uint64_t)bytes[1] << 8 | (uint64_t)bytes[2] << 16 | (uint64_t)bytes[3] << 24;
}

static struct entry entry_at(const uint8_t *file, unsigned n)
{
    const uint8_t *bytes = file + ENTRY_BYTES * n;
    return (struct entry){number_at(bytes), number_at(bytes + 4), number_at(bytes + 8)};
}

/* Whether some byte lies in both stretches. */
static int share_a_byte(uint64_t from, uint64_t size, uint64_t other_from, uint64_t other_size)
{
    uint64_t begin = from > other_from ? from : other_from;
    uint64_t end = from + size < other_from + other_size ? from + size : other_from + other_size;
    return begin < end;
}

static int all_are_events(const uint8_t *bytes, uint64_t count)
{
    for (uint64_t i = 0; i < count; i++)
        if (bytes[i] > 7)
            return 0;
    return 1;
}

static int part_is_refused(const uint8_t *file, struct entry entry)
{
    switch (entry.kind) {
    case KIND_IMAGE: return !image_is_accepted(&fm3130_limits, file + entry.from, entry.size);
    case KIND_MEMORY: return entry.size != MEMORY_BYTES;
    case KIND_EVENTS: return !all_are_events(file + entry.from, entry.size);
    default: return 0;
    }
}

static int is_list(struct entry entry) { return entry.kind == KIND_EVENTS || entry.kind == KIND_ANSWERS; }

static int entry_is_faulty(const uint8_t *file, uint64_t length, unsigned n)
{
    if (length < (uint64_t)ENTRY_BYTES * (n + 1))
        return 1;
    struct entry entry = entry_at(file, n);
    if (entry.kind < KIND_IMAGE || entry.kind > KIND_ANSWERS || entry.from + entry.size > length)
        return 1;
    if (share_a_byte(0, TABLE_BYTES, entry.from, entry.size) || part_is_refused(file, entry))
        return 1;
    for (unsigned i = 0; i < n; i++) {
        struct entry earlier = entry_at(file, i);
        if (earlier.kind == entry.kind || share_a_byte(earlier.from, earlier.size, entry.from, entry.size))
            return 1;
        if (is_list(earlier) && is_list(entry) && earlier.size != entry.size)
            return 1;
    }
    return 0;
}

static struct entry entry_of(const uint8_t *file, unsigned kind)
{
    unsigned n = 0;
    while (entry_at(file, n).kind != kind)
        n++;
    return entry_at(file, n);
}

struct verdict verdict_on(const uint8_t *file, uint64_t length)
{
    static uint8_t image[IMAGE_BYTES], memory[MEMORY_BYTES], right[MOST_FILE];
    if (length > MOST_FILE)
        return (struct verdict){TOO_LONG, 0};
    for (unsigned n = 0; n < 4; n++)
        if (entry_is_faulty(file, length, n))
            return (struct verdict){FAULTY, n + 1};
    struct entry events = entry_of(file, KIND_EVENTS), answers = entry_of(file, KIND_ANSWERS);
    memcpy(image, file + entry_of(file, KIND_IMAGE).from, sizeof image);
    memcpy(memory, file + entry_of(file, KIND_MEMORY).from, sizeof memory);
    plain_run(image, memory, file + events.from, events.size, right);
    for (uint64_t i = 0; i < events.size; i++)
        if (file[answers.from + i] != right[i])
            return (struct verdict){DIFFERS, i};
    return (struct verdict){AGREES, events.size};
}
