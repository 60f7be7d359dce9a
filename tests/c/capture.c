/* SPDX-License-Identifier: Apache-2.0 */
/*
 * fm3130_judge through the header. A capture is built here so that its verdict is known: K12's run
 * in every order of the four sections; each answer wrong; every kind of fault at every entry; all
 * pairs of faulty entries; every cut of the table; overlaps by one byte on each side; empty bodies;
 * the longest capture and one byte more.
 */
#include <string.h>

#include "check.h"
#include "fm3130.h"

enum { ENTRIES = 4, EVENTS = 11, GAP = 3, FILL = 0xA5, ROOM = FM3130_CAPTURE_MOST_BYTES + 1 };

/* An entry of the table, in the file's order of numbers. */
struct entry {
    uint32_t kind, offset, length;
};

static const uint8_t exact_events[EVENTS] = {0, 3, 2, 3, 2, 2, 2, 2, 2, 3, 1};
static const uint8_t exact_answers[EVENTS] = {5, 5, 4, 5, 4, 4, 4, 4, 4, 4, 5};

/* Every order of the four kinds. */
static uint32_t orders[24][ENTRIES];

static uint8_t file[ROOM], before[ROOM];
static struct entry table[ENTRIES];
static uint32_t length;
static unsigned long judged;

static void list_orders(void) {
    unsigned found = 0;
    for (uint32_t number = 0; number < 256; number++) {
        uint32_t kinds[ENTRIES], seen = 0;
        for (unsigned i = 0; i < ENTRIES; i++) {
            kinds[i] = number >> (2 * i) & 3;
            seen |= 1u << kinds[i];
            kinds[i]++;
        }
        if (seen == 15) {
            memcpy(orders[found++], kinds, sizeof kinds);
        }
    }
    check_equal("capture: orders", found, 24);
}

static void put_number(uint32_t place, uint32_t number) {
    for (unsigned i = 0; i < 4; i++) {
        file[place + i] = (uint8_t)(number >> (8 * i));
    }
}

/* Writes the table as it stands in `table`. */
static void put_table(void) {
    for (uint32_t i = 0; i < ENTRIES; i++) {
        put_number(i * FM3130_CAPTURE_ENTRY_BYTES, table[i].kind);
        put_number(i * FM3130_CAPTURE_ENTRY_BYTES + 4, table[i].offset);
        put_number(i * FM3130_CAPTURE_ENTRY_BYTES + 8, table[i].length);
    }
}

static uint32_t length_of(uint32_t kind, uint32_t events) {
    switch (kind) {
    case FM3130_CAPTURE_IMAGE:
        return FM3130_IMAGE_BYTES;
    case FM3130_CAPTURE_MEMORY:
        return FM3130_MEMORY_BYTES;
    default:
        return events;
    }
}

static void put_body(const struct entry *entry) {
    uint8_t *body = file + entry->offset;
    switch (entry->kind) {
    case FM3130_CAPTURE_IMAGE:
        check_equal("fm3130_fresh", fm3130_fresh(body, FM3130_IMAGE_BYTES), FM3130_OK);
        break;
    case FM3130_CAPTURE_MEMORY:
        memset(body, 0x3C, FM3130_MEMORY_BYTES);
        break;
    case FM3130_CAPTURE_EVENTS:
        memcpy(body, exact_events, entry->length);
        break;
    default:
        memcpy(body, exact_answers, entry->length);
        break;
    }
}

/* A capture of the first so many events of K12, its bodies in the order of the table. */
static void build(const uint32_t order[ENTRIES], uint32_t events, uint32_t gap) {
    memset(file, FILL, sizeof file);
    length = FM3130_CAPTURE_TABLE_BYTES + gap;
    for (unsigned i = 0; i < ENTRIES; i++) {
        table[i] = (struct entry){order[i], length, length_of(order[i], events)};
        put_body(&table[i]);
        length += table[i].length + gap;
    }
    put_table();
}

static void check_judged(const char *what, uint64_t number, uint64_t place) {
    memcpy(before, file, sizeof file);
    struct fm3130_judgement is = fm3130_judge(file, length);
    judged++;
    if (is.number != number || is.place != place) {
        differ("capture, %s: number %llu, place %llu, must be %llu, %llu", what,
               (unsigned long long)is.number, (unsigned long long)is.place,
               (unsigned long long)number, (unsigned long long)place);
    }
    if (memcmp(before, file, sizeof file) != 0) {
        differ("capture, %s: the file was written to", what);
    }
}

static void check_faulty(const char *what, unsigned entry) {
    put_table();
    check_judged(what, FM3130_CAPTURE_FAULTY, entry + 1);
}

/* The place of a kind in the table. */
static unsigned entry_of(uint32_t kind) {
    unsigned entry = 0;
    while (table[entry].kind != kind) {
        entry++;
    }
    return entry;
}

/* All agree; each answer wrong; two wrong ones, of which the first is named; fewer events. */
static void check_answers(const uint32_t order[ENTRIES], uint32_t gap) {
    for (uint32_t events = 0; events <= EVENTS; events++) {
        build(order, events, gap);
        check_judged("agrees", FM3130_CAPTURE_AGREES, events);
    }
    uint8_t *answers = file + table[entry_of(FM3130_CAPTURE_ANSWERS)].offset;
    for (unsigned place = EVENTS; place-- > 0;) {
        answers[place] ^= 1u << place % 8;
        check_judged("differs", FM3130_CAPTURE_DIFFERS, place);
    }
}

/* Faults of one entry by itself. */
static void check_single_faults(const uint32_t order[ENTRIES], unsigned entry) {
    static const uint32_t kinds[] = {0, 5, 256, 0x01000000, 0xFFFFFFFF};
    for (unsigned i = 0; i < sizeof kinds / sizeof kinds[0]; i++) {
        build(order, EVENTS, GAP);
        table[entry].kind = kinds[i];
        check_faulty("unknown kind", entry);
    }
    build(order, EVENTS, GAP);
    table[entry].offset = length - table[entry].length + 1;
    check_faulty("one byte past the end", entry);
    table[entry].offset = 0xFFFFFFFF;
    check_faulty("a sum above 32 bits", entry);
    table[entry].offset = FM3130_CAPTURE_TABLE_BYTES - 1;
    check_faulty("the table's last byte", entry);
    table[entry].offset = 0;
    check_faulty("the table", entry);
}

/* An entry with each earlier one: the kind again, and one byte of overlap on each side. */
static void check_clashes(const uint32_t order[ENTRIES], unsigned entry) {
    for (unsigned earlier = 0; earlier < entry; earlier++) {
        build(order, EVENTS, GAP);
        table[entry].kind = table[earlier].kind;
        check_faulty("repeated kind", entry);
        build(order, EVENTS, GAP);
        table[entry].offset = table[earlier].offset + table[earlier].length - 1;
        check_faulty("overlap at the end", entry);
        table[entry].offset = table[earlier].offset + 1 - table[entry].length;
        if (table[entry].offset < length) {
            check_faulty("overlap at the begin", entry);
        }
    }
}

/* What 01 refuses, and counts that are not equal. */
static void check_parts(const uint32_t order[ENTRIES]) {
    build(order, EVENTS, GAP);
    unsigned image = entry_of(FM3130_CAPTURE_IMAGE), memory = entry_of(FM3130_CAPTURE_MEMORY);
    unsigned events = entry_of(FM3130_CAPTURE_EVENTS), answers = entry_of(FM3130_CAPTURE_ANSWERS);
    unsigned later = events > answers ? events : answers;
    file[table[image].offset + 63] ^= 1;
    check_faulty("no image", image);
    build(order, EVENTS, GAP);
    table[image].length--;
    check_faulty("an image of 63 bytes", image);
    build(order, EVENTS, GAP);
    table[memory].length--;
    check_faulty("8,191 bytes of memory", memory);
    build(order, EVENTS, GAP);
    file[table[events].offset + EVENTS - 1] = 8;
    check_faulty("event 8", events);
    build(order, EVENTS, GAP);
    table[events].length--;
    check_faulty("fewer events", later);
    build(order, EVENTS, GAP);
    table[answers].length--;
    check_faulty("fewer answers", later);
}

/* Of two faulty entries the first is named, before a wrong answer is looked for. */
static void check_pairs(const uint32_t order[ENTRIES]) {
    for (unsigned first = 0; first < ENTRIES; first++) {
        for (unsigned second = first + 1; second < ENTRIES; second++) {
            build(order, EVENTS, GAP);
            file[table[entry_of(FM3130_CAPTURE_ANSWERS)].offset] ^= 1;
            table[first].offset = 0xFFFFFFFF;
            table[second].kind = 9;
            check_faulty("two faults", first);
        }
    }
}

/* Empty lists may lie anywhere up to the very end, but not one byte past it. */
static void check_empty_bodies(const uint32_t order[ENTRIES]) {
    build(order, 0, GAP);
    unsigned events = entry_of(FM3130_CAPTURE_EVENTS), answers = entry_of(FM3130_CAPTURE_ANSWERS);
    uint32_t inside = table[entry_of(FM3130_CAPTURE_MEMORY)].offset + 1;
    const uint32_t places[] = {0, 1, FM3130_CAPTURE_TABLE_BYTES - 1, inside, length};
    for (unsigned i = 0; i < sizeof places / sizeof places[0]; i++) {
        table[events].offset = table[answers].offset = places[i];
        put_table();
        check_judged("empty lists", FM3130_CAPTURE_AGREES, 0);
    }
    table[answers].offset = length + 1;
    check_faulty("an empty body past the end", answers);
}

/* Every cut of a file whose table begins with two empty lists, and of one that does not. */
static void check_cuts(void) {
    static const uint32_t lists_first[] = {3, 4, 1, 2}, image_first[] = {1, 2, 3, 4};
    build(lists_first, 0, 0);
    table[0].offset = table[1].offset = 0;
    put_table();
    for (length = 0; length < FM3130_CAPTURE_TABLE_BYTES; length++) {
        uint32_t whole = length / FM3130_CAPTURE_ENTRY_BYTES;
        check_judged("cut", FM3130_CAPTURE_FAULTY, whole < 2 ? whole + 1 : 3);
    }
    build(image_first, EVENTS, 0);
    uint32_t all = length;
    for (length = 0; length < FM3130_CAPTURE_TABLE_BYTES + FM3130_IMAGE_BYTES; length++) {
        check_judged("cut, image first", FM3130_CAPTURE_FAULTY, 1);
    }
    length = all - 1;
    check_judged("cut by one", FM3130_CAPTURE_FAULTY, 4);
}

static void check_longest(void) {
    build(orders[0], EVENTS, GAP);
    length = FM3130_CAPTURE_MOST_BYTES;
    check_judged("the longest", FM3130_CAPTURE_AGREES, EVENTS);
    length++;
    check_judged("too long", FM3130_CAPTURE_TOO_LONG, 0);
    table[0].kind = 0;
    put_table();
    check_judged("too long and faulty", FM3130_CAPTURE_TOO_LONG, 0);
}

unsigned long check_captures(void) {
    check_equal("bytes of struct fm3130_judgement", sizeof(struct fm3130_judgement), 16);
    list_orders();
    for (unsigned i = 0; i < 24; i++) {
        check_answers(orders[i], 0);
        check_answers(orders[i], GAP);
        for (unsigned entry = 0; entry < ENTRIES; entry++) {
            check_single_faults(orders[i], entry);
            check_clashes(orders[i], entry);
        }
        check_parts(orders[i]);
        check_pairs(orders[i]);
        check_empty_bodies(orders[i]);
    }
    check_cuts();
    check_longest();
    return judged;
}
