/* SPDX-License-Identifier: Apache-2.0 */
/*
 * The larger family through include/fm31.h, in both sizes: the fresh image, what registers keep,
 * the counters and their pair, frozen reads, the locked serial number, addresses and their ends,
 * protection, power, every refusal with untouched buffers and in order, the viewers, one event by
 * itself. What must come out is what docs/FAMILY.md says, written out here.
 */
#include "fm31.h"

#include <string.h>

#include "check.h"

enum { FILL = 0xA5, LIST_ROOM = 4096, MEMORY = 0xA0, COMPANION = 0xD0, READ = 1, SLACK = 16 };

/* The entries of a size. */
struct part {
    const char *name;
    uint64_t size;
    uint64_t (*run)(uint8_t *, uint64_t, uint8_t *, uint64_t, const uint8_t *, uint64_t, uint8_t *,
                    uint64_t);
    uint64_t (*step)(uint8_t *, uint64_t, uint8_t *, uint64_t, uint64_t, uint8_t *, uint64_t);
    uint64_t (*view_number)(const uint8_t *, uint64_t, const uint8_t *, uint64_t, uint64_t,
                            uint64_t, uint64_t);
    const uint8_t *(*view)(const uint8_t *, const uint8_t *, uint64_t, uint64_t, uint64_t,
                           uint64_t *);
};

static const struct part parts[] = {
    {"FM3164", FM3164_MEMORY_BYTES, fm3164_run, fm3164_step, fm3164_view_number, fm3164_view},
    {"FM31256", FM31256_MEMORY_BYTES, fm31256_run, fm31256_step, fm31256_view_number, fm31256_view},
};

/* All buffers, with room past each length: a byte written where none may be is seen. */
struct buffers {
    uint8_t image[FM31_IMAGE_BYTES + SLACK];
    uint8_t memory[FM31256_MEMORY_BYTES + SLACK];
    uint8_t answers[LIST_ROOM + SLACK];
};

/* clang-format off */
static const uint8_t fresh_image[FM31_IMAGE_BYTES] = { /* the rows of docs/FAMILY.md */
    0x60, 0, 0, 0, 0, 0, 0, 0, 0, 0, 0, 0, 0, 0, 0, 0,
    0, 0, 0, 0, 0, 0, 0x09, 0, 0, 0, 0, 0, 0, 0, 0, 0,
    0, 0, 0, 0, 0, 0, 0, 0, 0, 0, 0, 0, 0, 0, 0, 0,
    0, 0, 0, 0, 0, 0, 0, 0, 0, 0, 0, 0, 0, 0x31, 0xCC, 0x01};
/* clang-format on */

static struct buffers now, before;
static uint8_t events[LIST_ROOM];
static uint64_t count;
static const struct part *part;
static unsigned long cases;

/* Two numbers of a case of this part that must be equal. */
static void must(const char *what, uint64_t is, uint64_t must_be) {
    cases++;
    if (is != must_be) {
        differ("%s: %s is %llXh, must be %llXh", part->name, what, (unsigned long long)is,
               (unsigned long long)must_be);
    }
}

static void check_untouched(const char *what) {
    must(what, (uint64_t)(memcmp(&now, &before, sizeof now) != 0), 0);
}

/* A fresh device whose memory is 00h, 07h, 0Eh and so on. */
static void begin(void) {
    memset(&now, FILL, sizeof now);
    for (unsigned i = 0; i < part->size; i++) {
        now.memory[i] = (uint8_t)(i * 7);
    }
    must("fresh: number", fm31_fresh(now.image, FM31_IMAGE_BYTES), FM31_OK);
    count = 0;
}

static void add(uint8_t event) {
    if (count == LIST_ROOM) {
        differ("a list of more than %d events", LIST_ROOM);
    }
    events[count++] = event;
}

static void add_many(uint8_t event, unsigned times) {
    for (unsigned i = 0; i < times; i++) {
        add(event);
    }
}

/* So many clocks of a byte, high bit first. */
static void add_clocks(unsigned byte, unsigned clocks) {
    for (unsigned i = 0; i < clocks; i++) {
        add(byte << i & 0x80 ? FM31_CLOCK_HIGH : FM31_CLOCK_LOW);
    }
}

/* A byte that the master writes; at its ninth clock the line is released. */
static void add_byte(unsigned byte) {
    add_clocks(byte, 8);
    add(FM31_CLOCK_HIGH);
}

/* Does the listed events, which must be accepted, and empties the list. */
static void play(void) {
    must("play: number",
         part->run(now.image, FM31_IMAGE_BYTES, now.memory, part->size, events, count, now.answers,
                   LIST_ROOM),
         FM31_OK);
    for (uint64_t i = 0; i < count; i++) {
        must("play: bits 1 to 7 of an answer", now.answers[i] & 0xFEu, 0);
    }
    count = 0;
}

static void play_event(uint8_t event) {
    add(event);
    play();
}

/* The byte on the line in the eight clocks from a place in the answers on. */
static unsigned byte_at(uint64_t place) {
    unsigned byte = 0;
    for (unsigned i = 0; i < 8; i++) {
        byte = byte * 2 + (now.answers[place + i] & FM31_ANSWER_LINE);
    }
    return byte;
}

/* Writes bytes from a register on; returns how many bytes were acknowledged, address bytes too. */
static unsigned write_bytes(const uint8_t *bytes, unsigned length) {
    unsigned acknowledged = 0;
    add(FM31_START);
    for (unsigned i = 0; i < length; i++) {
        add_byte(bytes[i]);
    }
    add(FM31_STOP);
    play();
    for (unsigned i = 0; i < length; i++) {
        acknowledged += !(now.answers[9 + 9 * i] & FM31_ANSWER_LINE);
    }
    return acknowledged;
}

/* Writes one register, which must be acknowledged. */
static void write_register(uint8_t address, uint8_t byte) {
    const uint8_t bytes[] = {COMPANION, address, byte};
    must("write_register: acknowledges", write_bytes(bytes, 3), 3);
}

/* Reads bytes of a slave from the current address on; the last is not acknowledged. */
static void read_bytes(uint8_t slave, uint8_t *bytes, unsigned length) {
    add(FM31_START);
    add_byte(slave | READ);
    for (unsigned i = 1; i <= length; i++) {
        add_clocks(0xFF, 8);
        add(i < length ? FM31_CLOCK_LOW : FM31_CLOCK_HIGH);
    }
    add(FM31_STOP);
    play();
    for (unsigned i = 0; i < length; i++) {
        bytes[i] = (uint8_t)byte_at(10 + 9 * i);
    }
}

/* Reads registers from an address on. */
static void read_registers(uint8_t address, uint8_t *bytes, unsigned length) {
    const uint8_t pointer[] = {COMPANION, address};
    must("read_registers: acknowledges", write_bytes(pointer, 2), 2);
    read_bytes(COMPANION, bytes, length);
}

static unsigned read_register(uint8_t address) {
    uint8_t byte;
    read_registers(address, &byte, 1);
    return byte;
}

/* The register as the image holds it. */
static unsigned held(unsigned address) {
    return now.image[FM31_PLACE(address)];
}

/* The four counter bytes as one number, the first byte lowest. */
static uint64_t held_counts(void) {
    const uint8_t *low = now.image + FM31_PLACE(FM31_COUNTER_1_LOW);
    return low[0] | (uint64_t)low[1] << 8 | (uint64_t)low[2] << 16 | (uint64_t)low[3] << 24;
}

/* The same as the bus shows it. */
static uint64_t read_counts(void) {
    uint8_t low[4];
    read_registers(FM31_COUNTER_1_LOW, low, 4);
    return low[0] | (uint64_t)low[1] << 8 | (uint64_t)low[2] << 16 | (uint64_t)low[3] << 24;
}

static void write_counts(uint64_t counts) {
    const uint8_t bytes[] = {
        COMPANION,
        FM31_COUNTER_1_LOW,
        (uint8_t)counts,
        (uint8_t)(counts >> 8),
        (uint8_t)(counts >> 16),
        (uint8_t)(counts >> 24),
    };
    must("write_counts: acknowledges", write_bytes(bytes, 6), 6);
}

static void check_fresh(void) {
    static const uint64_t lengths[] = {0, 1, 16, 63, 65, 80};
    begin();
    must("fresh: 09h has POR and LB", held(FM31_FLAGS), FM31_POR | FM31_LB);
    for (unsigned i = 0; i < FM31_IMAGE_BYTES; i++) {
        must("fresh: a byte of the image", now.image[i], fresh_image[i]);
    }
    must("fresh: the byte past the image", now.image[FM31_IMAGE_BYTES], FILL);
    before = now;
    for (unsigned i = 0; i < sizeof lengths / sizeof lengths[0]; i++) {
        must("fresh: refused", fm31_fresh(now.image, lengths[i]), FM31_WRONG_STATE);
        check_untouched("fresh, refused");
    }
}

/* What each register leaves of bytes written one after the other. */
static void check_registers(void) {
    static const struct {
        uint8_t address, written, left;
    } rows[] = {
        {0x09, 0xFF, 0x6F}, {0x09, 0x4A, 0x4A}, {0x09, 0xFF, 0x4F}, {0x09, 0x00, 0x00},
        {0x09, 0xFF, 0x0F}, {0x0A, 0xFF, 0x9F}, {0x0A, 0x60, 0x00}, {0x0B, 0x7F, 0x1F},
        {0x0B, 0x05, 0x05}, {0x0C, 0xF7, 0x07}, {0x0C, 0x00, 0x00}, {0x0D, 0xA1, 0xA1},
        {0x0E, 0xA2, 0xA2}, {0x0F, 0xA3, 0xA3}, {0x10, 0xA4, 0xA4}, {0x11, 0xB1, 0xB1},
        {0x18, 0xB8, 0xB8}, {0x11, 0x00, 0x00},
    };
    begin();
    for (unsigned i = 0; i < sizeof rows / sizeof rows[0]; i++) {
        write_register(rows[i].address, rows[i].written);
        must("registers: held", held(rows[i].address), rows[i].left);
        must("registers: read", read_register(rows[i].address), rows[i].left);
    }
}

/* 16 bits each, the low byte first; one rolls and leaves the other. */
static void check_counters(void) {
    begin();
    add_many(FM31_EDGE_1, 300);
    add_many(FM31_EDGE_2, 2);
    play();
    must("counters: 300 and 2", held_counts(), 0x0002012Cu);
    must("counters: 300 and 2, read", read_counts(), 0x0002012Cu);
    write_counts(0x1234FFFFu);
    play_event(FM31_EDGE_1);
    must("counters: 1 rolls", read_counts(), 0x12340000u);
    write_counts(0xFFFF1234u);
    play_event(FM31_EDGE_2);
    must("counters: 2 rolls", read_counts(), 0x00001234u);
    write_counts(0x00FF00FFu);
    add(FM31_EDGE_1);
    add(FM31_EDGE_2);
    play();
    must("counters: into the high bytes", read_counts(), 0x01000100u);
    for (unsigned polarity = 0; polarity < 4; polarity++) {
        write_register(FM31_COUNTING, (uint8_t)polarity);
        write_counts(0);
        add(FM31_EDGE_1);
        add(FM31_EDGE_2);
        play();
        must("counters: edges come filtered", read_counts(), 0x00010001u);
    }
}

/* CC: one counter of 32 bits on CNT1; CNT2 is not used. */
static void check_pair(void) {
    begin();
    write_counts(0x0000FFFFu);
    write_register(FM31_COUNTING, FM31_CC);
    must("pair: CC leaves the counts", read_counts(), 0x0000FFFFu);
    play_event(FM31_EDGE_2);
    must("pair: CNT2 is not used", read_counts(), 0x0000FFFFu);
    play_event(FM31_EDGE_1);
    must("pair: carries into counter 2", read_counts(), 0x00010000u);
    write_counts(0xFFFFFFFFu);
    play_event(FM31_EDGE_2);
    must("pair: CNT2 at the top", read_counts(), 0xFFFFFFFFu);
    play_event(FM31_EDGE_1);
    must("pair: from its top to zero", read_counts(), 0);
    write_counts(0x12FFFFFFu);
    write_register(FM31_COUNTING, 0x00);
    play_event(FM31_EDGE_1);
    must("pair: apart again", read_counts(), 0x12FF0000u);
}

/* With main power or backup, at every clock of a write too; without supply not. */
static void check_edges(void) {
    static const uint8_t bytes[] = {COMPANION, FM31_COUNTER_1_LOW, 0x55};
    for (unsigned clocks = 0; clocks <= 7; clocks++) {
        begin();
        write_counts(0x000000FFu);
        add(FM31_START);
        add_byte(bytes[0]);
        add_byte(bytes[1]);
        add_clocks(bytes[2], clocks);
        add(FM31_EDGE_1);
        add_clocks(bytes[2] << clocks, 8 - clocks);
        play();
        must("edges: the carry stays, the byte is replaced", held_counts(), 0x00000155u);
        play_event(FM31_EDGE_1);
        must("edges: before the acknowledge", held_counts(), 0x00000156u);
    }
    begin();
    add(FM31_POWER_LOST_WITH_BACKUP);
    add(FM31_EDGE_1);
    add(FM31_EDGE_2);
    play();
    must("edges: on backup", held_counts(), 0x00010001u);
    add(FM31_POWER_LOST_WITHOUT_BACKUP);
    add(FM31_EDGE_1);
    add(FM31_EDGE_2);
    add(FM31_POWER_RETURNED);
    play();
    must("edges: without supply", held_counts(), 0);
}

/* A byte is fixed at its first clock, frozen or not. */
static void check_fixed_byte(void) {
    begin();
    write_counts(0x000000FFu);
    const uint8_t pointer[] = {COMPANION, FM31_COUNTER_1_LOW};
    write_bytes(pointer, 2);
    add(FM31_START);
    add_byte(COMPANION | READ);
    add(FM31_CLOCK_HIGH);
    add(FM31_EDGE_1);
    add_clocks(0xFF, 7);
    play();
    /* The edge's answer stands between the first bit and the others. */
    now.answers[11] = now.answers[10];
    must("fixed: the byte on the line", byte_at(11), 0xFF);
    must("fixed: the edge counted", held_counts(), 0x00000100u);
}

/* RC: reads of 0Dh to 10h show the snapshot until 10h was read to its eighth clock. */
static void check_frozen(void) {
    static const uint8_t last[] = {COMPANION, FM31_COUNTER_2_HIGH};
    uint8_t bytes[4];
    begin();
    write_counts(0x01020304u);
    write_register(FM31_COUNTING, FM31_RC);
    must("frozen: RC is 1", read_register(FM31_COUNTING), FM31_RC);
    add_many(FM31_EDGE_1, 2);
    add(FM31_EDGE_2);
    play();
    must("frozen: the counters run on", held_counts(), 0x01030306u);
    read_registers(FM31_COUNTER_1_LOW, bytes, 3);
    must("frozen: three bytes", bytes[0] | bytes[1] << 8 | bytes[2] << 16, 0x020304u);
    must("frozen: still", held(FM31_COUNTING), FM31_RC);
    write_bytes(last, 2);
    add(FM31_START);
    add_byte(COMPANION | READ);
    add_clocks(0xFF, 7);
    add(FM31_STOP);
    play();
    must("frozen: seven clocks of 10h are too few", held(FM31_COUNTING), FM31_RC);
    add(FM31_START);
    add_byte(COMPANION | READ);
    add_clocks(0xFF, 8);
    play();
    must("frozen: the byte of 10h", byte_at(10), 0x01);
    must("frozen: RC clears itself at the eighth clock", held(FM31_COUNTING), 0);
    must("frozen: live again", read_counts(), 0x01030306u);
}

/* What ends and renews a snapshot, and what a write to a counter does meanwhile. */
static void check_snapshots(void) {
    begin();
    write_counts(0x00000005u);
    write_register(FM31_COUNTING, FM31_RC);
    write_register(FM31_COUNTER_1_LOW, 0x77);
    must("snapshot: a write goes to the counter", held_counts(), 0x00000077u);
    must("snapshot: a read does not show it", read_register(FM31_COUNTER_1_LOW), 0x05);
    write_register(FM31_COUNTING, FM31_RC);
    must("snapshot: a second one", read_register(FM31_COUNTER_1_LOW), 0x77);
    play_event(FM31_EDGE_1);
    write_register(FM31_COUNTING, 0x00);
    must("snapshot: ended by a write", read_register(FM31_COUNTER_1_LOW), 0x78);
    write_register(FM31_COUNTING, FM31_RC);
    add(FM31_EDGE_1);
    add(FM31_POWER_LOST_WITH_BACKUP);
    add(FM31_POWER_RETURNED);
    play();
    must("snapshot: kept on backup", read_counts(), 0x00000078u);
    must("snapshot: the count beside it", read_counts(), 0x00000079u);
}

/* Once SNL is 1, 11h to 18h and SNL stay whatever happens. */
static void check_lock(void) {
    static const uint8_t serial[] = {COMPANION, FM31_SERIAL_FIRST, 1, 2, 3, 4, 5, 6, 7, 8};
    static const uint8_t locks[] = {COMPANION, FM31_CONTROL, 0x9F, 0, 0, 0, 0, 0, 0xEE, 0xEE};
    static const uint8_t forged[] = {COMPANION, FM31_SERIAL_FIRST, 9, 9, 9, 9, 9, 9, 9, 9};
    uint8_t read[8];
    begin();
    must("lock: the serial number", write_bytes(serial, sizeof serial), sizeof serial);
    must("lock: the companion's address rolled", held(0x09), 0x60);
    must("lock: its own transfer is too late", write_bytes(locks, sizeof locks), sizeof locks);
    must("lock: 0Bh", held(FM31_CONTROL), 0x9F);
    must("lock: acknowledged", write_bytes(forged, sizeof forged), sizeof forged);
    write_register(FM31_CONTROL, 0x08);
    must("lock: SNL stays, the others go", held(FM31_CONTROL), 0x88);
    add(FM31_POWER_LOST_WITH_BACKUP);
    add(FM31_POWER_LOST_WITHOUT_BACKUP);
    add(FM31_POWER_RETURNED);
    play();
    must("lock: 0Bh after the loss of both supplies", held(FM31_CONTROL), 0x88);
    read_registers(FM31_SERIAL_FIRST, read, 8);
    for (unsigned i = 0; i < 8; i++) {
        must("lock: the serial number stays", read[i], i + 1);
    }
    begin();
    must("lock: open", write_bytes(serial, sizeof serial), sizeof serial);
    must("lock: open, written again", write_bytes(forged, sizeof forged), sizeof forged);
    must("lock: open, stored", held(FM31_SERIAL_LAST), 9);
}

/* Loss of both supplies: 09h is POR and LB, 0Ch to 10h are 0, the rest stays. */
static void check_power(void) {
    uint8_t after[FM31_REGISTER_BYTES];
    begin();
    write_register(FM31_FLAGS, 0x0A);
    write_register(FM31_WATCHDOG, 0x95);
    write_register(FM31_CONTROL, 0x17);
    write_counts(0x44332211u);
    write_register(FM31_COUNTING, FM31_RC | FM31_CC);
    write_register(FM31_SERIAL_FIRST, 0x5A);
    add(FM31_POWER_LOST_WITH_BACKUP);
    play();
    must("power: backup leaves 09h", held(FM31_FLAGS), 0x0A);
    must("power: backup leaves 0Ch", held(FM31_COUNTING), FM31_RC | FM31_CC);
    play_event(FM31_POWER_RETURNED);
    must("power: POR after backup", held(FM31_FLAGS), 0x4A);
    /* 09h comes first: the companion's address is 09h after a loss. */
    read_bytes(COMPANION, after, 1);
    must("power: the companion's address is 09h", after[0], 0x4A);
    play_event(FM31_POWER_LOST_WITHOUT_BACKUP);
    must("power: loss, 09h", held(FM31_FLAGS), 0x60);
    must("power: loss, 0Ah", held(FM31_WATCHDOG), 0x95);
    must("power: loss, 0Bh", held(FM31_CONTROL), 0x17);
    must("power: loss, 0Ch", held(FM31_COUNTING), 0);
    must("power: loss, counters", held_counts(), 0);
    must("power: loss, 11h", held(FM31_SERIAL_FIRST), 0x5A);
    play_event(FM31_POWER_RETURNED);
    must("power: returned", held(FM31_FLAGS), 0x60);
    read_bytes(COMPANION, after, FM31_REGISTER_BYTES);
    must("power: read from 09h on", after[0], 0x60);
    must("power: read up to 11h", after[8], 0x5A);
    /* An image may hold any flags while power is off: event 7 sets POR after backup alone. */
    begin();
    now.image[FM31_PLACE(FM31_FLAGS)] = 0x00;
    now.image[25] = 2;
    play_event(FM31_POWER_RETURNED);
    must("power: returned after none", held(FM31_FLAGS), 0x00);
}

/* An address byte outside 09h to 18h is not acknowledged, and the old address stands. */
static void check_addresses(void) {
    uint8_t bytes[FM31_REGISTER_BYTES + 1];
    begin();
    for (unsigned address = 0; address <= 0xFF; address++) {
        const uint8_t pointer[] = {COMPANION, (uint8_t)address};
        int exists = address >= FM31_FLAGS && address <= FM31_SERIAL_LAST;
        must("addresses: acknowledges", write_bytes(pointer, 2), exists ? 2 : 1);
    }
    write_register(FM31_SERIAL_LAST, 0xC7);
    const uint8_t pointer[] = {COMPANION, FM31_SERIAL_LAST};
    const uint8_t outside[] = {COMPANION, 0x19};
    write_bytes(pointer, 2);
    write_bytes(outside, 2);
    read_bytes(COMPANION, bytes, 2);
    must("addresses: the old one stands", bytes[0], 0xC7);
    must("addresses: from 18h to 09h", bytes[1], 0x60);
    read_registers(FM31_FLAGS, bytes, FM31_REGISTER_BYTES + 1);
    must("addresses: the last", bytes[15], 0xC7);
    must("addresses: round", bytes[16], 0x60);
    for (unsigned slave = 0; slave <= 0xFF; slave++) {
        const uint8_t byte = (uint8_t)slave;
        int named = slave == 0xA0 || slave == 0xA1 || slave == 0xD0 || slave == 0xD1;
        must("addresses: slave bytes", write_bytes(&byte, 1), named);
    }
}

/* Writes one byte of memory; returns whether it was acknowledged. */
static int write_memory(unsigned address, uint8_t byte) {
    const uint8_t bytes[] = {MEMORY, (uint8_t)(address >> 8), (uint8_t)address, byte};
    return write_bytes(bytes, 4) == 4;
}

/* The bits above the size are ignored; the last address is followed by the first. */
static void check_memory(void) {
    const unsigned last = (unsigned)part->size - 1;
    const uint8_t over[] = {MEMORY, 0xFF, 0xFF, 0x11, 0x22};
    uint8_t bytes[3];
    begin();
    must("memory: two bytes", write_bytes(over, sizeof over), sizeof over);
    must("memory: the last address", now.memory[last], 0x11);
    must("memory: from the last to the first", now.memory[0], 0x22);
    must("memory: past the end", now.memory[part->size], FILL);
    must("memory: from outside", (uint64_t)write_memory(last, 0x33), 1);
    read_bytes(MEMORY, bytes, 3);
    must("memory: the address is 0000h", bytes[0], 0x22);
    must("memory: and goes on", bytes[2], 14);
    if (part->size == FM31256_MEMORY_BYTES) {
        must("memory: 2000h is another byte than 0000h", (uint64_t)write_memory(0x2000, 0x44), 1);
        must("memory: 2000h", now.memory[0x2000], 0x44);
        must("memory: 0000h", now.memory[0], 0x22);
    }
}

/* WP1 and WP0 protect the bottom quarter, half, or all; a refused byte steps the address on. */
static void check_protection(void) {
    const unsigned size = (unsigned)part->size;
    const unsigned limits[] = {0, size / 4, size / 2, size};
    for (unsigned bits = 0; bits < 4; bits++) {
        begin();
        write_register(FM31_CONTROL, (uint8_t)(bits << 3));
        const unsigned tried[] = {0, size / 4 - 1, size / 4, size / 2 - 1, size / 2, size - 1};
        for (unsigned i = 0; i < sizeof tried / sizeof tried[0]; i++) {
            unsigned address = tried[i];
            int may = address >= limits[bits];
            uint8_t old = now.memory[address], next;
            must("protection: acknowledged", (uint64_t)write_memory(address, 0xEE), (uint64_t)may);
            must("protection: stored", now.memory[address], may ? 0xEE : old);
            read_bytes(MEMORY, &next, 1);
            must("protection: the address steps", next, now.memory[(address + 1) % size]);
        }
    }
}

/* Ticks change nothing, wherever they fall. */
static void check_ticks(void) {
    static const uint8_t bytes[] = {COMPANION, FM31_COUNTER_1_LOW, 0x55};
    begin();
    add(FM31_START);
    add_byte(bytes[0]);
    add_clocks(bytes[1], 5);
    play();
    before = now;
    add_many(FM31_TICK, 100);
    play();
    for (unsigned i = 0; i < 100; i++) {
        must("ticks: the answer", now.answers[i], FM31_ANSWER_LINE);
    }
    must("ticks: image", (uint64_t)memcmp(now.image, before.image, sizeof now.image), 0);
    must("ticks: memory", (uint64_t)memcmp(now.memory, before.memory, sizeof now.memory), 0);
}

/* A list of every kind of event, whole, in pieces, and one event by itself. */
static void check_pieces(void) {
    static struct buffers whole;
    static uint8_t list[LIST_ROOM];
    begin();
    for (unsigned i = 0; i < 400; i++) {
        add((uint8_t)(i % 50 == 0 ? FM31_START : i * 37 % 11 < 4 ? 8 + i % 2 : 2 + i * 5 % 3));
    }
    uint64_t length = count;
    memcpy(list, events, count);
    play();
    whole = now;
    for (uint64_t piece = 1; piece < 30; piece++) {
        begin();
        memset(now.answers, FILL, sizeof now.answers);
        for (uint64_t at = 0; at < length; at += piece) {
            uint64_t left = length - at;
            must("pieces: number",
                 part->run(now.image, FM31_IMAGE_BYTES, now.memory, part->size, list + at,
                           left < piece ? left : piece, now.answers + at,
                           left < piece ? left : piece),
                 FM31_OK);
        }
        must("pieces: all buffers", (uint64_t)memcmp(&now, &whole, sizeof now), 0);
    }
    begin();
    for (uint64_t at = 0; at < length; at++) {
        must("steps: number",
             part->step(now.image, FM31_IMAGE_BYTES, now.memory, part->size, list[at],
                        now.answers + at, FM31_TOLD_BYTES),
             FM31_OK);
    }
    must("steps: all buffers", (uint64_t)memcmp(&now, &whole, sizeof now), 0);
}

/* The list run refuses, and every buffer stays. */
static void check_refused(const char *what, uint64_t number, uint64_t image_length,
                          uint64_t memory_length, uint64_t answers_length) {
    before = now;
    must(what,
         part->run(now.image, image_length, now.memory, memory_length, events, count, now.answers,
                   answers_length),
         number);
    check_untouched(what);
}

/* The same of one event. */
static void check_step_refused(const char *what, uint64_t number, uint64_t image_length,
                               uint64_t memory_length, uint64_t event, uint64_t told_length) {
    before = now;
    must(what,
         part->step(now.image, image_length, now.memory, memory_length, event, now.answers,
                    told_length),
         number);
    check_untouched(what);
}

static void check_lengths(void) {
    const uint64_t other =
        part->size == FM3164_MEMORY_BYTES ? FM31256_MEMORY_BYTES : FM3164_MEMORY_BYTES;
    const uint64_t memories[] = {0, 1, other, part->size - 1, part->size + 1};
    static const uint64_t images[] = {0, 1, 16, 63, 65, 80};
    begin();
    add(FM31_EDGE_1);
    for (unsigned i = 0; i < sizeof memories / sizeof memories[0]; i++) {
        check_refused("1: memory", FM31_WRONG_MEMORY, FM31_IMAGE_BYTES, memories[i], 1);
        check_step_refused("1: memory, one event", FM31_WRONG_MEMORY, FM31_IMAGE_BYTES, memories[i],
                           FM31_EDGE_1, 1);
    }
    for (unsigned i = 0; i < sizeof images / sizeof images[0]; i++) {
        check_refused("2: image", FM31_WRONG_STATE, images[i], part->size, 1);
        check_step_refused("2: image, one event", FM31_WRONG_STATE, images[i], part->size,
                           FM31_EDGE_1, 1);
    }
}

/* Number 2 by content: a byte that no well-formed state writes, at its place in the image. */
static void check_images(void) {
    const uint8_t high = (uint8_t)(part->size >> 8);
    const uint8_t wrong[][2] = {
        {0, 0x10}, {1, 0x20}, {1, 0x40}, {2, 0x20},  {2, 0x40},  {3, 0x10},  {3, 0x80},  {20, 1},
        {21, 1},   {22, 8},   {22, 25},  {22, 0},    {23, high}, {25, 3},    {26, 9},    {27, 1},
        {28, 1},   {29, 1},   {30, 1},   {60, 0xFF}, {61, 0x30}, {62, 0x30}, {63, 0x02},
    };
    count = 0;
    for (unsigned i = 0; i < sizeof wrong / sizeof wrong[0]; i++) {
        begin();
        now.image[wrong[i][0]] = wrong[i][1];
        check_refused("2: a byte that cannot stand", FM31_WRONG_STATE, FM31_IMAGE_BYTES, part->size,
                      0);
        check_step_refused("2: the same, one event", FM31_WRONG_STATE, FM31_IMAGE_BYTES, part->size,
                           FM31_TICK, 1);
    }
    begin();
    memset(now.image, 0, FM31_IMAGE_BYTES);
    check_refused("2: zeros", FM31_WRONG_STATE, FM31_IMAGE_BYTES, part->size, 0);
    /* Any bytes are a snapshot, and the highest address is below the size. */
    begin();
    memset(now.image + 16, 0xFF, 4);
    now.image[23] = (uint8_t)(high - 1);
    now.image[24] = 0xFF;
    now.image[22] = FM31_SERIAL_LAST;
    play();
}

static void check_order(void) {
    begin();
    add(FM31_EDGE_2);
    add(10);
    check_refused("order: 1 before all", 1, 63, part->size + 1, 0);
    check_refused("order: 2 before 3", 2, 63, part->size, 0);
    check_refused("order: 3 before 4", 3, 64, part->size, 0);
    events[1] = 0xFF;
    check_refused("order: 3 at the top", 3, 64, part->size, 2);
    events[1] = FM31_EDGE_1;
    check_refused("order: 4", 4, 64, part->size, 1);
    check_step_refused("order: one event, 1", 1, 63, part->size + 1, 10, 0);
    check_step_refused("order: one event, 2", 2, 63, part->size, 10, 0);
    check_step_refused("order: one event, 3", 3, 64, part->size, 10, 0);
    check_step_refused("order: one event, 3 at 256", 3, 64, part->size, 256 + FM31_TICK, 1);
    check_step_refused("order: one event, 3 at the top", 3, 64, part->size, UINT64_MAX, 1);
    check_step_refused("order: one event, 4", 4, 64, part->size, FM31_EDGE_2, 0);
    play();
    must("order: nothing wrong", held_counts(), 0x00010001u);
    count = 0;
    before = now;
    play();
    check_untouched("an empty list");
}

/* A view: lengths of image and memory, past or below the right ones, what is asked, the number. */
static void check_view(int image_more, int memory_more, uint64_t selector, uint64_t start,
                       uint64_t length, uint64_t number) {
    uint64_t told = 99;
    must("view: number",
         part->view_number(now.image, FM31_IMAGE_BYTES + (uint64_t)(int64_t)image_more, now.memory,
                           part->size + (uint64_t)(int64_t)memory_more, selector, start, length),
         number);
    if (image_more != 0 || memory_more != 0) {
        return;
    }
    const uint8_t *place = now.memory;
    if (number == FM31_OK) {
        place = (selector == FM31_VIEW_MEMORY ? now.memory : now.image) + start;
    }
    must("view: its place",
         part->view(now.image, now.memory, selector, start, length, &told) == place, 1);
    must("view: its number", told, number);
}

static void check_views(void) {
    const uint64_t size = part->size;
    begin();
    memset(now.image, 0, FM31_IMAGE_BYTES); /* the viewer tests length only */
    before = now;
    check_view(0, 0, 0, 0, size, 0);
    check_view(0, 0, 0, 0, size + 1, 6);
    check_view(0, 0, 0, size, 0, 0);
    check_view(0, 0, 0, size, 1, 6);
    check_view(0, 0, 0, size - 1, 1, 0);
    check_view(0, 0, 1, 0, 16, 0);
    check_view(0, 0, 1, 0, 17, 6);
    check_view(0, 0, 1, FM31_PLACE(FM31_COUNTER_1_LOW), 4, 0);
    check_view(0, 0, 1, 15, 1, 0);
    check_view(0, 0, 1, 16, 0, 0);
    check_view(0, 0, 1, 17, 0, 6);
    check_view(0, 0, 0, UINT64_MAX, 1, 6);
    check_view(0, 0, 0, 1, UINT64_MAX, 6);
    check_view(0, 0, 1, UINT64_MAX, UINT64_MAX, 6);
    check_view(0, 0, 2, 0, 0, 5);
    check_view(0, 0, 256, 0, 0, 5);
    check_view(0, 0, UINT64_MAX, size, size, 5);
    check_view(-1, 0, 2, size, size, 2);
    check_view(1, 0, 1, 0, 0, 2);
    check_view(-1, -1, 2, size, size, 1);
    check_view(0, 1, 1, 0, 0, 1);
    check_untouched("views");
}

unsigned long check_family(void) {
    for (unsigned i = 0; i < sizeof parts / sizeof parts[0]; i++) {
        part = &parts[i];
        check_fresh();
        check_registers();
        check_counters();
        check_pair();
        check_edges();
        check_fixed_byte();
        check_frozen();
        check_snapshots();
        check_lock();
        check_power();
        check_addresses();
        check_memory();
        check_protection();
        check_ticks();
        check_pieces();
        check_lengths();
        check_images();
        check_order();
        check_views();
    }
    return cases;
}
