/* SPDX-License-Identifier: Apache-2.0 */
/*
 * Sets through include/fm31.h: up to four devices of the larger family on one line. A byte written to
 * each device by its select bits comes back from it and from no other, the others are as they were,
 * an edge counts on its device alone, nobody answers to select bits that no device has, and every
 * refusal comes in its order with untouched buffers: the count before all others.
 */
#include "fm31.h"

#include <string.h>

#include "check.h"

enum { LIST_ROOM = 256, MEMORY = 0xA0, READ = 1, PLACE = 0x1234, COUNTERS = 4 };

/* Places of an image's bytes, and the phase that is a slave byte. */
enum { SUPPLIES = 25, PHASE = 26, CLOCKS = 27, BYTE = 28, SLAVE_BYTE = 1 };

/* Two more than a set takes, for those that are refused. */
enum { PLAN_ROOM = FM31_SET_MOST + 2 };

/* A set of four, of both sizes, and the answers to a list. */
struct set {
    uint8_t plan[PLAN_ROOM];
    uint64_t devices;
    uint8_t images[PLAN_ROOM * FM31_IMAGE_BYTES];
    uint8_t memories[FM31_SET_MOST][FM31256_MEMORY_BYTES];
    uint64_t lengths[FM31_SET_MOST];
    uint8_t answers[LIST_ROOM];
    uint64_t room;
};

static struct set set, before;
static uint8_t events[LIST_ROOM];
static uint64_t count;

static void add(uint8_t event) {
    events[count++] = event;
}

/* Eight clocks, high bit first, and the ninth. */
static void add_byte(unsigned byte, int ninth_is_high) {
    for (int place = 7; place >= 0; place--) {
        add(byte >> place & 1 ? FM31_CLOCK_HIGH : FM31_CLOCK_LOW);
    }
    add(ninth_is_high ? FM31_CLOCK_HIGH : FM31_CLOCK_LOW);
}

/* Fresh devices: select bits 3, 1, 0, 2, every other one of the larger size; past the fourth as the
 * first. */
static void make_set(uint64_t devices) {
    static const uint8_t plan[PLAN_ROOM] = {FM31_PLAN_64(3),  FM31_PLAN_256(1), FM31_PLAN_64(0),
                                            FM31_PLAN_256(2), FM31_PLAN_64(3),  FM31_PLAN_64(3)};
    memset(&set, 0, sizeof set);
    memcpy(set.plan, plan, sizeof plan);
    set.devices = devices;
    set.room = LIST_ROOM;
    for (int place = 0; place < PLAN_ROOM; place++) {
        check_equal("fm31_fresh",
                    fm31_fresh(set.images + place * FM31_IMAGE_BYTES, FM31_IMAGE_BYTES), FM31_OK);
    }
    for (int place = 0; place < FM31_SET_MOST; place++) {
        int is_on = (uint64_t)place < devices;
        uint64_t size = plan[place] & 4 ? FM31256_MEMORY_BYTES : FM3164_MEMORY_BYTES;
        set.lengths[place] = is_on ? size : 0;
    }
    count = 0;
}

static uint64_t check_set(void) {
    return fm31_set_check(set.plan, set.devices, set.images, set.devices * FM31_IMAGE_BYTES,
                          set.memories[0], set.lengths[0], set.memories[1], set.lengths[1],
                          set.memories[2], set.lengths[2], set.memories[3], set.lengths[3]);
}

static uint64_t run_set(void) {
    uint64_t number = fm31_set_run(
        set.plan, set.devices, set.images, set.devices * FM31_IMAGE_BYTES, set.memories[0],
        set.lengths[0], set.memories[1], set.lengths[1], set.memories[2], set.lengths[2],
        set.memories[3], set.lengths[3], events, count, set.answers, set.room);
    count = 0;
    return number;
}

/* A memory write of one byte to whoever has these select bits; whether it was acknowledged. */
static int write_byte(unsigned select, unsigned byte) {
    add(FM31_START);
    add_byte(MEMORY | select << 1, 1);
    add_byte(PLACE >> 8, 1);
    add_byte(PLACE & 0xFF, 1);
    add_byte(byte, 1);
    add(FM31_STOP);
    check_equal("set: a write", run_set(), FM31_OK);
    return set.answers[9] == 0 && set.answers[36] == 0;
}

/* A memory read of one byte from whoever has these select bits. */
static unsigned read_byte(unsigned select) {
    unsigned byte = 0;
    add(FM31_START);
    add_byte(MEMORY | select << 1, 1);
    add_byte(PLACE >> 8, 1);
    add_byte(PLACE & 0xFF, 1);
    add(FM31_START);
    add_byte(MEMORY | READ | select << 1, 1);
    add_byte(0xFF, 1);
    add(FM31_STOP);
    check_equal("set: a read", run_set(), FM31_OK);
    for (int place = 0; place < 8; place++) {
        byte = byte * 2 + set.answers[38 + place];
    }
    return byte;
}

/* Each device takes its own byte, and the others are as they were. */
static void check_transactions(uint64_t devices) {
    make_set(devices);
    check_equal("set: made", check_set(), FM31_OK);
    for (uint64_t place = 0; place < FM31_SET_MOST; place++) {
        int is_on = place < devices;
        before = set;
        check_equal("set: acknowledged",
                    (uint64_t)write_byte(set.plan[place] & 3, 0x50 + (unsigned)place),
                    (uint64_t)is_on);
        for (uint64_t other = 0; other < devices; other++) {
            if (other != place) {
                check_equal("set: another device's image",
                            (uint64_t)memcmp(set.images + other * FM31_IMAGE_BYTES,
                                             before.images + other * FM31_IMAGE_BYTES,
                                             FM31_IMAGE_BYTES),
                            0);
                check_equal("set: another device's memory",
                            (uint64_t)memcmp(set.memories[other], before.memories[other],
                                             FM31256_MEMORY_BYTES),
                            0);
            }
        }
    }
    for (uint64_t place = 0; place < FM31_SET_MOST; place++) {
        check_equal("set: read back", read_byte(set.plan[place] & 3),
                    place < devices ? 0x50 + place : 0xFF);
    }
}

/* An edge counts on its device alone. */
static void check_edges(void) {
    make_set(FM31_SET_MOST);
    for (int place = 0; place < FM31_SET_MOST; place++) {
        for (int times = 0; times <= place; times++) {
            add(FM31_SET_EDGE_1(place));
        }
        add(FM31_SET_EDGE_2(place));
    }
    check_equal("set: edges", run_set(), FM31_OK);
    for (uint64_t place = 0; place < FM31_SET_MOST; place++) {
        const uint8_t *counters = set.images + place * FM31_IMAGE_BYTES + COUNTERS;
        check_equal("set: counter 1", counters[0], place + 1);
        check_equal("set: counter 2", counters[2], 1);
    }
}

/* What a fault gives: the number of the check and of the run, and nothing written. */
static void check_fault(const char *what, uint64_t checked, uint64_t ran) {
    before = set;
    check_equal(what, check_set(), checked);
    uint64_t asked = count;
    check_equal(what, run_set(), ran);
    count = asked;
    if (ran != FM31_OK) {
        check_equal(what, (uint64_t)memcmp(&set, &before, sizeof set), 0);
    }
}

/* The image of the device at a place. */
static uint8_t *image_at(int place) {
    return set.images + place * FM31_IMAGE_BYTES;
}

/* Puts the device at a place into a slave byte, so many clocks of it done. */
static void put_into_slave_byte(int place, uint8_t clocks, uint8_t bits) {
    image_at(place)[PHASE] = SLAVE_BYTE;
    image_at(place)[CLOCKS] = clocks;
    image_at(place)[BYTE] = bits;
}

/* A set that runs on stands as a made one can: one device in a transfer, or all in one slave byte. */
static void check_standing(void) {
    make_set(3);
    add(FM31_TICK);
    put_into_slave_byte(0, 5, 0x14);
    check_fault("set: one in a slave byte", FM31_IN_TRANSFER, FM31_OK);
    put_into_slave_byte(2, 5, 0x14);
    check_fault("set: two in the same slave byte", FM31_IN_TRANSFER, FM31_OK);
    put_into_slave_byte(2, 4, 0x0A);
    check_fault("set: one a clock behind", FM31_IN_TRANSFER, FM31_IN_TRANSFER);
    put_into_slave_byte(2, 5, 0x15);
    check_fault("set: another bit", FM31_IN_TRANSFER, FM31_IN_TRANSFER);
    put_into_slave_byte(0, 8, 0xA6);
    put_into_slave_byte(2, 0, 0x00);
    check_fault("set: one is named already", FM31_IN_TRANSFER, FM31_IN_TRANSFER);
    put_into_slave_byte(2, 8, 0xA0);
    check_fault("set: two are named", FM31_IN_TRANSFER, FM31_IN_TRANSFER);
    image_at(0)[SUPPLIES] = 1;
    check_fault("set: in a transfer without power", FM31_WRONG_STATE, FM31_WRONG_STATE);
}

/* One device sends and one receives: put on one line, the second would store what it does not hear. */
static void check_sender_and_receiver(void) {
    make_set(2);
    add(FM31_START);
    add_byte(MEMORY | READ, 1);
    check_equal("set: the sender alone",
                fm3164_run(image_at(0), FM31_IMAGE_BYTES, set.memories[0], set.lengths[0], events,
                           count, set.answers, set.room),
                FM31_OK);
    count = 0;
    add(FM31_START);
    add_byte(MEMORY, 1);
    add_byte(PLACE >> 8, 1);
    add_byte(PLACE & 0xFF, 1);
    check_equal("set: the receiver alone",
                fm31256_run(image_at(1), FM31_IMAGE_BYTES, set.memories[1], set.lengths[1], events,
                            count, set.answers, set.room),
                FM31_OK);
    count = 0;
    add_byte(0xFF, 1);
    check_fault("set: a sender and a receiver", FM31_IN_TRANSFER, FM31_IN_TRANSFER);
}

/* Faults put together from the last number to the first: each goes before those that are there. */
static void check_refusals(void) {
    make_set(2);
    add(FM31_TICK);
    check_fault("set: sound", FM31_OK, FM31_OK);
    put_into_slave_byte(0, 0, 0);
    check_fault("set: in a transfer", FM31_IN_TRANSFER, FM31_OK);
    put_into_slave_byte(1, 1, 0);
    check_fault("set: in two transfers", FM31_IN_TRANSFER, FM31_IN_TRANSFER);
    set.plan[1] = FM31_PLAN_256(3);
    check_fault("set: equal selects", FM31_EQUAL_SELECTS, FM31_EQUAL_SELECTS);
    set.room = 0;
    check_fault("set: short answers", FM31_EQUAL_SELECTS, FM31_SHORT_ANSWERS);
    events[0] = 12;
    check_fault("set: an edge of no device", FM31_EQUAL_SELECTS, FM31_UNKNOWN_EVENT);
    image_at(0)[CLOCKS] = 9;
    check_fault("set: a state outside its limits", FM31_WRONG_STATE, FM31_WRONG_STATE);
    set.lengths[1]--;
    check_fault("set: a memory of another size", FM31_WRONG_MEMORY, FM31_WRONG_MEMORY);
    set.devices = 0;
    check_fault("set: no device, and all that", FM31_WRONG_COUNT, FM31_WRONG_COUNT);
    set.devices = PLAN_ROOM;
    check_fault("set: too many, and all that", FM31_WRONG_COUNT, FM31_WRONG_COUNT);
}

/* Number 9 exactly if there are not one to four devices. */
static void check_counts(void) {
    for (uint64_t devices = 0; devices <= PLAN_ROOM; devices++) {
        uint64_t number = devices >= 1 && devices <= FM31_SET_MOST ? FM31_OK : FM31_WRONG_COUNT;
        make_set(devices);
        check_fault("set: sound devices, by their count", number, number);
    }
    make_set(FM31_SET_MOST + 1);
    image_at(FM31_SET_MOST)[PHASE] = 9;
    check_fault("set: five, the fifth bad", FM31_WRONG_COUNT, FM31_WRONG_COUNT);
}

void check_sets(void) {
    for (uint64_t devices = 1; devices <= FM31_SET_MOST; devices++) {
        check_transactions(devices);
    }
    check_edges();
    check_refusals();
    check_counts();
    check_standing();
    check_sender_and_receiver();
}
