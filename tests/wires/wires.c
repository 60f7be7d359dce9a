/* SPDX-License-Identifier: Apache-2.0 */
/* The wires, the four functions of the board, and the reference. */
#include "wires.h"

#include "fm3130.h"

enum { CLOCKS_AT = 27, BEFORE_EIGHTH = 7, MOST_WAITING = 8 };

struct played played;

static struct {
    enum pace pace;
    uint8_t scl, sda;         /* what the master does: 0 pulls, 1 releases */
    uint8_t is_pulled;        /* by the device */
    uint8_t may_leave;        /* the device may release SDA at any time */
    unsigned readings;        /* of the device, until the wires are what they will be; 0 for none */
    uint8_t scl_then;         /* and that is this */
    uint8_t sda_then;
    uint8_t is_open;          /* SCL has risen, and it is not yet said what that meant */
    uint32_t places, tick_at; /* so far, and where the tick comes */
    uint32_t ticks;           /* of the reference in this session */
    uint32_t ticks_at_clock;  /* when the last Clock was done */
    uint32_t random;          /* never 0 */
    uint8_t
        is_lost; /* power was lost before this pulse's Clock: SDA still shows the bit of before */
    unsigned waiting; /* events of the reference for the pulse's end */
    uint8_t waits[MOST_WAITING];
} wires;

static struct pins pins;
static uint8_t image[FM3130_IMAGE_BYTES], memory[FM3130_MEMORY_BYTES];

/*
 * The reference. On a controller with 16 KiB it shares the memory: each byte is stored twice, by
 * the device and by the reference, and the master knows what it must read.
 */
static uint8_t other_image[FM3130_IMAGE_BYTES];
#ifdef WIRES_ONE_MEMORY
#define other_memory memory
#else
static uint8_t other_memory[FM3130_MEMORY_BYTES];
#endif

void must_equal(const char *what, uint32_t is, uint32_t must_be) {
    if (is != must_be) {
        wires_differ(what, is, must_be);
    }
}

static void check_image(void) {
    for (unsigned i = 0; i < sizeof image; i++) {
        must_equal("a byte of the image", image[i], other_image[i]);
    }
}

uint32_t chance(uint32_t mask) {
    wires.random ^= wires.random << 13;
    wires.random ^= wires.random >> 17;
    wires.random ^= wires.random << 5;
    return wires.random >> 8 & mask;
}

/* ---- the board's four functions */

/* A reading or a turn of SDA takes time, in which the master goes on. */
static void pass(void) {
    if (wires.readings > 0 && --wires.readings == 0) {
        wires.scl = wires.scl_then;
        wires.sda = wires.sda_then;
    }
}

int pins_read_scl(void) {
    pass();
    return wires.scl;
}

int pins_read_sda(void) {
    pass();
    return sda_level();
}

/*
 * SDA is turned while SCL is low, but where the device leaves the bus. At the end of a pulse it is
 * turned before the event is done: the image is still that of the reference, which has not done it
 * either.
 */
static void pull(uint8_t is_pulled) {
    pass();
    if (is_pulled == wires.is_pulled) {
        return;
    }
    wires.is_pulled = is_pulled;
    if (wires.may_leave && !is_pulled) {
        return;
    }
    must_equal("SCL while the device turns SDA", wires.scl, 0);
    if (wires.is_open && wires.waiting == 0) {
        check_image();
    }
}

void pins_pull_sda(void) {
    pull(1);
}

void pins_release_sda(void) {
    pull(0);
}

/* ---- the reference */

static void do_other(uint8_t event, uint8_t *answer) {
    uint8_t told[FM3130_TOLD_BYTES];
    must_equal("the reference's number",
               (uint32_t)fm3130_step(other_image, sizeof other_image, other_memory,
                                     sizeof other_memory, event, told, sizeof told),
               FM3130_OK);
    *answer = told[0];
    played.events++;
    if (event == FM3130_TICK) {
        wires.ticks++;
    }
}

static void do_waiting(unsigned count) {
    uint8_t answer;
    for (unsigned i = 0; i < count; i++) {
        wires.is_lost |= wires.waits[i] == FM3130_POWER_LOST_WITH_BACKUP ||
                         wires.waits[i] == FM3130_POWER_LOST_WITHOUT_BACKUP;
        do_other(wires.waits[i], &answer);
    }
    for (unsigned i = count; i < wires.waiting; i++) {
        wires.waits[i - count] = wires.waits[i];
    }
    wires.waiting -= count;
}

void meant(uint8_t event, uint8_t line) {
    uint8_t answer;
    wires.is_open = 0;
    if (event == FM3130_CLOCK_LOW || event == FM3130_CLOCK_HIGH) {
        do_other(event, &answer);
        if (!wires.is_lost) {
            must_equal("the line of a Clock", line, answer & FM3130_ANSWER_LINE);
        }
        wires.ticks_at_clock = wires.ticks;
        played.clocks++;
        do_waiting(wires.waiting);
    } else {
        do_waiting(wires.waiting);
        do_other(event, &answer);
    }
    wires.is_lost = 0;
}

void due(uint8_t event) {
    if (wires.waiting == MOST_WAITING) {
        wires_differ("events that wait", wires.waiting, 0);
    }
    wires.waits[wires.waiting++] = event;
    if (!wires.is_open) {
        do_waiting(wires.waiting);
        wires.is_lost = 0;
    } else if (other_image[CLOCKS_AT] == BEFORE_EIGHTH) {
        do_waiting(wires.waiting - 1); /* all but the last go before a byte's eighth Clock */
    }
    must_equal("the number of pins_due", pins_due(&pins, event), FM3130_OK);
}

void check_device(void) {
    must_equal("the device's number", pins.number, FM3130_OK);
    check_image();
}

uint32_t ticks_at_clock(void) {
    return wires.ticks_at_clock;
}

/* ---- the master's wires */

uint8_t sda_level(void) {
    return wires.sda && !wires.is_pulled;
}

static void look(void) {
    unsigned number = pins_look(&pins);
    if (!wires.may_leave) {
        must_equal("the number of pins_look", number, FM3130_OK);
    }
}

void set_both_at(uint8_t scl, uint8_t sda, unsigned reading) {
    wires.scl_then = scl;
    wires.sda_then = sda;
    wires.readings = reading;
}

void set_scl_at(uint8_t level, unsigned reading) {
    set_both_at(level, wires.sda, reading);
}

void set_scl(uint8_t level) {
    wires.is_open |= level;
    if (wires.pace == RACING) {
        set_scl_at(level, 1 + chance(3));
        while (wires.readings > 0) {
            look();
        }
    }
    wires.scl = level;
    place();
    if (wires.pace == AFTER_EACH || level || chance(1)) {
        look();
    }
    while (chance(3) == 0) {
        look();
    }
}

void set_sda(uint8_t level) {
    wires.sda = wires.sda_then = level;
    place();
    look();
    while (chance(3) == 0) {
        look();
    }
}

uint32_t place(void) {
    if (wires.places++ == wires.tick_at) {
        due(FM3130_TICK);
    }
    return wires.places;
}

/* ---- a session's begin */

struct pins *device(void) {
    return &pins;
}

uint8_t *device_image(void) {
    return image;
}

uint8_t *device_memory(void) {
    return memory;
}

void may_leave(void) {
    wires.may_leave = 1;
}

void wires_begin(enum pace pace, uint32_t tick_at) {
    for (unsigned i = 0; i < sizeof memory; i++) {
        memory[i] = 0;
        other_memory[i] = 0;
    }
    must_equal("fm3130_fresh", (uint32_t)fm3130_fresh(image, sizeof image), FM3130_OK);
    must_equal("fm3130_fresh", (uint32_t)fm3130_fresh(other_image, sizeof other_image), FM3130_OK);
    wires.pace = pace;
    wires.scl = wires.sda = 1;
    wires.is_pulled = wires.may_leave = wires.is_open = wires.is_lost = 0;
    wires.readings = 0;
    wires.places = wires.ticks = wires.ticks_at_clock = 0;
    wires.waiting = 0;
    wires.tick_at = tick_at;
    wires.random = tick_at * 2 + 1;
    must_equal("pins_begin", pins_begin(&pins, image, memory), FM3130_OK);
    must_equal("the pin of a fresh device", pins.answer, 5);
    check_image();
    played.sessions++;
}
