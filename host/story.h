/* SPDX-License-Identifier: Apache-2.0 */
/* Does events one by one on a device and tells in words what happens on the bus. */
#ifndef HOST_STORY_H
#define HOST_STORY_H

#include <stddef.h>
#include <stdint.h>
#include <stdio.h>

#include "device.h"
#include "lamps.h"

struct story {
    FILE *out;
    struct device *device;
    unsigned phase;      /* enum phase of the byte under way, PHASE_IDLE if there is none */
    unsigned clocks;     /* its clocks so far, 0 to 8 */
    unsigned bits;       /* the line at them, high bit first */
    unsigned address;    /* where its device stood before it */
    unsigned loose;      /* clocks outside a transfer that are not told yet */
    unsigned long ticks; /* ticks that are not told yet */
    uint8_t before[7];   /* the calendar before them */
    uint8_t rolled;      /* the highest field that one of them changed, enum fm3130_rolled */
    int last_read;       /* the last whole byte that the device sent, or -1 */
    struct lamps lamps;  /* the proving record beside the device */
};

/* Begins to tell of a device, which may stand inside a byte. */
void story_begin(struct story *story, FILE *out, struct device *device);

/* Does events and tells of them; what is not told yet waits for the next call. */
void story_go_on(struct story *story, const uint8_t *events, size_t count, uint8_t *answers);

/* Tells what still waits, and of a byte that is under way. */
void story_pause(struct story *story);

#endif
