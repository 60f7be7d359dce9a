/* SPDX-License-Identifier: Apache-2.0 */
/*
 * Lamp switchings counted by a part of the larger family (fm31.h), read frozen, and a serial number
 * locked: the same events as scripts/counting.bus, and what must come of them.
 */
#ifndef HOST_COUNTING_H
#define HOST_COUNTING_H

#include <stddef.h>
#include <stdint.h>
#include <stdio.h>

#include "fm31.h"

enum { COUNTING_ROOM = 1024, COUNTING_READ_ROOM = 8 };

/* An FM3164, the events so far and their answers, and which of them read bits in the step. */
struct counting {
    uint8_t image[FM31_IMAGE_BYTES];
    uint8_t memory[FM3164_MEMORY_BYTES];
    uint8_t events[COUNTING_ROOM];
    uint8_t answers[COUNTING_ROOM];
    size_t count;
    size_t bits[8 * COUNTING_READ_ROOM]; /* places of the clocks that read a bit in this step */
    size_t bit_count;
};

/* Plays it on a fresh device and tells of it. Returns whether every step came out as it must. */
int counting_play(struct counting *counting, FILE *out);

#endif
