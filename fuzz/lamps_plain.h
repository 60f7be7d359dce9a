/* SPDX-License-Identifier: Apache-2.0 */
/* 02's number 11 in plain C: what each event of a list was to the lamps, and by looking back over it which are lit. The
 * device under it is the plain program's (bench/plain.c). */
#ifndef LAMPS_PLAIN_H
#define LAMPS_PLAIN_H

#include <stddef.h>
#include <stdint.h>

#include "list.h"

/* What an event was to the lamps; of a byte that was read, the address it came from and what the line showed. */
struct lamps_mark {
    enum { NOTHING, BUS_FAILED, STOPPED, TICKED, WAS_READ } kind;
    uint16_t address;
    uint8_t value;
};

struct lamps_log {
    struct lamps_mark marks[MOST_EVENTS];
};

/* The log of events from an image between transfers; the memory is left as the device leaves it. */
void lamps_follow(struct lamps_log *log, const uint8_t *image, uint8_t *memory, const uint8_t *events, size_t count);

/* The lamps that are lit after so many events of a log, bit k for lamp k. */
uint64_t lamps_lit(const struct lamps_log *log, size_t count);

#endif
