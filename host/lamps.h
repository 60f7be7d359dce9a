/* SPDX-License-Identifier: Apache-2.0 */
/* The proving record beside a device: which of eight lamps may be shown lit. */
#ifndef HOST_LAMPS_H
#define HOST_LAMPS_H

#include <stdint.h>
#include <stdio.h>

#include "device.h"

struct lamps {
    uint8_t record[FM3130_RECORD_BYTES];
    uint8_t report; /* bit k for the lamp at 1000h + k */
};

/* The record before any event: all dark. */
void lamps_begin(struct lamps *lamps);

/* The record after an event; the device is as it was before it, and is not changed. */
void lamps_follow(struct lamps *lamps, const struct device *before, uint8_t event);

/* A line: the lamps, the first one first, * lit and . dark. */
void lamps_print(FILE *out, const struct lamps *lamps);

#endif
