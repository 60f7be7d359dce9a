/* SPDX-License-Identifier: Apache-2.0 */
/* A device in words: registers, calendar, pin, addresses, power, bus. */
#ifndef HOST_WORDS_H
#define HOST_WORDS_H

#include <stdint.h>
#include <stdio.h>

#include "device.h"

/* The register's name in the data sheet's spelling, 00h to 0Eh. */
const char *register_name(unsigned address);

/* The byte under way. */
const char *phase_name(unsigned phase);

/* What passed, by the highest field that ticks changed: enum fm3130_rolled. */
const char *rolled_name(unsigned rolled);

/* What a byte means in a register. */
void print_register(FILE *out, unsigned address, unsigned byte);

/* Seven bytes, seconds first, as time, date and day. */
void print_calendar(FILE *out, const uint8_t *seven);

/* All of the device, a line each. */
void print_device(FILE *out, const struct device *device);

#endif
