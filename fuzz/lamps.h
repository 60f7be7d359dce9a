/* SPDX-License-Identifier: Apache-2.0 */
/* fm3130_lamps, held to the list run and to 02's number 11 in plain C. */
#ifndef LAMPS_H
#define LAMPS_H

#include "calls.h"

/* Lays the fence of the record. */
void prepare_lamps(void);

/* The record before any event, one within the limits, one with a byte that may be beyond its own, or any length. */
struct buffer choose_record(struct choices *choices);

/* On a chosen call and a chosen record. */
void hold_lamps(struct call call, struct buffer record);

#endif
