/* SPDX-License-Identifier: Apache-2.0 */
/* The buffers of a call on a set of devices, as the fuzzer's input chooses them, and the numbers of docs/FAMILY.md. */
#ifndef SET_CALLS_H
#define SET_CALLS_H

#include "calls.h"

enum { PLACES = 4, MOST_PLAN = 8, MOST_IMAGES = MOST_PLAN * IMAGE_BYTES };

/* The buffers of a call, and after how many events a run in pieces is cut. */
struct set_call {
    struct buffer plan;
    struct buffer images;
    struct buffer memories[PLACES];
    struct buffer events;
    struct buffer answers;
    uint64_t cut;
};

/* All bytes of a call's buffers, as they were or as they became. */
struct set_contents {
    uint8_t plan[MOST_PLAN];
    uint8_t images[MOST_IMAGES];
    uint8_t memories[PLACES][MOST_MEMORY];
    uint8_t events[MOST_EVENTS];
    uint8_t answers[MOST_ANSWERS];
};

/* Lays the fences; once, before the first call is chosen. */
void lay_set_fences(void);

/* The call that the input chooses; all that is left of the input becomes events. */
struct set_call choose_set_call(struct choices *choices);

/* How many devices of a plan have a place: four at most. */
uint64_t places_of(const struct set_call *call);

/* What the device at a place of the plan allows. */
struct limits limits_at(const struct set_call *call, uint64_t place);

/* The numbers that docs/FAMILY.md gives the making of a set, and a list of events on it. */
uint64_t check_number(const struct set_call *call);
uint64_t set_run_number(const struct set_call *call);

void keep_set(struct set_contents *contents, const struct set_call *call);
void restore_set(const struct set_call *call, const struct set_contents *contents);
int set_holds(const struct set_call *call, const struct set_contents *contents);
void hold_set_guards(const struct set_call *call);

#endif
