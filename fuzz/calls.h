/* SPDX-License-Identifier: Apache-2.0 */
/* The buffers of a call on a device of any part, as the fuzzer's input chooses them, and their contents. */
#ifndef CALLS_H
#define CALLS_H

#include "../include/fm3130.h"
#include "choice.h"
#include "fenced.h"
#include "list.h"
#include "rules.h"

enum { MOST_ANSWERS = MOST_EVENTS + 64, MOST_IMAGE = 256, MOST_MEMORY = 65536 };

enum { OLD_BYTE = 0xEE, BESIDE = 8 };

/* A part: its limits, bytes that lie beside them, its proved entries, and the plain program that says what they must
 * do. `liven` writes what seldom comes by chance over the front of an image; `add_traffic` adds one choice of bus
 * traffic to a list, mostly `add_bus_traffic`; `hold_told` holds what one event tells beside its answer. */
struct part {
    const struct limits *limits;
    const uint8_t *beside;
    uint64_t (*fresh)(uint8_t *image, uint64_t image_length);
    struct fm3130_ran (*run)(uint8_t *image, uint64_t image_length, uint8_t *memory, uint64_t memory_length,
                             const uint8_t *events, uint64_t events_length, uint8_t *answers, uint64_t answers_length);
    uint64_t (*step)(uint8_t *image, uint64_t image_length, uint8_t *memory, uint64_t memory_length, uint64_t event,
                     uint8_t *told, uint64_t told_length);
    uint64_t (*view_number)(const uint8_t *image, uint64_t image_length, const uint8_t *memory, uint64_t memory_length,
                            uint64_t selector, uint64_t start, uint64_t length);
    void (*plain)(uint8_t *image, uint8_t *memory, const uint8_t *events, size_t count, uint8_t *answers);
    void (*liven)(struct choices *choices, uint8_t *image);
    void (*add_traffic)(const struct part *part, struct choices *choices, struct list *list);
    void (*hold_told)(const uint8_t *old_image, const uint8_t *new_image, uint64_t event, const uint8_t *told);
};

/* The four buffers of a call, and after how many events a run in pieces is cut. */
struct call {
    const struct part *part;
    struct buffer image;
    struct buffer memory;
    struct buffer events;
    struct buffer answers;
    uint64_t cut;
};

/* What a call can change, as it was or as it became. */
struct contents {
    uint8_t image[MOST_IMAGE];
    uint8_t memory[MOST_MEMORY];
    uint8_t events[MOST_EVENTS];
    uint8_t answers[MOST_ANSWERS];
};

/* Lays the fences; once, before the first call is chosen. */
void lay_fences(void);

/* The call that the input chooses; all that is left of the input becomes events. */
struct call choose_call(const struct part *part, struct choices *choices);

/* One choice of the traffic that every part hears. */
void add_bus_traffic(const struct part *part, struct choices *choices, struct list *list);

/* Pieces of such a choice, for a call on several devices. */
size_t answers_length(uint8_t choice, uint8_t way, size_t events);
uint8_t choose_bus_byte(const struct part *part, struct choices *choices);
uint8_t choose_register_byte(const struct limits *limits, struct choices *choices);
void fill_image(const struct part *part, struct choices *choices, struct buffer image, uint8_t way);
void fill_memory(struct choices *choices, struct buffer memory);

void keep(struct contents *contents, struct call call);
void copy(struct contents *to, const struct contents *from, struct call call);
void restore(struct call call, const struct contents *contents);
int holds(struct call call, const struct contents *contents);
void hold_guards(struct call call);

#endif
