/* SPDX-License-Identifier: Apache-2.0 */
/* A list of events that grows up to the most, by events, by bytes on the bus. */
#ifndef LIST_H
#define LIST_H

#include <stddef.h>
#include <stdint.h>

enum { MOST_EVENTS = 4096 };

struct list {
    uint8_t events[MOST_EVENTS];
    size_t length;
};

static inline void add_event(struct list *list, uint8_t event)
{
    if (list->length < MOST_EVENTS)
        list->events[list->length++] = event;
}

static inline void add_clock(struct list *list, unsigned high) { add_event(list, high ? 3 : 2); }

/* Eight clocks, high bit first, and the ninth. */
static inline void add_byte(struct list *list, uint8_t byte, unsigned ninth)
{
    for (int place = 7; place >= 0; place--)
        add_clock(list, byte >> place & 1);
    add_clock(list, ninth);
}

/* A Start and a slave byte, whose ninth clock is left high. */
static inline void add_slave_byte(struct list *list, uint8_t slave_byte)
{
    add_event(list, 0);
    add_byte(list, slave_byte, 1);
}

#endif
