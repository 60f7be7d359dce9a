/* SPDX-License-Identifier: Apache-2.0 */
#include "lamp_choices.h"

#include <string.h>

/* Lit, or dark in ways that are near to it, or any. */
static uint8_t choose_lamp_byte(struct choices *choices)
{
    static const uint8_t bytes[8] = {1, 1, 1, 0, 2, 3, 0x81, 0xFF};
    uint8_t choice = choose_byte(choices);
    return choice & 0x80 ? choose_byte(choices) : bytes[choice % 8];
}

/* The address of a lamp, or one of the two beside either end. */
static void add_lamp_address(struct choices *choices, struct list *list)
{
    unsigned address = FM3130_LAMP_ADDRESS - 2 + choose_byte(choices) % (FM3130_LAMPS + 4);
    add_slave_byte(list, 0xA0);
    add_byte(list, (uint8_t)(address >> 8), 1);
    add_byte(list, (uint8_t)address, 1);
}

/* One to four bytes are read, at times from registers; the master leaves the line high in them, or pulls some bits of
 * the last one down. */
static void add_reads(struct choices *choices, struct list *list)
{
    uint8_t way = choose_byte(choices);
    add_slave_byte(list, (way & 0x38) == 0x38 ? 0xD1 : 0xA1);
    for (unsigned left = way % 4; left > 0; left--)
        add_byte(list, 0xFF, 0);
    add_byte(list, way & 0x80 ? choose_lamp_byte(choices) : 0xFF, way & 0x40);
}

/* One to eight clocks of a byte, and any event in place of the next. */
static void add_cut_byte(struct choices *choices, struct list *list)
{
    uint8_t way = choose_byte(choices);
    for (unsigned left = 1 + way % 8; left > 0; left--)
        add_clock(list, way & 0x10);
    add_event(list, way >> 5);
}

static void add_ticks(struct list *list, unsigned count)
{
    for (unsigned left = count; left > 0; left--)
        add_event(list, FM3130_TICK);
}

/* A read that sets its address first, with up to three ticks before its Stop and after it. */
static void add_whole_read(struct choices *choices, struct list *list)
{
    uint8_t way = choose_byte(choices);
    unsigned ticks = way & 0x80 ? way : 0;
    add_lamp_address(choices, list);
    add_reads(choices, list);
    add_ticks(list, ticks % 4);
    add_event(list, FM3130_STOP);
    add_ticks(list, ticks / 4 % 4);
}

/* At times after a Start or a Stop. A list begins with a whole read, so that there is light to be lost. */
void add_lamp_traffic(const struct part *part, struct choices *choices, struct list *list)
{
    uint8_t kind = choose_byte(choices);
    if (kind & 0x80)
        add_event(list, kind & 0x40 ? FM3130_START : FM3130_STOP);
    switch (list->length < 2 ? 0 : kind % 8) {
    case 0: add_whole_read(choices, list); break;
    case 1: add_lamp_address(choices, list); break;
    case 2: add_reads(choices, list); break;
    case 3: add_event(list, FM3130_TICK); break;
    case 4: add_byte(list, choose_lamp_byte(choices), kind & 0x08); break;
    case 5: add_cut_byte(choices, list); break;
    default: add_bus_traffic(part, choices, list); break;
    }
}

void liven_lamps(struct call call, struct choices *choices)
{
    uint8_t way = choose_byte(choices);
    if (call.memory.length == MEMORY_BYTES)
        for (unsigned lamp = 0; lamp < FM3130_LAMPS; lamp++)
            call.memory.start[FM3130_LAMP_ADDRESS + lamp] = choose_lamp_byte(choices);
    if (way % 4 != 3 && call.image.length == IMAGE_BYTES)
        memset(&call.image.start[PHASE_PLACE], 0, 4);
}
