/* SPDX-License-Identifier: Apache-2.0 */
#include "lamps_plain.h"

#include "../bench/plain.h"
#include "../include/fm3130.h"

enum { FIRST_LAMP = 0x1000, LAMPS = 8, DARKENING_TICKS = 3 };

/* Whose byte it is that the clocks are of. */
enum whose { NOBODYS, SLAVE_BYTE, TO_THE_DEVICE, FROM_THE_MEMORY, FROM_A_REGISTER };

/* What an onlooker at the wire knows: the device before the event, whose byte is under way, how many of its clocks are
 * done, what the line showed in them, and the memory address at the first of them. */
struct onlooker {
    struct plain_device device;
    uint8_t *memory;
    enum whose whose;
    unsigned clocks;
    uint8_t shown;
    uint16_t address;
};

static const struct lamps_mark nothing = {.kind = NOTHING}, bus_failed = {.kind = BUS_FAILED},
                               stopped = {.kind = STOPPED}, ticked = {.kind = TICKED};

static void begin_byte(struct onlooker *wire, enum whose whose)
{
    wire->whose = whose;
    wire->clocks = 0;
}

/* ---- what an event was */

/* 01: "the device itself pulls the ninth clock's line low, whatever the master does there". So a copy of the device is
 * asked with the master's line left high; a ninth clock changes no memory. */
static int device_acknowledges(const struct onlooker *wire)
{
    struct plain_device copy = wire->device;
    const uint8_t released = FM3130_CLOCK_HIGH;
    uint8_t answer;
    plain_events(&copy, wire->memory, &released, 1, &answer);
    return !(answer & 1);
}

/* Whose byte comes after one that the device acknowledged. */
static enum whose whose_next(const struct onlooker *wire)
{
    if (wire->whose != SLAVE_BYTE || !(wire->shown & 1))
        return TO_THE_DEVICE;
    return wire->shown == 0xA1 ? FROM_THE_MEMORY : FROM_A_REGISTER;
}

/* The ninth clock of a byte that the device sent: the master asks for another, or ends the read. */
static struct lamps_mark sent_byte(struct onlooker *wire, uint8_t event)
{
    struct lamps_mark read = {.kind = WAS_READ, .address = wire->address, .value = wire->shown};
    struct lamps_mark mark = wire->whose == FROM_THE_MEMORY ? read : nothing;
    begin_byte(wire, event == FM3130_CLOCK_HIGH ? NOBODYS : wire->whose);
    return mark;
}

/* The ninth clock of a byte that the device had to acknowledge. */
static struct lamps_mark received_byte(struct onlooker *wire)
{
    int acknowledged = device_acknowledges(wire);
    begin_byte(wire, acknowledged ? whose_next(wire) : NOBODYS);
    return acknowledged ? nothing : bus_failed;
}

static void data_clock(struct onlooker *wire, uint8_t line)
{
    if (wire->clocks == 0)
        wire->address = wire->device.memory_address;
    wire->shown = (uint8_t)(wire->shown << 1 | line);
    wire->clocks++;
}

static struct lamps_mark clock_was(struct onlooker *wire, uint8_t event, uint8_t line)
{
    if (wire->whose != NOBODYS && wire->clocks == 8)
        return wire->whose >= FROM_THE_MEMORY ? sent_byte(wire, event) : received_byte(wire);
    if (wire->whose != NOBODYS)
        data_clock(wire, line);
    return nothing;
}

/* A Start or a Stop: the bus fails with 1 to 8 clocks of a byte done. */
static struct lamps_mark edge_was(struct onlooker *wire, enum whose next, struct lamps_mark between_bytes)
{
    struct lamps_mark mark = wire->clocks > 0 ? bus_failed : between_bytes;
    begin_byte(wire, next);
    return mark;
}

static struct lamps_mark power_loss_was(struct onlooker *wire)
{
    begin_byte(wire, NOBODYS);
    return bus_failed;
}

/* An event and the line in the answer to it. A device without main power hears no Start. */
static struct lamps_mark event_was(struct onlooker *wire, uint8_t event, uint8_t line)
{
    switch (event) {
    case FM3130_START: return edge_was(wire, wire->device.power == 0 ? SLAVE_BYTE : NOBODYS, nothing);
    case FM3130_STOP: return edge_was(wire, NOBODYS, stopped);
    case FM3130_TICK: return ticked;
    case FM3130_POWER_LOST_WITH_BACKUP:
    case FM3130_POWER_LOST_WITHOUT_BACKUP: return power_loss_was(wire);
    case FM3130_POWER_RETURNED: return nothing;
    default: return clock_was(wire, event, line);
    }
}

void lamps_follow(struct lamps_log *log, const uint8_t *image, uint8_t *memory, const uint8_t *events, size_t count)
{
    struct onlooker wire = {.memory = memory, .whose = NOBODYS};
    plain_read_image(&wire.device, image);
    for (size_t i = 0; i < count; i++) {
        struct plain_device after = wire.device;
        uint8_t answer;
        plain_events(&after, memory, &events[i], 1, &answer);
        log->marks[i] = event_was(&wire, events[i], answer & 1);
        wire.device = after;
    }
}

/* ---- which lamps are lit */

/* Back from the end to the last read of the lamp's byte that a Stop ended. Of the Stops on the way the one met last is
 * the one that ended it. */
static int is_lit(const struct lamps_log *log, size_t count, unsigned lamp)
{
    unsigned ticks = 0, ticks_since_stop = 0, stops = 0;
    for (size_t i = count; i > 0; i--) {
        const struct lamps_mark *mark = &log->marks[i - 1];
        if (mark->kind == BUS_FAILED)
            return 0;
        if (mark->kind == WAS_READ && mark->address == FIRST_LAMP + lamp && stops > 0)
            return mark->value == 1 && ticks_since_stop < DARKENING_TICKS;
        ticks += mark->kind == TICKED;
        stops += mark->kind == STOPPED;
        if (mark->kind == STOPPED)
            ticks_since_stop = ticks;
    }
    return 0;
}

uint64_t lamps_lit(const struct lamps_log *log, size_t count)
{
    uint64_t lit = 0;
    for (unsigned lamp = 0; lamp < LAMPS; lamp++)
        lit |= (uint64_t)is_lit(log, count, lamp) << lamp;
    return lit;
}
