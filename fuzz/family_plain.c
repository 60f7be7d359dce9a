/* SPDX-License-Identifier: Apache-2.0 */
#include "family_plain.h"

#include <string.h>

enum { IMAGE = 64, REGISTERS = 16, COUNTER_BYTES = 4 };

enum { MAIN_POWER, BACKUP_ALONE, NO_SUPPLY };

enum { START, STOP, CLOCK_LOW, CLOCK_HIGH, TICK, LOST_WITH_BACKUP, LOST_WITHOUT_BACKUP, RETURNED, EDGE_1, EDGE_2 };

/* Where a transfer stands, in the order of the image's numbers. */
enum {
    BETWEEN,
    SLAVE_BYTE,
    FIRST_ADDRESS,
    SECOND_ADDRESS,
    REGISTER_ADDRESS,
    TO_MEMORY,
    TO_REGISTERS,
    FROM_MEMORY,
    FROM_REGISTERS
};

enum {
    FLAGS = 0x09,
    WATCHDOG = 0x0A,
    CONTROL = 0x0B,
    COUNTING = 0x0C,
    COUNTERS = 0x0D,
    COUNTERS_END = 0x10,
    SERIAL = 0x11,
    LAST_REGISTER = 0x18
};

enum { POR = 0x40, LB = 0x20, SNL = 0x80, RC = 0x08, CC = 0x04 };

/* A device without its memory, of which it knows the size. */
struct family {
    unsigned size;
    unsigned select;
    uint8_t registers[REGISTERS];
    uint8_t snapshot[COUNTER_BYTES];
    uint8_t register_address;
    unsigned memory_address;
    uint8_t supplies;
    uint8_t phase;
    uint8_t clocks;
    uint8_t byte;
    uint8_t first_address_byte;
};

static uint8_t *reg(struct family *family, uint8_t address) { return &family->registers[address - FLAGS]; }

/* ---- counters */

static unsigned counter(struct family *family, uint8_t low)
{
    return *reg(family, low) + 256u * *reg(family, (uint8_t)(low + 1));
}

static void set_counter(struct family *family, uint8_t low, unsigned count)
{
    *reg(family, low) = count & 0xFF;
    *reg(family, (uint8_t)(low + 1)) = count >> 8 & 0xFF;
}

/* Document 003: with CC set the second counter counts the first one's overflows, and CNT2 is not used. */
static void edge(struct family *family, int on_second_input)
{
    int cascaded = *reg(family, COUNTING) & CC;
    uint8_t low = on_second_input ? COUNTERS + 2 : COUNTERS;
    if (family->supplies == NO_SUPPLY || (cascaded && on_second_input))
        return;
    set_counter(family, low, counter(family, low) + 1);
    if (cascaded && counter(family, COUNTERS) == 0)
        set_counter(family, COUNTERS + 2, counter(family, COUNTERS + 2) + 1);
}

/* ---- registers on the bus */

static void write_counting(struct family *family, uint8_t byte)
{
    *reg(family, COUNTING) = byte & 0x0F;
    if (byte & RC)
        memcpy(family->snapshot, reg(family, COUNTERS), COUNTER_BYTES);
}

/* What a data byte leaves of the register it is written to. */
static void write_register(struct family *family, uint8_t byte)
{
    uint8_t address = family->register_address;
    uint8_t *place = reg(family, address);
    switch (address) {
    case FLAGS: *place = (uint8_t)((*place & byte & 0xE0) | (byte & 0x0F)); break;
    case WATCHDOG: *place = byte & 0x9F; break;
    case CONTROL: *place = (uint8_t)(((*place | byte) & SNL) | (byte & 0x1F)); break;
    case COUNTING: write_counting(family, byte); break;
    default:
        if (address < SERIAL || !(*reg(family, CONTROL) & SNL))
            *place = byte;
        break;
    }
}

/* While RC is 1 the four counter bytes are read from the snapshot. */
static uint8_t read_register(struct family *family)
{
    uint8_t address = family->register_address;
    int frozen = *reg(family, COUNTING) & RC && address >= COUNTERS && address <= COUNTERS_END;
    return frozen ? family->snapshot[address - COUNTERS] : *reg(family, address);
}

static void step_register_address(struct family *family)
{
    family->register_address = family->register_address == LAST_REGISTER ? FLAGS : family->register_address + 1;
}

static void step_memory_address(struct family *family)
{
    family->memory_address = (family->memory_address + 1) % family->size;
}

/* The first address that is not protected, by WP1 and WP0. */
static unsigned protected_below(struct family *family)
{
    switch (*reg(family, CONTROL) >> 3 & 3) {
    case 0: return 0;
    case 1: return family->size / 4;
    case 2: return family->size / 2;
    default: return family->size;
    }
}

/* ---- transfers */

static void enter(struct family *family, uint8_t phase)
{
    family->phase = phase;
    family->clocks = 0;
    family->byte = 0;
    family->first_address_byte = 0;
}

/* Bits 2 and 1 of a slave byte are those that select a device. */
static uint8_t phase_named_by(struct family *family, uint8_t slave_byte)
{
    switch (slave_byte ^ family->select << 1) {
    case 0xA0: return FIRST_ADDRESS;
    case 0xA1: return FROM_MEMORY;
    case 0xD0: return REGISTER_ADDRESS;
    case 0xD1: return FROM_REGISTERS;
    default: return BETWEEN;
    }
}

static void store_in_memory(struct family *family, uint8_t *memory)
{
    if (family->memory_address >= protected_below(family))
        memory[family->memory_address] = family->byte;
    else
        enter(family, BETWEEN);
    step_memory_address(family);
}

static void take_register_address(struct family *family)
{
    if (family->byte >= FLAGS && family->byte <= LAST_REGISTER)
        family->register_address = family->byte;
    else
        enter(family, BETWEEN);
}

/* The eighth clock of a byte that is received. A transfer that is ended here is not acknowledged. */
static void take_byte(struct family *family, uint8_t *memory)
{
    switch (family->phase) {
    case SLAVE_BYTE:
        if (phase_named_by(family, family->byte) == BETWEEN)
            enter(family, BETWEEN);
        break;
    case SECOND_ADDRESS:
        family->memory_address = (family->first_address_byte * 256u + family->byte) % family->size;
        break;
    case REGISTER_ADDRESS: take_register_address(family); break;
    case TO_MEMORY: store_in_memory(family, memory); break;
    case TO_REGISTERS:
        write_register(family, family->byte);
        step_register_address(family);
        break;
    default: break;
    }
}

/* The ninth clock of a byte that was received: the device pulls it low and goes on. */
static void acknowledge(struct family *family)
{
    uint8_t byte = family->byte;
    switch (family->phase) {
    case SLAVE_BYTE: enter(family, phase_named_by(family, byte)); break;
    case FIRST_ADDRESS:
        enter(family, SECOND_ADDRESS);
        family->first_address_byte = byte;
        break;
    case SECOND_ADDRESS: enter(family, TO_MEMORY); break;
    case REGISTER_ADDRESS: enter(family, TO_REGISTERS); break;
    default: enter(family, family->phase); break;
    }
}

static unsigned receive(struct family *family, uint8_t *memory, unsigned high)
{
    if (family->clocks == 8) {
        acknowledge(family);
        return 0;
    }
    family->byte = (uint8_t)(family->byte * 2u + high);
    family->clocks++;
    if (family->clocks == 8)
        take_byte(family, memory);
    return high;
}

/* The eighth clock of a byte that is sent. RC clears itself once the last of the four counter bytes was read. */
static void finish_sending(struct family *family)
{
    if (family->phase == FROM_MEMORY) {
        step_memory_address(family);
        return;
    }
    if (family->register_address == COUNTERS_END)
        *reg(family, COUNTING) &= (uint8_t)~RC;
    step_register_address(family);
}

static unsigned send(struct family *family, const uint8_t *memory, unsigned high)
{
    if (family->clocks == 8) {
        enter(family, high ? BETWEEN : family->phase);
        return high;
    }
    if (family->clocks == 0)
        family->byte = family->phase == FROM_MEMORY ? memory[family->memory_address] : read_register(family);
    unsigned bit = family->byte >> (7 - family->clocks) & 1u;
    family->clocks++;
    if (family->clocks == 8)
        finish_sending(family);
    return high & bit;
}

static unsigned clock_once(struct family *family, uint8_t *memory, unsigned high)
{
    switch (family->phase) {
    case BETWEEN: return high;
    case FROM_MEMORY:
    case FROM_REGISTERS: return send(family, memory, high);
    default: return receive(family, memory, high);
    }
}

/* ---- supplies */

static void lose_main_power(struct family *family, uint8_t supplies)
{
    enter(family, BETWEEN);
    family->memory_address = 0;
    family->register_address = FLAGS;
    family->supplies = supplies;
}

/* What is battery-backed is lost; 0Ah, 0Bh and the serial number are nonvolatile. */
static void lose_all_supplies(struct family *family)
{
    lose_main_power(family, NO_SUPPLY);
    *reg(family, FLAGS) = POR | LB;
    *reg(family, COUNTING) = 0;
    memset(reg(family, COUNTERS), 0, COUNTER_BYTES);
    memset(family->snapshot, 0, COUNTER_BYTES);
}

static void regain_main_power(struct family *family)
{
    if (family->supplies == BACKUP_ALONE)
        *reg(family, FLAGS) |= POR;
    family->supplies = MAIN_POWER;
}

/* ---- events and the image */

/* One event; the answer is the line alone. */
static uint8_t one_event(struct family *family, uint8_t *memory, uint8_t event)
{
    int powered = family->supplies == MAIN_POWER;
    if (event == CLOCK_LOW || event == CLOCK_HIGH)
        return (uint8_t)clock_once(family, memory, event == CLOCK_HIGH);
    if (event == START && powered)
        enter(family, SLAVE_BYTE);
    if (event == STOP)
        enter(family, BETWEEN);
    if (event == LOST_WITH_BACKUP && powered)
        lose_main_power(family, BACKUP_ALONE);
    if (event == LOST_WITHOUT_BACKUP && family->supplies != NO_SUPPLY)
        lose_all_supplies(family);
    if (event == RETURNED)
        regain_main_power(family);
    if (event == EDGE_1 || event == EDGE_2)
        edge(family, event == EDGE_2);
    return 1;
}

static struct family read_image(unsigned size, unsigned select, const uint8_t *image)
{
    struct family family = {.size = size,
                            .select = select,
                            .register_address = image[22],
                            .memory_address = image[23] * 256u + image[24],
                            .supplies = image[25],
                            .phase = image[26],
                            .clocks = image[27],
                            .byte = image[28],
                            .first_address_byte = image[29]};
    memcpy(family.registers, image, REGISTERS);
    memcpy(family.snapshot, &image[REGISTERS], COUNTER_BYTES);
    return family;
}

static void write_image(const struct family *family, uint8_t *image)
{
    static const uint8_t mark[3] = {0x31, 0xCC, 0x01};
    memset(image, 0, IMAGE);
    memcpy(image, family->registers, REGISTERS);
    memcpy(&image[REGISTERS], family->snapshot, COUNTER_BYTES);
    image[22] = family->register_address;
    image[23] = (uint8_t)(family->memory_address >> 8);
    image[24] = family->memory_address & 0xFF;
    image[25] = family->supplies;
    image[26] = family->phase;
    image[27] = family->clocks;
    image[28] = family->byte;
    image[29] = family->first_address_byte;
    memcpy(&image[61], mark, sizeof mark);
}

void family_run(unsigned size, unsigned select, uint8_t *image, uint8_t *memory, const uint8_t *events, size_t count,
                uint8_t *answers)
{
    struct family family = read_image(size, select, image);
    for (size_t i = 0; i < count; i++)
        answers[i] = one_event(&family, memory, events[i]);
    write_image(&family, image);
}
