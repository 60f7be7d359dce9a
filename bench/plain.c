/* SPDX-License-Identifier: Apache-2.0 */
#include "plain.h"

#include <string.h>

enum { POWER_ON, POWER_BACKUP, POWER_GONE };

enum {
    IDLE,
    SLAVE,
    ADDRESS_HIGH,
    ADDRESS_LOW,
    POINTER,
    WRITE_MEMORY,
    WRITE_COMPANION,
    READ_MEMORY,
    READ_COMPANION
};

enum { START, STOP, CLOCK_LOW, CLOCK_HIGH, TICK, LOST_WITH_BACKUP, LOST_WITHOUT_BACKUP, RETURNED };

enum { LB = 0x80, AF = 0x40, CF = 0x20, POR = 0x10, AEN = 0x08, CAL = 0x04, W = 0x02, R = 0x01 };
enum { OSCEN = 0x80, TRIM_BITS = 0x3F, MATCH = 0x80, ALSW = 0x80 };
enum { CONTROL = 0, TRIM = 1, TIME = 2, ALARM = 9, SETUP = 14 };
enum { SECONDS, MINUTES, HOURS, DAY, DATE, MONTH, YEAR };

static const uint8_t stored_bits[PLAIN_REGISTERS] = {0xFF, 0xBF, 0x7F, 0x7F, 0x3F, 0x07, 0x3F, 0x1F,
                                                     0xFF, 0xFF, 0xFF, 0xBF, 0xBF, 0x9F, 0xFF};
static const uint16_t protected_below[4] = {0, 0x0800, 0x1000, 0x2000};
static const uint8_t month_lengths[13] = {0, 31, 28, 31, 30, 31, 30, 31, 31, 30, 31, 30, 31};

/* ---- the pin */

static uint8_t pin_function(const struct plain_device *device)
{
    uint8_t control = device->registers[CONTROL];
    if (device->power == POWER_GONE)
        return 0;
    if (control & CAL)
        return 3;
    if (!(device->registers[SETUP] & ALSW))
        return 2;
    return control & AEN ? 1 : 0;
}

static void renew_pin(struct plain_device *device)
{
    uint8_t function = pin_function(device);
    int rings = function == 1 && device->registers[CONTROL] & AF;
    device->pin = (uint8_t)(function << 1 | (rings ? 8 : 0));
}

/* ---- the calendar */

static unsigned number_of(uint8_t bcd) { return (bcd >> 4) * 10u + (bcd & 15u); }

static int is_number_between(uint8_t bcd, unsigned low, unsigned top)
{
    unsigned number = number_of(bcd);
    return (bcd & 15) <= 9 && number >= low && number <= top;
}

static unsigned month_length(const uint8_t *core)
{
    unsigned month = number_of(core[MONTH]);
    if (month > 12)
        return 0;
    return month == 2 && number_of(core[YEAR]) % 4 == 0 ? 29 : month_lengths[month];
}

static int is_valid(const uint8_t *core)
{
    return is_number_between(core[SECONDS], 0, 59) && is_number_between(core[MINUTES], 0, 59) &&
           is_number_between(core[HOURS], 0, 23) && core[DAY] >= 1 && core[DAY] <= 7 &&
           is_number_between(core[MONTH], 1, 12) && is_number_between(core[YEAR], 0, 99) &&
           is_number_between(core[DATE], 1, month_length(core));
}

/* One more, in two decimal digits; 9 and 7 more make the next ten. */
static uint8_t one_more(uint8_t bcd) { return (uint8_t)(bcd + ((bcd & 15) == 9 ? 7 : 1)); }

/* A field one up, or back at `low` after `top`; whether it carries. */
static int carries(uint8_t *field, unsigned low, unsigned top)
{
    if (number_of(*field) == top) {
        *field = (uint8_t)low;
        return 1;
    }
    *field = one_more(*field);
    return 0;
}

/* The next second of a valid core; whether year 99 gave way to 00. */
static int next_second(uint8_t *core)
{
    unsigned length;
    if (!carries(&core[SECONDS], 0, 59) || !carries(&core[MINUTES], 0, 59) || !carries(&core[HOURS], 0, 23))
        return 0;
    length = month_length(core);
    carries(&core[DAY], 1, 7);
    return carries(&core[DATE], 1, length) && carries(&core[MONTH], 1, 12) && carries(&core[YEAR], 0, 99);
}

static int agrees(uint8_t alarm, uint8_t field) { return alarm & MATCH || alarm == field; }

static int alarm_matches(const uint8_t *alarm, const uint8_t *core)
{
    return agrees(alarm[0], core[SECONDS]) && agrees(alarm[1], core[MINUTES]) && agrees(alarm[2], core[HOURS]) &&
           agrees(alarm[3], core[DATE]) && agrees(alarm[4], core[MONTH]);
}

static void time_takes_core(struct plain_device *device) { memcpy(&device->registers[TIME], device->core, PLAIN_CORE); }

static void tick(struct plain_device *device)
{
    uint8_t *control = &device->registers[CONTROL];
    if (device->power == POWER_GONE || device->registers[TRIM] & OSCEN)
        return;
    if (is_valid(device->core)) {
        if (next_second(device->core))
            *control |= CF;
        if (alarm_matches(&device->registers[ALARM], device->core)) {
            *control |= AF;
            renew_pin(device);
        }
    }
    if (!(*control & (W | R)))
        time_takes_core(device);
}

/* ---- bytes that are written to the companion */

static void write_control(struct plain_device *device, uint8_t byte)
{
    uint8_t old = device->registers[CONTROL];
    uint8_t kept = (old & byte & (LB | POR)) | (old & (AF | CF));
    device->registers[CONTROL] = kept | (byte & (AEN | CAL | W | R));
    if (old & W && !(byte & W))
        memcpy(device->core, &device->registers[TIME], PLAIN_CORE);
    if ((!(old & R) && byte & R) || !(byte & (W | R)))
        time_takes_core(device);
    renew_pin(device);
}

/* A write of 00h in which W falls while 02h to 08h are no calendar. */
static int loads_no_date(const struct plain_device *device, uint8_t byte)
{
    return device->companion_address == CONTROL && device->registers[CONTROL] & W && !(byte & W) &&
           !is_valid(&device->registers[TIME]);
}

static void write_register(struct plain_device *device, uint8_t byte)
{
    uint8_t address = device->companion_address;
    uint8_t *registers = device->registers;
    if (address == CONTROL) {
        write_control(device, byte);
    } else if (address == TRIM) {
        uint8_t kept = registers[CONTROL] & CAL ? byte : registers[TRIM];
        registers[TRIM] = (uint8_t)((byte & OSCEN) | (kept & TRIM_BITS));
    } else if (address >= ALARM || registers[CONTROL] & W) {
        registers[address] = byte & stored_bits[address];
        if (address == SETUP)
            renew_pin(device);
    }
}

static void step_companion_address(struct plain_device *device)
{
    device->companion_address = device->companion_address == SETUP ? 0 : device->companion_address + 1;
}

static void step_memory_address(struct plain_device *device)
{
    device->memory_address = (device->memory_address + 1) & (PLAIN_MEMORY - 1);
}

/* ---- bytes that are received */

static void begin_byte(struct plain_device *device, uint8_t phase)
{
    device->phase = phase;
    device->clocks = 0;
    device->byte = 0;
    device->first_address_byte = 0;
}

static uint8_t phase_after_slave_byte(uint8_t byte)
{
    switch (byte) {
    case 0xA0: return ADDRESS_HIGH;
    case 0xA1: return READ_MEMORY;
    case 0xD0: return POINTER;
    case 0xD1: return READ_COMPANION;
    default: return IDLE;
    }
}

static void put_into_memory(struct plain_device *device, uint8_t *memory, uint8_t byte)
{
    if (device->memory_address < protected_below[device->registers[SETUP] >> 3 & 3])
        begin_byte(device, IDLE);
    else
        memory[device->memory_address] = byte;
    step_memory_address(device);
}

/* The eighth clock: the byte is whole and acts. What is not acknowledged ends the transfer here. */
static void take_byte(struct plain_device *device, uint8_t *memory)
{
    uint8_t byte = device->byte;
    switch (device->phase) {
    case SLAVE:
        if (phase_after_slave_byte(byte) == IDLE)
            begin_byte(device, IDLE);
        break;
    case ADDRESS_LOW:
        device->memory_address = (uint16_t)(device->first_address_byte << 8 | byte) & (PLAIN_MEMORY - 1);
        break;
    case POINTER:
        if (byte > SETUP)
            begin_byte(device, IDLE);
        else
            device->companion_address = byte;
        break;
    case WRITE_MEMORY:
        put_into_memory(device, memory, byte);
        break;
    case WRITE_COMPANION:
        if (loads_no_date(device, byte))
            begin_byte(device, IDLE);
        else
            write_register(device, byte);
        step_companion_address(device);
        break;
    default:
        break;
    }
}

/* The ninth clock of a byte that is acknowledged: what comes next. */
static void acknowledge(struct plain_device *device)
{
    uint8_t byte = device->byte;
    switch (device->phase) {
    case SLAVE:
        begin_byte(device, phase_after_slave_byte(byte));
        break;
    case ADDRESS_HIGH:
        begin_byte(device, ADDRESS_LOW);
        device->first_address_byte = byte;
        break;
    case ADDRESS_LOW:
        begin_byte(device, WRITE_MEMORY);
        break;
    case POINTER:
        begin_byte(device, WRITE_COMPANION);
        break;
    default:
        begin_byte(device, device->phase);
        break;
    }
}

static unsigned clock_received(struct plain_device *device, uint8_t *memory, unsigned high)
{
    if (device->clocks == 8) {
        acknowledge(device);
        return 0;
    }
    device->byte = (uint8_t)((unsigned)device->byte << 1 | high);
    device->clocks++;
    if (device->clocks == 8)
        take_byte(device, memory);
    return high;
}

/* ---- bytes that are sent */

static void finish_read(struct plain_device *device)
{
    if (device->phase == READ_MEMORY) {
        step_memory_address(device);
        return;
    }
    if (device->companion_address == CONTROL) {
        device->registers[CONTROL] &= (uint8_t) ~(device->byte & (AF | CF));
        renew_pin(device);
    }
    step_companion_address(device);
}

static uint8_t byte_to_send(const struct plain_device *device, const uint8_t *memory)
{
    return device->phase == READ_MEMORY ? memory[device->memory_address] : device->registers[device->companion_address];
}

static unsigned clock_sent(struct plain_device *device, const uint8_t *memory, unsigned high)
{
    unsigned bit;
    if (device->clocks == 8) {
        begin_byte(device, high ? IDLE : device->phase);
        return high;
    }
    if (device->clocks == 0)
        device->byte = byte_to_send(device, memory);
    bit = device->byte >> (7 - device->clocks) & 1u;
    device->clocks++;
    if (device->clocks == 8)
        finish_read(device);
    return high & bit;
}

/* ---- events */

static unsigned clock_event(struct plain_device *device, uint8_t *memory, unsigned high)
{
    switch (device->phase) {
    case IDLE: return high;
    case READ_MEMORY:
    case READ_COMPANION: return clock_sent(device, memory, high);
    default: return clock_received(device, memory, high);
    }
}

static void lose_transfer(struct plain_device *device)
{
    begin_byte(device, IDLE);
    device->memory_address = 0;
    device->companion_address = 0;
}

static void lose_all_supplies(struct plain_device *device)
{
    static const uint8_t registers[PLAIN_REGISTERS] = {LB | POR, OSCEN, 0, 0, 0, 1, 1, 1};
    lose_transfer(device);
    device->power = POWER_GONE;
    memcpy(device->registers, registers, PLAIN_REGISTERS);
    memcpy(device->core, &registers[TIME], PLAIN_CORE);
    renew_pin(device);
}

static void return_power(struct plain_device *device)
{
    if (device->power == POWER_BACKUP)
        device->registers[CONTROL] |= POR;
    device->power = POWER_ON;
    renew_pin(device);
}

static uint8_t one_event(struct plain_device *device, uint8_t *memory, uint8_t event)
{
    unsigned line = 1;
    switch (event) {
    case START:
        if (device->power == POWER_ON)
            begin_byte(device, SLAVE);
        break;
    case STOP:
        begin_byte(device, IDLE);
        break;
    case CLOCK_LOW:
    case CLOCK_HIGH:
        line = clock_event(device, memory, event & 1u);
        break;
    case TICK:
        tick(device);
        break;
    case LOST_WITH_BACKUP:
        if (device->power == POWER_ON) {
            lose_transfer(device);
            device->power = POWER_BACKUP;
        }
        break;
    case LOST_WITHOUT_BACKUP:
        if (device->power != POWER_GONE)
            lose_all_supplies(device);
        break;
    default:
        return_power(device);
        break;
    }
    return (uint8_t)(device->pin | line);
}

void plain_events(struct plain_device *device, uint8_t *memory, const uint8_t *events, size_t count, uint8_t *answers)
{
    for (size_t i = 0; i < count; i++)
        answers[i] = one_event(device, memory, events[i]);
}

/* ---- the image */

void plain_read_image(struct plain_device *device, const uint8_t *image)
{
    memcpy(device->registers, image, PLAIN_REGISTERS);
    memcpy(device->core, &image[15], PLAIN_CORE);
    device->companion_address = image[22];
    device->memory_address = (uint16_t)(image[23] << 8 | image[24]);
    device->power = image[25];
    device->phase = image[26];
    device->clocks = image[27];
    device->byte = image[28];
    device->first_address_byte = image[29];
    renew_pin(device);
}

void plain_write_image(const struct plain_device *device, uint8_t *image)
{
    static const uint8_t mark[3] = {0x31, 0x30, 0x01};
    memset(image, 0, PLAIN_IMAGE);
    memcpy(image, device->registers, PLAIN_REGISTERS);
    memcpy(&image[15], device->core, PLAIN_CORE);
    image[22] = device->companion_address;
    image[23] = (uint8_t)(device->memory_address >> 8);
    image[24] = (uint8_t)device->memory_address;
    image[25] = device->power;
    image[26] = device->phase;
    image[27] = device->clocks;
    image[28] = device->byte;
    image[29] = device->first_address_byte;
    memcpy(&image[61], mark, sizeof mark);
}

void plain_run(uint8_t *image, uint8_t *memory, const uint8_t *events, size_t count, uint8_t *answers)
{
    struct plain_device device;
    plain_read_image(&device, image);
    plain_events(&device, memory, events, count, answers);
    plain_write_image(&device, image);
}

/* ---- the same, with the tests that the proved program makes */

/* Bits that are 0 in bytes 0 to 23 of every image. */
static const uint8_t fixed_bits[24] = {0x00, 0x40, 0x80, 0x80, 0xC0, 0xF8, 0xC0, 0xE0, 0x00, 0x00, 0x00, 0x40,
                                       0x40, 0x60, 0x00, 0x80, 0x80, 0xC0, 0xF8, 0xC0, 0xE0, 0x00, 0xF0, 0xE0};

/* Bytes 30 to 63 of every image. */
static const uint8_t image_end[34] = {[31] = 0x31, [32] = 0x30, [33] = 0x01};

/* Whether eight bytes have one of the bits of eight others. */
static int have_any(const uint8_t *bytes, const uint8_t *bits)
{
    uint64_t left, right;
    memcpy(&left, bytes, sizeof left);
    memcpy(&right, bits, sizeof right);
    return (left & right) != 0;
}

/* Whether bytes 26 to 29 are those of a transfer under way. */
static int is_transfer(uint8_t phase, uint8_t clocks, uint8_t byte, uint8_t first)
{
    if (phase > READ_COMPANION || clocks > 8 || (first && phase != ADDRESS_LOW))
        return 0;
    if (phase >= READ_MEMORY)
        return clocks || !byte;
    if (clocks < 8)
        return byte >> clocks == 0;
    if (phase == SLAVE)
        return phase_after_slave_byte(byte) != IDLE;
    return phase != POINTER || byte <= SETUP;
}

static int is_image(const uint8_t *image)
{
    if (have_any(image, fixed_bits) || have_any(&image[8], &fixed_bits[8]) || have_any(&image[16], &fixed_bits[16]))
        return 0;
    if (image[22] > SETUP || memcmp(&image[30], image_end, sizeof image_end))
        return 0;
    if (image[26] == IDLE)
        return image[25] <= POWER_GONE && !(image[27] | image[28] | image[29]);
    return image[25] == POWER_ON && is_transfer(image[26], image[27], image[28], image[29]);
}

/* Whether every event is one of the eight. */
static int are_known(const uint8_t *events, size_t count)
{
    uint8_t bits = 0;
    for (size_t i = 0; i < count; i++)
        bits |= events[i];
    return bits <= RETURNED;
}

unsigned plain_run_tested(uint8_t *image, size_t image_length, uint8_t *memory, size_t memory_length,
                          const uint8_t *events, size_t count, uint8_t *answers, size_t room)
{
    if (memory_length != PLAIN_MEMORY)
        return 1;
    if (image_length != PLAIN_IMAGE || !is_image(image))
        return 2;
    if (!are_known(events, count))
        return 3;
    if (room < count)
        return 4;
    plain_run(image, memory, events, count, answers);
    return 0;
}
