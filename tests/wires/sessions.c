/* SPDX-License-Identifier: Apache-2.0 */
/*
 * What is played on the wires: a proving session with a tick at each of its places, the turn of a
 * year in which a tick changes the byte that is about to be read, pulses in which the master hangs,
 * and what makes the device leave the bus.
 */
#include "fm3130.h"
#include "wires.h"

enum {
    MEMORY_WRITE = 0xA0,
    MEMORY_READ = 0xA1,
    CLOCK_WRITE = 0xD0,
    CLOCK_READ = 0xD1,
    LAMP = 0x10, /* the address's high byte of the lamps, 1000h */
    PHASE_AT = 26,
    SLAVE_BYTE = 1,
    CLOCKS_AT = 27,
    MARK_AT = 63
};

/* ---- whole transfers, as a master makes them */

static void send(const char *what, uint8_t byte) {
    must_equal(what, master_sends(byte), 1);
}

static void begin_memory(uint8_t high, uint8_t low) {
    master_starts();
    send("the memory's slave byte", MEMORY_WRITE);
    send("an address byte", high);
    send("an address byte", low);
}

static void begin_clock(uint8_t address) {
    master_starts();
    send("the clock's slave byte", CLOCK_WRITE);
    send("a register's address", address);
}

static void end(void) {
    master_stops();
    check_device();
}

/* Returns 1 if the byte is acknowledged. */
static uint8_t write_memory(uint8_t high, uint8_t low, uint8_t byte) {
    begin_memory(high, low);
    uint8_t acknowledged = master_sends(byte);
    end();
    return acknowledged;
}

static uint8_t read_memory(uint8_t high, uint8_t low) {
    begin_memory(high, low);
    master_starts();
    send("the memory's slave byte", MEMORY_READ);
    uint8_t byte = master_reads(0);
    end();
    return byte;
}

static void write_clock(uint8_t address, const uint8_t *bytes, unsigned count) {
    begin_clock(address);
    for (unsigned i = 0; i < count; i++) {
        send("a register's byte", bytes[i]);
    }
    end();
}

static void write_register(uint8_t address, uint8_t byte) {
    write_clock(address, &byte, 1);
}

/* ---- the time that the master expects */

enum { SECONDS, MINUTES, HOURS, DAY, DATE, MONTH, YEAR, FIELDS };

/* A time that was set, and the ticks of the session when it was. */
static uint8_t set_time[FIELDS];
static uint32_t set_at;

static uint8_t bcd(uint8_t number) {
    uint8_t tens = 0;
    while (number >= 10) {
        number = (uint8_t)(number - 10);
        tens = (uint8_t)(tens + 16);
    }
    return (uint8_t)(tens + number);
}

/* The next second. The only midnight that is passed here ends a year. */
static void next_second(uint8_t *time) {
    if (++time[SECONDS] < 60) {
        return;
    }
    time[SECONDS] = 0;
    if (++time[MINUTES] < 60) {
        return;
    }
    time[MINUTES] = 0;
    if (++time[HOURS] < 24) {
        return;
    }
    time[HOURS] = 0;
    time[DAY] = time[DAY] == 7 ? 1 : (uint8_t)(time[DAY] + 1);
    time[DATE] = time[MONTH] = 1;
    time[YEAR]++;
}

static uint8_t expected_field(unsigned field) {
    uint8_t time[FIELDS];
    for (unsigned i = 0; i < FIELDS; i++) {
        time[i] = set_time[i];
    }
    for (uint32_t i = set_at; i < ticks_at_byte(); i++) {
        next_second(time);
    }
    return bcd(time[field]);
}

/* Sets W, writes 02h to 08h, and clears W: the time begins at the eighth clock of that byte. */
static void set_clock(const uint8_t *time) {
    uint8_t bytes[FIELDS];
    for (unsigned i = 0; i < FIELDS; i++) {
        set_time[i] = time[i];
        bytes[i] = bcd(time[i]);
    }
    write_register(0, 0x02);
    write_clock(2, bytes, FIELDS);
    begin_clock(0);
    send("the byte that starts the clock", 0x00);
    set_at = ticks_at_byte();
    end();
}

static void check_clock(unsigned first, unsigned count) {
    begin_clock((uint8_t)(2 + first));
    master_starts();
    send("the clock's slave byte", CLOCK_READ);
    for (unsigned i = 0; i < count; i++) {
        uint8_t byte = master_reads(i + 1 < count);
        must_equal("a byte of the time", byte, expected_field(first + i));
    }
    end();
}

/* Register 00h, but for AF, which a tick may set: no alarm is chosen, so it comes every second. */
static uint8_t read_flags(void) {
    begin_clock(0);
    master_starts();
    send("the clock's slave byte", CLOCK_READ);
    uint8_t byte = master_reads(0);
    end();
    return byte & 0xBF;
}

/* ---- the proving session of scripts/proving-session.bus, with what a master reads in it */

static void pass_seconds(unsigned count) {
    for (unsigned i = 0; i < count; i++) {
        due(FM3130_TICK);
    }
}

static void check_refused(void) {
    write_register(0x0E, 0x08); /* 0000h to 07FFh is protected */
    must_equal("a byte for 07FFh", write_memory(0x07, 0xFF, 0x5A), 0);
    must_equal("a byte for 0800h", write_memory(0x08, 0x00, 0xC3), 1);
    must_equal("what stands at 07FFh", read_memory(0x07, 0xFF), 0);
    must_equal("what stands at 0800h", read_memory(0x08, 0x00), 0xC3);
    master_starts();
    must_equal("another part's slave byte", master_sends(0x50), 0);
    master_stops();
    master_starts();
    send("the clock's slave byte", CLOCK_WRITE);
    must_equal("an address above 0Eh", master_sends(0x0F), 0);
    end();
}

/* The master stops inside a read of the lamp's byte. */
static void hang_reading(void) {
    begin_memory(LAMP, 0x00);
    master_starts();
    send("the memory's slave byte", MEMORY_READ);
    master_hangs(0xFF, 5);
}

/* A byte for the lamp is cut: the old bit stays until it is written again. */
static void check_cut_write(void) {
    begin_memory(LAMP, 0x00);
    master_hangs(0x00, 5);
    pass_seconds(2);
    end();
    must_equal("the old bit", read_memory(LAMP, 0x00), 0x01);
    must_equal("the lamp's byte, written again", write_memory(LAMP, 0x00, 0x00), 1);
    must_equal("the new bit", read_memory(LAMP, 0x00), 0x00);
}

/* The way out of a read in which the device pulls SDA. */
static void check_recovery(void) {
    hang_reading();
    pass_seconds(3);
    master_recovers();
    master_starts();
    end();
}

static uint32_t play_proving(enum pace pace, uint32_t tick_at) {
    static const uint8_t morning[FIELDS] = {58, 59, 8, 7, 15, 11, 26};
    wires_begin(pace, tick_at);
    due(FM3130_POWER_LOST_WITHOUT_BACKUP);
    due(FM3130_POWER_RETURNED);
    must_equal("00h after no supply", read_flags(), 0x90);
    write_register(1, 0x00);
    set_clock(morning);
    pass_seconds(3);
    check_clock(SECONDS, 3);
    must_equal("the lamp's byte", write_memory(LAMP, 0x00, 0x01), 1);
    must_equal("the lamp read back", read_memory(LAMP, 0x00), 0x01);
    hang_reading(); /* and power is lost there */
    due(FM3130_POWER_LOST_WITH_BACKUP);
    pass_seconds(3);
    due(FM3130_POWER_RETURNED);
    must_equal("00h after the backup", read_flags(), 0x10);
    check_clock(SECONDS, 3);
    must_equal("the lamp read back", read_memory(LAMP, 0x00), 0x01);
    pass_seconds(3);
    must_equal("the lamp read again", read_memory(LAMP, 0x00), 0x01);
    check_cut_write();
    check_recovery();
    check_refused();
    check_clock(SECONDS, FIELDS);
    return place();
}

/* A tick makes the year 80h of this, which has no bit in common with 79h. */
static const uint8_t last_second[FIELDS] = {59, 59, 23, 1, 31, 12, 79};

static uint32_t play_turn(enum pace pace, uint32_t tick_at) {
    wires_begin(pace, tick_at);
    write_register(1, 0x00);
    set_clock(last_second);
    check_clock(YEAR, 1);
    check_clock(SECONDS, FIELDS);
    return place();
}

typedef uint32_t session(enum pace pace, uint32_t tick_at);

/* The session with a tick at place `first`, and at every n-th from there. */
static void play_at_places(session *play, enum pace pace, uint32_t first, uint32_t stride) {
    uint32_t places = play(pace, NEVER);
    for (uint32_t at = first; at < places; at += stride) {
        play(pace, at);
    }
}

/* ---- the master hangs while SCL is high */

enum ending { FALLS, STARTS, STOPS, ENDINGS };

/* SCL goes up for one more clock of a byte; ticks come; then it falls, or the master gives up. */
static void hang_in_pulse(uint8_t byte, unsigned clocks, unsigned ticks, enum ending ending) {
    master_hangs(byte, clocks);
    uint8_t level = byte >> (7 - clocks) & 1;
    set_sda(ending == STARTS ? 1 : ending == STOPS ? 0 : level);
    set_scl(1);
    uint8_t seen = sda_level();
    pass_seconds(ticks);
    if (ending == FALLS) {
        set_scl(0);
        meant(level ? FM3130_CLOCK_HIGH : FM3130_CLOCK_LOW, seen);
        for (unsigned i = clocks + 1; i < 8; i++) {
            master_clocks(byte >> (7 - i) & 1);
        }
        master_clocks(1);
        master_stops();
    } else if (ending == STARTS) {
        set_sda(0);
        meant(FM3130_START, 1);
        set_scl(0);
        master_stops();
    } else {
        set_sda(1);
        meant(FM3130_STOP, 1);
    }
    check_device();
}

static void begin_hang(void) {
    wires_begin(AFTER_EACH, NEVER);
    write_register(1, 0x00);
    write_memory(LAMP, 0x00, 0x01);
}

/* A byte for the lamp: cut before its fall the old one stands, though it is the eighth. */
static void hang_in_write(unsigned clocks, unsigned ticks, enum ending ending) {
    begin_hang();
    begin_memory(LAMP, 0x00);
    hang_in_pulse(0xFE, clocks, ticks, ending);
    must_equal("the lamp after the hang", read_memory(LAMP, 0x00), ending == FALLS ? 0xFE : 0x01);
}

/* A read of 00h, whose eighth clock clears the flags that it showed. */
static void hang_in_read(unsigned clocks, unsigned ticks, enum ending ending) {
    begin_hang();
    due(FM3130_TICK);
    write_register(0, 0x00);
    begin_clock(0);
    master_starts();
    send("the clock's slave byte", CLOCK_READ);
    hang_in_pulse(0xFF, clocks, ticks, ending);
    read_flags();
}

/*
 * Ticks that find the first clock of the year's byte open: it is the old year, whole, and then the
 * new one.
 */
static void hang_at_turn(unsigned ticks) {
    wires_begin(AFTER_EACH, NEVER);
    write_register(1, 0x00);
    set_clock(last_second);
    begin_clock(8);
    master_starts();
    send("the clock's slave byte", CLOCK_READ);
    set_sda(1);
    set_scl(1);
    uint8_t byte = sda_level();
    pass_seconds(ticks);
    set_scl(0);
    meant(FM3130_CLOCK_HIGH, byte);
    for (unsigned i = 1; i < 8; i++) {
        byte = (uint8_t)(byte << 1 | master_clocks(1));
    }
    must_equal("the year in which the pulse rose", byte, 0x79);
    master_clocks(1);
    end();
    check_clock(YEAR, 1);
}

/*
 * Ticks in the eighth pulse of the byte that starts the clock in the last second of 99, with an
 * alarm that the new year raises: no look has more to do than the one that sees its end.
 */
static void hang_at_century(unsigned ticks) {
    static const uint8_t alarm[] = {0x00, 0x00, 0x00, 0x01, 0x01};
    static const uint8_t time[] = {0x0A, 0x00, 0x59, 0x59, 0x23, 0x07, 0x31, 0x12, 0x99};
    wires_begin(AFTER_EACH, NEVER);
    write_clock(9, alarm, sizeof alarm);
    write_register(1, 0x00);
    write_clock(0, time, sizeof time);
    begin_clock(0);
    hang_in_pulse(0x08, 7, ticks, FALLS);
}

void play_hangs(void) {
    for (unsigned ticks = 0; ticks <= 4; ticks++) {
        hang_at_turn(ticks);
        hang_at_century(ticks);
    }

    for (unsigned clocks = 0; clocks < 8; clocks++) {
        for (unsigned ticks = 0; ticks <= 4; ticks++) {
            for (unsigned ending = 0; ending < ENDINGS; ending++) {
                hang_in_write(clocks, ticks, (enum ending)ending);
            }
            hang_in_read(clocks, ticks, FALLS);
        }
    }
}

/* ---- noise */

/* The wires as the master has them, and whether a pulse that may be a Clock has begun. */
struct noise {
    uint8_t scl, sda, is_open;
};

static void turn_sda(struct noise *noise) {
    uint8_t before = sda_level();
    noise->sda = !noise->sda;
    set_sda(noise->sda);
    if (noise->scl && sda_level() != before) {
        noise->is_open = 0;
        meant(before ? FM3130_START : FM3130_STOP, 1);
    }
}

static void turn_scl(struct noise *noise) {
    uint8_t seen = sda_level();
    noise->scl = !noise->scl;
    set_scl(noise->scl);
    if (!noise->scl && noise->is_open) {
        meant(noise->sda ? FM3130_CLOCK_HIGH : FM3130_CLOCK_LOW, seen);
    }
    noise->is_open = noise->scl;
}

/* Some clocks into a transfer of some kind; SCL and SDA are low. */
static void begin_some(uint32_t kind) {
    master_starts();
    send("a slave byte", kind & 1 ? CLOCK_WRITE : MEMORY_WRITE);
    if (kind & 2) {
        send("an address byte", kind & 1 ? 0x00 : LAMP);
    }
    if (kind & 4) {
        master_starts();
        send("a slave byte", kind & 1 ? CLOCK_READ : MEMORY_READ);
    }
    uint8_t byte = (uint8_t)chance(0xFF);
    master_hangs(byte, chance(7));
    set_sda(0);
}

void play_noise(uint32_t times) {
    for (uint32_t i = 0; i < times; i++) {
        struct noise noise = {0, 0, 0};
        wires_begin(i & 1 ? RACING : AFTER_EACH, NEVER - 1 - i);
        write_register(1, 0x00);
        begin_some(i >> 1);
        for (unsigned turns = 0; turns < 60; turns++) {
            if (chance(1)) {
                turn_scl(&noise);
            } else if (chance(7)) {
                turn_sda(&noise);
            } else {
                due(chance(3) ? FM3130_TICK : (uint8_t)(FM3130_TICK + chance(3)));
            }
        }
        if (noise.scl) {
            turn_scl(&noise);
        }
        check_device();
    }
}

/* ---- what makes the device leave the bus */

/* It has left by this number, and neither wires nor ticks move it until it is begun anew. */
static void check_left(const char *what, unsigned number) {
    uint8_t before[FM3130_IMAGE_BYTES];
    for (unsigned i = 0; i < sizeof before; i++) {
        before[i] = device_image()[i];
    }
    must_equal(what, device()->number, number);
    set_sda(1);
    must_equal("SDA after the device left", sda_level(), 1);
    set_scl(1);
    set_sda(0);
    set_scl(0);
    set_scl(1);
    set_scl(0);
    must_equal("a look after the device left", pins_look(device()), number);
    must_equal("a tick after the device left", pins_due(device(), FM3130_TICK), number);
    for (unsigned i = 0; i < sizeof before; i++) {
        must_equal("a byte of the image after the device left", device_image()[i], before[i]);
    }
}

/* The device pulls SDA, for a bit that is 0 and the next one too, when its image is spoilt. */
static void check_spoilt(void) {
    wires_begin(AFTER_EACH, NEVER);
    begin_memory(LAMP, 0x00);
    master_starts();
    send("the memory's slave byte", MEMORY_READ);
    set_sda(1);
    must_equal("SDA for a bit that is 0", sda_level(), 0);
    set_scl(1);
    device_image()[MARK_AT] ^= 1;
    may_leave();
    set_scl(0);
    check_left("a spoilt image", FM3130_WRONG_STATE);
    must_equal("begun on it", pins_begin(device(), device_image(), device_memory()),
               FM3130_WRONG_STATE);
    must_equal("the answer of a refused begin", device()->answer, FM3130_ANSWER_LINE);
    device_image()[MARK_AT] ^= 1;
    must_equal("begun when mended", pins_begin(device(), device_image(), device_memory()),
               FM3130_OK);
}

static void check_unknown(void) {
    static const uint8_t unknown[] = {0, 3, 8, 255};
    for (unsigned i = 0; i < sizeof unknown; i++) {
        wires_begin(AFTER_EACH, NEVER);
        may_leave();
        must_equal("pins_due", pins_due(device(), unknown[i]), FM3130_UNKNOWN_EVENT);
        check_left("an event that is none of these", FM3130_UNKNOWN_EVENT);
    }
}

/*
 * A tick just before the year is read; the master raises SCL while the device is busy with it, or
 * when it has just turned SDA.
 */
static void check_late_tick(unsigned reading) {
    static const uint8_t century[FIELDS] = {59, 59, 23, 1, 31, 12, 99};
    wires_begin(AFTER_EACH, NEVER);
    write_register(1, 0x00);
    set_clock(century);
    begin_clock(8);
    master_starts();
    send("the clock's slave byte", CLOCK_READ);
    set_sda(1);
    must_equal("SDA for the year 99", sda_level(), 1);
    may_leave();
    set_scl_at(1, reading);
    must_equal("pins_due", pins_due(device(), FM3130_TICK), FM3130_PINS_LATE);
    check_left("a tick that took too long", FM3130_PINS_LATE);
}

/* SCL rose and fell while nobody looked, or nearly so. */
static void check_late_look(void) {
    wires_begin(AFTER_EACH, NEVER);
    master_starts();
    set_sda(1);
    set_scl_at(1, 1);
    may_leave();
    pins_read_scl();
    set_scl_at(0, 3);
    must_equal("pins_look", pins_look(device()), FM3130_PINS_LATE);
    check_left("a pulse that was nearly missed", FM3130_PINS_LATE);
}

/* SCL falls in a look, and a whole pulse with the same level is nearly missed by the next one. */
static void check_late_after_a_fall(void) {
    wires_begin(AFTER_EACH, NEVER);
    master_starts();
    set_sda(1);
    set_scl(1);
    set_scl_at(0, 3);
    must_equal("a look in which SCL falls", pins_look(device()), FM3130_OK);
    set_scl_at(1, 1);
    may_leave();
    pins_read_scl();
    set_scl_at(0, 3);
    must_equal("pins_look", pins_look(device()), FM3130_PINS_LATE);
    check_left("a pulse that was nearly missed after another", FM3130_PINS_LATE);
}

/*
 * Begun again inside a read of a byte that is 0: with SCL low its bit is driven, with SCL high the
 * pulse is not counted.
 */
static void check_begun_again(void) {
    wires_begin(AFTER_EACH, NEVER);
    begin_memory(LAMP, 0x00);
    master_starts();
    send("the memory's slave byte", MEMORY_READ);
    master_hangs(0xFF, 2);
    set_sda(1);
    may_leave();
    must_equal("begun with SCL low", pins_begin(device(), device_image(), device_memory()),
               FM3130_OK);
    must_equal("SDA when begun with SCL low", sda_level(), 0);
    set_scl(1);
    must_equal("begun with SCL high", pins_begin(device(), device_image(), device_memory()),
               FM3130_OK);
    set_scl(0);
    must_equal("the clocks that were counted", device_image()[CLOCKS_AT], 2);
    must_equal("SDA after the fall", sda_level(), 0);
}

/*
 * Begun again inside a slave byte of which two clocks are done, while the master goes on to its next
 * bit at one reading or another: no Start and no Stop comes of it. The first reading is SDA's
 * release, the second is of SCL, and where it is high two more follow; a later change is for a look
 * to see. Only a pulse that was there when SCL was first read is not counted.
 */
static void check_begun_meanwhile(uint8_t scl, uint8_t sda, unsigned reading) {
    wires_begin(AFTER_EACH, NEVER);
    master_starts();
    master_hangs(MEMORY_WRITE, 2);
    set_sda(sda);
    set_scl(scl);
    set_both_at(!scl, !sda, reading);
    must_equal("begun meanwhile", pins_begin(device(), device_image(), device_memory()), FM3130_OK);
    for (unsigned i = scl ? 4 : 2; i < reading; i++) {
        must_equal("a look after the begin", pins_look(device()), FM3130_OK);
    }
    set_scl(scl);
    set_scl(0);
    must_equal("the phase after a begin meanwhile", device_image()[PHASE_AT], SLAVE_BYTE);
    must_equal("the clocks after a begin meanwhile", device_image()[CLOCKS_AT],
               2u + (scl || reading > 2));
}

static void check_all_begun_meanwhile(void) {
    for (unsigned reading = 1; reading <= 6; reading++) {
        for (uint8_t sda = 0; sda < 2; sda++) {
            check_begun_meanwhile(0, sda, reading);
            check_begun_meanwhile(1, sda, reading);
        }
    }
}

/* ---- all of it */

void play_session(uint32_t stride) {
    play_at_places(play_proving, AFTER_EACH, 0, stride);
    play_at_places(play_proving, RACING, 1, stride);
}

void play_turn_of_year(uint32_t stride) {
    play_at_places(play_turn, AFTER_EACH, 0, stride);
    play_at_places(play_turn, RACING, 1, stride);
}

void play_leavings(void) {
    check_spoilt();
    check_unknown();
    check_late_tick(2);
    check_late_tick(4);
    check_late_look();
    check_late_after_a_fall();
    check_begun_again();
    check_all_begun_meanwhile();
}
