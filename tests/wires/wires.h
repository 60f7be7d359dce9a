/* SPDX-License-Identifier: Apache-2.0 */
/*
 * Two wires with a resistor each, a bit-banging master that knows only levels, and firmware/pins.c
 * or firmware/levels.c at the other end (device.h). It runs on this machine (tests/c/pins.c,
 * tests/levels) and on emulated controllers (tests/controller/wires.c).
 *
 * Beside it goes a reference: another image, on which the events that the levels mean are done one
 * by one. The line of every Clock and, after every transfer, the image must be the reference's; and
 * what the master reads must be what it expects by itself.
 */
#ifndef WIRES_H
#define WIRES_H

#include <stdint.h>

#include "device.h"

/* By the program: says what differs and ends it. */
void wires_differ(const char *what, uint32_t is, uint32_t must_be);

/* Two numbers that must be equal. */
void must_equal(const char *what, uint32_t is, uint32_t must_be);

/* How much was played. */
struct played {
    uint32_t sessions, clocks, bytes, events;
};
extern struct played played;

/* ---- wires.c: the wires, the device on them, the reference */

/* How the master's changes meet the device's looks. */
enum pace {
    AFTER_EACH, /* the device looks after each change, sometimes more than once */
    RACING      /* a change comes between two readings of one look */
};

/* No tick comes by itself. */
#define NEVER 0xFFFFFFFFu

/*
 * Both wires released, a fresh device with a memory of zeros, and a tick that comes at this place.
 */
void wires_begin(enum pace pace, uint32_t tick_at);

/* The master pulls a wire (0) or releases it (1), and the device looks. */
void set_scl(uint8_t level);
void set_sda(uint8_t level);
uint8_t sda_level(void);

/* The same, but the device has not looked yet: the change comes at its n-th reading. */
void set_scl_at(uint8_t level, unsigned reading);

/* Both wires by then, SDA turned while SCL was low: the master has gone on to another bit. */
void set_both_at(uint8_t scl, uint8_t sda, unsigned reading);

/* A number from 0 to a mask of low bits, the same in each run. */
uint32_t chance(uint32_t mask);

/* A place where the tick may come; returns how many there were since wires_begin. */
uint32_t place(void);

/* A tick or power event comes due now. The reference does it at the end of an open pulse. */
void due(uint8_t event);

/* What the levels meant: an event 0 to 3 and, for a Clock, the line that the master saw. */
void meant(uint8_t event, uint8_t line);

/* The image is the reference's, and the device is on the bus. */
void check_device(void);

/* The ticks of this session when the last Clock was done; those that waited for it not counted. */
uint32_t ticks_at_clock(void);

/* The device as the wires have it. */
struct pins *device(void);
uint8_t *device_image(void);
uint8_t *device_memory(void);

/* From now on the device may leave the bus, and so release SDA while SCL is high. */
void may_leave(void);

/* ---- master.c: a bit-banging master */

void master_starts(void);
void master_stops(void);

/* One pulse with the master's level; returns the wire's level while SCL is high. */
uint8_t master_clocks(uint8_t level);

/* So many clocks of a byte, high bit first, and no more. */
void master_hangs(uint8_t byte, unsigned clocks);

/*
 * Clocks until the device lets go of SDA. One that was left inside a read may pull it, and then no
 * Start can be made: the wire is low already.
 */
void master_recovers(void);

/* A byte to the device. Returns 1 if it is acknowledged. */
uint8_t master_sends(uint8_t byte);

/* A byte from the device; `more` asks for another after it. */
uint8_t master_reads(uint8_t more);

/*
 * The ticks of this session when the last byte was fixed or stored: at its first or eighth clock.
 */
uint32_t ticks_at_byte(void);

/* ---- sessions.c */

/* The proving session with a tick at every n-th place of it, in both paces. */
void play_session(uint32_t stride);

/*
 * The turn of a year, where a tick changes the byte that is read, with a tick at every n-th
 * place.
 */
void play_turn_of_year(uint32_t stride);

/*
 * Every pulse of a byte with up to four ticks in it, after which SCL falls or the master gives up.
 */
void play_hangs(void);

/*
 * Begins a transfer of one kind or another and then turns the wires at random, with ticks and power
 * events between, so many times: a master that has gone mad, and the device still does what the
 * levels mean.
 */
void play_noise(uint32_t times);

/* What makes the device leave the bus: refusals, and a controller that is too slow. */
void play_leavings(void);

#endif
