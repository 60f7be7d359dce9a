/* SPDX-License-Identifier: Apache-2.0 */
/*
 * A full proving session: power up, the clock set, a lamp bit proved, power lost and returned, what
 * is left of it all, and a lamp that goes dark as the bus falls silent. Then the hang of the
 * minutes: a write that is cut, the old bit that lights the lamp again, and the firmware's duty.
 * scripts/proving-session.bus has the same events.
 */
#include "session.h"

#include "files.h"

/* Where the lamp's byte lies. */
enum { LAMP = FM3130_LAMP_ADDRESS };

static void add(struct session *session, uint8_t event) {
    if (session->count == SESSION_ROOM) {
        fail(EXIT_SESSION, "the session has more than %d events", SESSION_ROOM);
    }
    session->events[session->count++] = event;
}

/* So many clocks of a byte, high bit first. */
static void add_clocks(struct session *session, unsigned byte, unsigned clocks) {
    for (unsigned i = 0; i < clocks; i++) {
        add(session, byte << i & 0x80 ? FM3130_CLOCK_HIGH : FM3130_CLOCK_LOW);
    }
}

/* A Start, and bytes that the master writes; at each ninth clock it releases the line. */
static void add_written(struct session *session, const uint8_t *bytes, size_t count) {
    add(session, FM3130_START);
    for (size_t i = 0; i < count; i++) {
        add_clocks(session, bytes[i], 8);
        add(session, FM3130_CLOCK_HIGH);
    }
}

/* A whole write of registers: the bytes between a Start and a Stop. */
static void add_write_registers(struct session *session, const uint8_t *bytes, size_t count) {
    add_written(session, bytes, count);
    add(session, FM3130_STOP);
}

/* Reads registers from an address on: a repeated Start, and the last byte is not acknowledged. */
static void add_read_registers(struct session *session, uint8_t address, unsigned count) {
    static const uint8_t slave = 0xD1;
    const uint8_t pointer[] = {0xD0, address};
    add_written(session, pointer, sizeof pointer);
    add_written(session, &slave, 1);
    for (unsigned i = 1; i <= count; i++) {
        add_clocks(session, 0xFF, 8);
        add(session, i < count ? FM3130_CLOCK_LOW : FM3130_CLOCK_HIGH);
    }
    add(session, FM3130_STOP);
}

/* The memory is the master's side of the archive: its events stand behind those so far. */
static void add_filled(struct session *session, struct fm3130_filled filled) {
    if (filled.number != FM3130_MASTER_OK) {
        fail(EXIT_SESSION, "the master's side refuses a transaction (number %d)",
             (int)filled.number);
    }
    session->count += filled.count;
}

/* Writes the lamp's byte. */
static void add_write_lamp(struct session *session, uint8_t byte) {
    add_filled(session, fm3130_write_events(LAMP, &byte, 1, session->events + session->count,
                                            SESSION_ROOM - session->count));
}

/* Reads the lamp's byte. */
static void add_read_lamp(struct session *session) {
    add_filled(session, fm3130_read_events(LAMP, 1, session->events + session->count,
                                           SESSION_ROOM - session->count));
}

/* The same, cut short: five clocks of the lamp's byte are done. */
static void add_cut_write(struct session *session, uint8_t byte) {
    add_write_lamp(session, byte);
    session->count -= 5; /* its last three clocks, the acknowledge and the Stop */
}

static void add_cut_read(struct session *session) {
    add_read_lamp(session);
    session->count -= 5;
}

static void add_ticks(struct session *session, unsigned count) {
    for (unsigned i = 0; i < count; i++) {
        add(session, FM3130_TICK);
    }
}

static void power_up(struct session *session) {
    add(session, FM3130_POWER_LOST_WITHOUT_BACKUP);
    add(session, FM3130_POWER_RETURNED);
    add_read_registers(session, 0x00, 1);
}

static void set_clock(struct session *session) {
    static const uint8_t run[] = {0xD0, 0x01, 0x00};
    static const uint8_t open[] = {0xD0, 0x00, 0x02};
    static const uint8_t time[] = {0xD0, 0x02, 0x58, 0x59, 0x08, 0x07, 0x15, 0x11, 0x26};
    static const uint8_t close[] = {0xD0, 0x00, 0x00};
    add_write_registers(session, run, sizeof run);
    add_write_registers(session, open, sizeof open);
    add_write_registers(session, time, sizeof time);
    add_write_registers(session, close, sizeof close);
    add_ticks(session, 3);
    add_read_registers(session, 0x02, 3);
}

/* Writes the lamp's byte and reads it back. */
static void write_and_read(struct session *session, uint8_t byte) {
    add_write_lamp(session, byte);
    add_read_lamp(session);
}

static void prove_lamp(struct session *session) {
    write_and_read(session, 0x01);
}

/* Power goes inside the next read of the lamp. */
static void lose_power(struct session *session) {
    add_cut_read(session);
    add(session, FM3130_POWER_LOST_WITH_BACKUP);
    add_ticks(session, 3);
    add(session, FM3130_POWER_RETURNED);
    add_read_registers(session, 0x00, 1);
}

static void look_again(struct session *session) {
    add_read_registers(session, 0x02, 3);
    add_read_lamp(session);
}

static void fall_silent(struct session *session) {
    add_ticks(session, 3);
}

/* The lamp is read as lit; then it goes out, and the byte that says so is cut. */
static void hang(struct session *session) {
    add_read_lamp(session);
    add_cut_write(session, 0x00);
    add_ticks(session, 2);
}

static void free_bus(struct session *session) {
    add(session, FM3130_STOP);
}

static void do_duty(struct session *session) {
    write_and_read(session, 0x00);
}

/*
 * A step: what it is, its events, the last byte it must read (or -1), the report of the lamps after
 * it, and what that says.
 */
struct step {
    const char *title;
    void (*events)(struct session *session);
    int read;
    uint8_t report;
    const char *outcome;
};

static const struct step steps[SESSION_STEPS] = {
    {"Power up, with no supply before", power_up, 0x90, 0,
     "LB and POR are 1: the registers were lost"},
    {"Set the clock to 08:59:58 on 15/11/26, day 7, and wait three seconds", set_clock, 0x09, 0,
     "it is nine o'clock"},
    {"Prove a lamp bit: write 01h at 1000h and read it back", prove_lamp, 0x01, 1,
     "01h came back with all its clocks and its Stop: the lamp is lit"},
    {"Main power is lost inside a read, the backup holds for three seconds, power returns",
     lose_power, 0x10, 0, "POR is 1: power was lost, and LB is 0: the backup was there"},
    {"What is left: the clock and the lamp bit", look_again, 0x01, 1,
     "the clock ran on, and the proved bit stands"},
    {"Three seconds without a new whole read", fall_silent, -1, 0,
     "the lamp is shown dark, though the memory holds 01h"},
    {"The hang of the minutes: the lamp goes out, and the bus hangs inside the byte 00h for it",
     hang, 0x01, 1, "nothing is stored before the eighth clock: the old bit stays"},
    {"A Stop frees the bus", free_bus, -1, 0,
     "a byte was cut: the bus failed, and all lamps are dark at once"},
    {"The firmware takes its write for done, and reads the lamp", add_read_lamp, 0x01, 1,
     "the lamp is lit again, by the old bit: lit says what was read, not what was to be written"},
    {"The firmware's duty after a failure: write again, read back", do_duty, 0x00, 0,
     "00h is acknowledged, stored and read back: the lamp is dark by its own bit"},
};

void session_list(struct session *session) {
    session->count = 0;
    for (size_t i = 0; i < SESSION_STEPS; i++) {
        steps[i].events(session);
        session->ends[i] = session->count;
    }
}

int session_tell(const struct session *session, struct story *story, uint8_t *answers) {
    size_t from = 0;
    int all_hold = 1;
    for (size_t i = 0; i < SESSION_STEPS; i++) {
        const struct step *step = &steps[i];
        fprintf(story->out, "%s%zu. %s\n", i == 0 ? "" : "\n", i + 1, step->title);
        story->last_read = -1;
        story_go_on(story, session->events + from, session->ends[i] - from, answers + from);
        story_pause(story);
        lamps_print(story->out, &story->lamps);
        int holds = story->last_read == step->read && story->lamps.report == step->report;
        fprintf(story->out, "=> %s\n", holds ? step->outcome : "NOT AS IT MUST BE");
        all_hold = all_hold && holds;
        from = session->ends[i];
    }
    return all_hold;
}
