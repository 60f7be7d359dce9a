/* SPDX-License-Identifier: Apache-2.0 */
/*
 * fm3130.h: a verified stand-in for the FM3130, for C and C++.
 *
 * The FM3130 is a clock-and-memory chip on a two-wire bus: 8,192 bytes of FRAM, 15 registers, a
 * calendar, an alarm. The stand-in plays one of them at the level of single bus clocks. A host
 * gives it event bytes and gets one answer byte for each. Voltages, edge times, the crystal and
 * trickle charging are left out.
 *
 * A device is two buffers of the caller: an image of 64 bytes (all its state) and a memory of 8,192
 * bytes. They are plain bytes: copy, store and compare them at will, also in the middle of a
 * transfer. The image's first 15 bytes are registers 00h to 0Eh; docs/IMAGE.md has the rest.
 *
 *   fm3130_fresh        makes the image of a fresh device
 *   fm3130_run          does a list of events on a device
 *   fm3130_run_number   the same, for a caller that takes one number
 *   fm3130_step         does one event, and says which field of the calendar it changed
 *   fm3130_line         what the device will do to the line, before a clock rises
 *   fm3130_pins_look    what the levels of SCL and SDA mean; with it go fm3130_pins_begin, _driven,
 *                       _settle and _hand: the device on the two pins of a controller
 *   fm3130_catch_up     does up to a leap year of ticks in one call, for a host that slept
 *   fm3130_lamps        does a list of events, and says which of eight lamps may be shown lit
 *   fm3130_view_number  whether a part of the memory or of the registers can be viewed
 *   fm3130_view         that part itself, never a copy (an inline function, below)
 *   fm3130_mend         puts an old image right that holds an impossible date or time
 *   fm3130_ask          a master asks for the bus, where two masters share a device
 *   fm3130_call         a master's call of the list run
 *
 * Four functions are the other end of the wire. A host that uses them needs to know no clock:
 *
 *   fm3130_write_events  the events of a whole write to the memory, ready for fm3130_run
 *   fm3130_write_told    from the answers: which data bytes were acknowledged
 *   fm3130_read_events   the events of a whole read from the memory, ready for fm3130_run
 *   fm3130_read_told     from the answers: the bytes that were read
 *
 * One function judges a recording of a device that somebody else made, a file in memory:
 *
 *   fm3130_judge        names the first answer in it that the rules do not give
 *
 * The larger family, with event counters and a serial number, has a header of its own: fm31.h.
 *
 * Three more functions, at the end, are about another maker's clock and need no device:
 *
 *   fm3130_trim_check    judges a trim setting that any program proposes
 *   fm3130_trim_residue  what a setting leaves of a measured error
 *   fm3130_trim_propose  proposes a setting, which is always accepted
 *
 * A first call (docs/GUIDE.md has a whole program):
 *
 *   static uint8_t image[FM3130_IMAGE_BYTES], memory[FM3130_MEMORY_BYTES];
 *   static const uint8_t events[] = {FM3130_START, FM3130_CLOCK_HIGH, FM3130_STOP};
 *   uint8_t answers[sizeof events];
 *   fm3130_fresh(image, sizeof image);
 *   fm3130_run(image, sizeof image, memory, sizeof memory,
 *              events, sizeof events, answers, sizeof answers);
 *
 * Link with libfm3130.a. It is built for 64-bit targets, x86-64 and arm64, where it needs no other
 * library, not even that of C, but for fm3130_judge: that function calls memcpy and memset, of a
 * library or of firmware/runtime.c. By `make controller` it is built for Cortex-M4, Cortex-M0 and
 * 32-bit RISC-V too, where more functions need those of firmware/runtime.c (docs/CONTROLLER.md).
 * Where a target hands back a struct of two words in another way than the archive does, as 32-bit
 * Arm, the functions that return one cannot be used, and using one is an error of compilation; the
 * others can.
 *
 * For every function: Allocates nothing, keeps nothing, thread-safe on distinct buffers. It does
 * no input or output and always returns.
 *
 * The caller's duties, for every function:
 *   - No pointer is null, also where its length is 0: an empty buffer is any valid address.
 *   - Each buffer has at least as many bytes as its length says; those it writes can be written.
 *   - No two buffers of a call overlap.
 *   - Nobody else writes to the buffers of a call while it runs.
 * The functions are proved for callers that keep these duties, and the proved facts reach the
 * optimiser: breaking one is undefined behaviour, not a refusal. Nothing else is asked. Every
 * length and every byte in the buffers is allowed, and what cannot be done is refused by a number.
 *
 * What is proved: for all lengths and bytes, what is returned and what is left in every buffer is
 * one definition of what was given, so no second outcome is possible. The contract is named at
 * each function, with the file that defines it, and that it leaves no choice is proved too. Not
 * proved: the compiler, and the inline function in this header, which is tested (tests/c).
 */
#ifndef FM3130_H
#define FM3130_H

#include <stdint.h>

/*
 * Targets. An archive returns a struct of two 64-bit words as x86-64 (System V), arm64 and RISC-V do.
 * On other targets FM3130_TWO_WORDS marks the functions that return one: whoever uses one there is
 * told so by the compiler, and not by wrong numbers at run time. Windows, x32 and 32-bit x86 are not
 * offered.
 */
#if defined(_WIN32) || defined(__CYGWIN__)
#error "fm3130.h is not offered for Windows: arguments and results go other ways there"
#elif defined(__i386__) || (defined(__x86_64__) && defined(__ILP32__))
#error "fm3130.h is not offered for 32-bit x86 and x32"
#elif defined(__x86_64__) || (defined(__aarch64__) && !defined(__AARCH64EB__)) || defined(__riscv)
#define FM3130_TWO_WORDS
#elif defined(__GNUC__)
#define FM3130_TWO_WORDS_SAID                                                                      \
    "this target returns a struct of two words in another way than libfm3130.a: use "              \
    "fm3130_run_number, fm3130_step or another function that returns one number"
#if __has_attribute(unavailable)
#define FM3130_TWO_WORDS __attribute__((unavailable(FM3130_TWO_WORDS_SAID)))
#else
#define FM3130_TWO_WORDS __attribute__((error(FM3130_TWO_WORDS_SAID)))
#endif
#else
#error "fm3130.h: how this compiler returns a struct of two words is not known"
#endif

#ifdef __cplusplus
extern "C" {
#endif

/*
 * Version of this header and the archive that comes with it.
 *   MAJOR  a host may have to be changed: a name, a type, a meaning, or the layout of the image
 *   MINOR  something was added: hosts compile, link and behave as before
 *   PATCH  nothing that a host can see, but for errors that were put right
 */
#define FM3130_VERSION_MAJOR 0
#define FM3130_VERSION_MINOR 4
#define FM3130_VERSION_PATCH 0
#define FM3130_VERSION "0.4.0"

/* Sizes in bytes. The registers are the front of the image. */
#define FM3130_IMAGE_BYTES 64
#define FM3130_MEMORY_BYTES 8192
#define FM3130_REGISTER_BYTES 15
#define FM3130_RECORD_BYTES 20

/* Events, one byte each. The list run refuses any greater byte. */
enum fm3130_event {
    FM3130_START = 0,                     /* Start */
    FM3130_STOP = 1,                      /* Stop */
    FM3130_CLOCK_LOW = 2,                 /* Clock with the master's data line low */
    FM3130_CLOCK_HIGH = 3,                /* Clock with it high, that is, released */
    FM3130_TICK = 4,                      /* one-second tick */
    FM3130_POWER_LOST_WITH_BACKUP = 5,    /* main power lost, backup present */
    FM3130_POWER_LOST_WITHOUT_BACKUP = 6, /* main power lost, no backup */
    FM3130_POWER_RETURNED = 7             /* main power returned */
};

/*
 * Answers, one byte for each event. Bits 4 to 7 are 0.
 *   bit 0        the line: for a Clock, low (0) if the master or the device pulls it low; else 1
 *   bits 2 and 1 the ACS pin's function after the event, see below
 *   bit 3        1 exactly when the function is alarm and the alarm flag AF is 1
 */
#define FM3130_ANSWER_LINE 0x01u
#define FM3130_ANSWER_PIN 0x06u
#define FM3130_ANSWER_PIN_SHIFT 1
#define FM3130_ANSWER_ALARM 0x08u

/* The ACS pin's functions: (answer & FM3130_ANSWER_PIN) >> FM3130_ANSWER_PIN_SHIFT. */
enum fm3130_pin {
    FM3130_PIN_RELEASED = 0,    /* released */
    FM3130_PIN_ALARM = 1,       /* alarm */
    FM3130_PIN_SQUARE_WAVE = 2, /* square wave */
    FM3130_PIN_CALIBRATION = 3  /* calibration */
};

/*
 * Numbers. 0 is done; every other is a refusal, under which no buffer is written. They are tested
 * in this order, each function those that are named there, and the first that applies is given.
 */
enum fm3130_number {
    FM3130_OK = 0,               /* none below */
    FM3130_WRONG_MEMORY = 1,     /* memory is not 8,192 bytes */
    FM3130_WRONG_STATE = 2,      /* image is not 64 bytes, or no well-formed state writes it
                                    (the viewer tests length only); fm3130_lamps: or the
                                    record's bytes hold no record */
    FM3130_UNKNOWN_EVENT = 3,    /* some event byte is above 7 */
    FM3130_SHORT_ANSWERS = 4,    /* answers shorter than events; fm3130_step: told shorter than
                                    two bytes; fm3130_mend: changes shorter than the list */
    FM3130_UNKNOWN_SELECTOR = 5, /* viewer: selector neither 0 (memory) nor 1 (registers) */
    FM3130_PAST_THE_END = 6,     /* viewer: start + length (exact sum) passes the end of the
                                    chosen bytes */
    FM3130_NOT_HELD = 7,         /* two masters: an ask while the other holds the bus, or a call
                                    with an event 0 to 3 by a master that does not hold it;
                                    tested after 3 and before 4 */
    FM3130_TOO_MANY_TICKS = 8    /* catching up: more ticks than FM3130_MOST_TICKS */
};

/* The most ticks that fm3130_catch_up does in one call, those of a leap year. */
#define FM3130_MOST_TICKS 31622400

/*
 * The fields of the calendar that a tick can change, the second byte that fm3130_step tells: the
 * highest that changed. The day of the week is none of them.
 */
enum fm3130_rolled {
    FM3130_ROLLED_NOTHING = 0, /* no tick, one that does not count, or an invalid calendar */
    FM3130_ROLLED_SECONDS = 1,
    FM3130_ROLLED_MINUTES = 2,
    FM3130_ROLLED_HOURS = 3,
    FM3130_ROLLED_DATE = 4,
    FM3130_ROLLED_MONTH = 5,
    FM3130_ROLLED_YEAR = 6
};

/* What fm3130_step tells: the answer byte, then enum fm3130_rolled. */
#define FM3130_TOLD_BYTES 2

/* The viewer's selectors. */
enum fm3130_selector {
    FM3130_VIEW_MEMORY = 0,   /* the 8,192 bytes of memory */
    FM3130_VIEW_REGISTERS = 1 /* the first 15 bytes of the image, registers 00h to 0Eh */
};

/* The two masters of one bus. A bus byte is the number of the one that holds the bus, or 0. */
enum fm3130_master {
    FM3130_NOBODY = 0,  /* in a bus byte: nobody holds the bus */
    FM3130_RIG = 1,     /* the rig's own controller */
    FM3130_HANDHELD = 2 /* the maintainer's handheld */
};

/* The bytes that say who holds the bus. */
#define FM3130_BUS_BYTES 1

/* What the list run returns, and a master's call of it. */
struct fm3130_ran {
    uint64_t number; /* enum fm3130_number, 0 to 4; of a master's call also 7 */
    uint64_t count;  /* the events done: all of them under number 0, else none */
};

/*
 * Makes a fresh device: registers as when both supplies were gone (OSCEN, POR and LB are 1, day,
 * date and month are 1, all else 0), power on, no transfer, both addresses 0. The memory is not
 * part of it: FRAM keeps its bytes, and any 8,192 bytes are a memory.
 *
 *   image    image_length bytes, should be 64; written
 *
 * Returns  image
 *   0      the fresh image, all 64 bytes
 *   2      unchanged (its length is not 64)
 *
 * Proved: FreshSettled, crates/c_run/specs/Fresh.antt. Allocates nothing, keeps nothing, thread-safe
 * on distinct buffers.
 */
uint64_t fm3130_fresh(uint8_t *image, uint64_t image_length);

/*
 * Does a list of events, one by one, on a device. All that can be refused is tested before the
 * first event is done. A list may be cut into pieces at any place, each piece a call: the outcome
 * is the same. An empty list is accepted.
 *
 * A data byte is not acknowledged, and ends its transfer, in two cases. Where its address is
 * protected: nothing is stored, and the address steps on. Where it is a write to 00h that would load
 * a date or time that does not exist: W stays 1, 00h, 02h to 08h and the calendar stay, and the
 * address steps on, so the host can put one register right and clear W again.
 *
 *   image    image_length bytes, must be 64 and an image that fm3130_fresh or fm3130_run left, or
 *            any other that keeps the limits in docs/IMAGE.md; read and written
 *   memory   memory_length bytes, must be 8,192, any values; read and written
 *   events   events_length bytes, any number of them, each at most 7; read
 *   answers  answers_length bytes, at least as many as events; written
 *
 * Returns                       image              memory          answers
 *   number 0, count the events  the state after    the bytes       one byte for each event; bytes
 *                               the last event     after it        past them are unchanged
 *   number 1 to 4, count 0      unchanged          unchanged       unchanged
 *
 *   1      memory_length is not 8,192
 *   2      image_length is not 64, or no well-formed state writes the image
 *   3      some event byte is above 7
 *   4      answers_length is less than events_length
 *
 * Proved: RunSettled, crates/c_run/specs/Run.antt. Allocates nothing, keeps nothing, thread-safe on
 * distinct buffers.
 */
FM3130_TWO_WORDS
struct fm3130_ran fm3130_run(uint8_t *image, uint64_t image_length, uint8_t *memory,
                             uint64_t memory_length, const uint8_t *events, uint64_t events_length,
                             uint8_t *answers, uint64_t answers_length);

/*
 * Does a list of events as fm3130_run does, and returns the number alone: for callers on machines
 * where a struct of two words comes back another way. Nothing is lost: under number 0 all events are
 * done, under any other none.
 *
 *   image, memory, events, answers   as for fm3130_run
 *
 * Returns  image              memory          answers
 *   0      the state after    the bytes       one byte for each event; bytes past them are
 *          the last event     after it        unchanged
 *   1 to 4 unchanged          unchanged       unchanged
 *
 *   1 to 4 as for fm3130_run
 *
 * Proved: NumberSettled, crates/c_run_number/specs/Number.antt. Allocates nothing, keeps nothing,
 * thread-safe on distinct buffers.
 */
uint64_t fm3130_run_number(uint8_t *image, uint64_t image_length, uint8_t *memory,
                           uint64_t memory_length, const uint8_t *events, uint64_t events_length,
                           uint8_t *answers, uint64_t answers_length);

/*
 * Does one event on a device, and says which field of the calendar it changed: so an event printer
 * need not compare calendars to see whether an hour passed. Image, memory and answer byte are those
 * of fm3130_run on the list of this one event.
 *
 *   image    image_length bytes, must be 64 and an image as fm3130_run takes it; read and written
 *   memory   memory_length bytes, must be 8,192, any values; read and written
 *   event    enum fm3130_event
 *   told     told_length bytes, at least FM3130_TOLD_BYTES; written
 *
 * Returns  image              memory          told
 *   0      the state after    the bytes       the answer byte, then enum fm3130_rolled; bytes past
 *          the event          after it        them are unchanged
 *   1 to 4 unchanged          unchanged       unchanged
 *
 *   1      memory_length is not 8,192
 *   2      image_length is not 64, or no well-formed state writes the image
 *   3      event is above 7
 *   4      told_length is less than 2
 *
 * Proved: SingleSettled, crates/c_step/specs/Single.antt. Allocates nothing, keeps nothing,
 * thread-safe on distinct buffers.
 */
uint64_t fm3130_step(uint8_t *image, uint64_t image_length, uint8_t *memory, uint64_t memory_length,
                     uint64_t event, uint8_t *told, uint64_t told_length);

/*
 * What fm3130_line returns: the number in the low eight bits, and whether the device pulls the line
 * low. Under every number but 0 no line is pulled.
 */
#define FM3130_LINE_NUMBER 0xFFu
#define FM3130_LINE_PULLED 0x100u            /* of the next Clock */
#define FM3130_LINE_PULLED_AFTER_LOW 0x200u  /* of the Clock after it, if the next is low */
#define FM3130_LINE_PULLED_AFTER_HIGH 0x400u /* of the Clock after it, if the next is high */

/*
 * Says what the device will do to the line before a clock rises, for a controller that drives real
 * wires: the answer to a Clock comes too late for that. Nothing is changed. A tick, a Start, a Stop
 * or an event of the supplies between this and the Clock may change it: then ask again.
 *
 * Where the device pulls the line, the master's level there cannot be seen, and need not be: events 2
 * and 3 leave the same device. And a Clock that turns out to be part of a Start or a Stop does no harm
 * unless it is the eighth of a byte: Start or Stop after it leave what they leave without it.
 *
 *   image    image_length bytes, must be 64 and an image as fm3130_run takes it; read
 *   memory   memory_length bytes, must be 8,192, any values; read
 *
 * Returns the number, 0, 1 or 2, and under 0 the three bits above: each says whether the answer to a
 * Clock with the master's line high would have bit 0 clear.
 *
 *   1      memory_length is not 8,192
 *   2      image_length is not 64, or no well-formed state writes the image
 *
 * Proved: LineSettled, crates/c_line/specs/Line.antt; the two laws: SafeOnWires,
 * crates/c_line/specs/Wires.antt. Allocates nothing, keeps nothing, thread-safe on distinct buffers.
 */
uint64_t fm3130_line(const uint8_t *image, uint64_t image_length, const uint8_t *memory,
                     uint64_t memory_length);

/*
 * The device on the pins of a controller that sees SCL and SDA as levels and pulls SDA, open drain.
 * What is known between two looks is one word, which the functions below take and return. A caller
 * needs of it:
 */
#define FM3130_PINS_PULLED 0x8u      /* SDA is to be pulled low; else it is let go */
#define FM3130_PINS_NUMBER 0xFF0000u /* 0, or why the device has left the bus: SDA is let go */
#define FM3130_PINS_NUMBER_SHIFT 16
#define FM3130_PINS_ANSWER 0xF000u /* as the answer to an event that is no Clock: the ACS pin */
#define FM3130_PINS_ANSWER_SHIFT 12
#define FM3130_PINS_DUE 0xFFF000000u /* not 0: events are due, for fm3130_pins_settle */

/*
 * The rest of a word is for tests and for debugging: bits 0 and 1 are SCL and SDA at the last look
 * (SDA while SCL was high), bit 2 an open pulse, bits 4 to 6 the lines that fm3130_line tells, bits 8
 * to 11 a tick or power event that waits, bits 24 to 35 up to three events that are due. An event is
 * its number and 8; where there is none, 0.
 */
#define FM3130_PINS_OPEN 0x4u
#define FM3130_PINS_WAITING 0xF00u

/* What a look has seen: three readings, one after the other. The last two only count with the first. */
#define FM3130_PINS_SCL 0x1u
#define FM3130_PINS_SDA 0x2u
#define FM3130_PINS_SCL_AGAIN 0x4u

/* What was read of SCL before SDA was turned, and after that. */
#define FM3130_PINS_SCL_BEFORE 0x1u
#define FM3130_PINS_SCL_AFTER 0x2u

/*
 * Why the device has left the bus, beside enum fm3130_number: the controller was not quick enough,
 * so that a bit on the wire may have been another than the device's.
 */
#define FM3130_PINS_LATE 0x80u

/*
 * The first look at a device in the two buffers, in the middle of a transfer too. SDA is let go before
 * it. A pulse under way is not counted.
 *
 *   image    image_length bytes, must be 64 and an image as fm3130_run takes it; read
 *   memory   memory_length bytes, must be 8,192, any values; read
 *   levels   FM3130_PINS_SCL, FM3130_PINS_SDA, FM3130_PINS_SCL_AGAIN
 *
 * Returns the first word. Where its bit FM3130_PINS_PULLED is set, SDA is pulled and
 * fm3130_pins_driven(0, word, ..) is called. Its number is 0, or
 *
 *   1      memory_length is not 8,192
 *   2      image_length is not 64, or no well-formed state writes the image
 *
 * Proved: BeginSettled, crates/c_pins/specs/Words.antt; of every session that it begins: EveryWaveform,
 * crates/c_pins/specs/Session.antt. Allocates nothing, keeps nothing, thread-safe on distinct buffers.
 */
uint64_t fm3130_pins_begin(const uint8_t *image, uint64_t image_length, const uint8_t *memory,
                           uint64_t memory_length, uint64_t levels);

/*
 * One look: to be called again and again, or at each change of a level. Neither image nor memory is
 * touched: what the look means is found, and what SDA must do for the next clock. Then
 *
 *   SDA is turned if FM3130_PINS_PULLED of the new word is another, and fm3130_pins_driven is called;
 *   fm3130_pins_settle does what is due; then SDA once more in the same way.
 *
 * Where the word did not change nothing is due, and SDA stays.
 *
 * Proved: LookSettled, crates/c_pins/specs/Words.antt; what a list of looks spells: spelt,
 * crates/pins_levels/specs/Wave.antt. Allocates nothing, keeps nothing, thread-safe.
 */
uint64_t fm3130_pins_look(uint64_t word, uint64_t levels);

/*
 * SDA was to be turned, from what the word before said to what this word says: it is turned only if
 * SCL is read low, and SCL is read again after that.
 *
 *   scl      FM3130_PINS_SCL_BEFORE if it was high then, so that SDA was not turned;
 *            FM3130_PINS_SCL_AFTER if it was high after that
 *
 * Returns the word as it is, or with the number FM3130_PINS_LATE where SCL was high at one of them. It
 * need not be called where both readings were low.
 *
 * Proved: DrivenSettled, crates/c_pins/specs/Words.antt. Allocates nothing, keeps nothing, thread-safe.
 */
uint64_t fm3130_pins_driven(uint64_t before, uint64_t word, uint64_t scl);

/*
 * Does the events that are due, in their order, and asks for the lines of the next Clocks. Where the
 * number is not 0, or nothing is due, it does nothing and need not be called.
 *
 *   image    image_length bytes, as above; written
 *   memory   memory_length bytes, as above; written
 *
 * Returns the word with nothing due. Its number may be 1 or 2, as above: nothing was written then.
 *
 * Proved: DueSettled, crates/c_pins/specs/Words.antt. Allocates nothing, keeps nothing, thread-safe
 * on distinct buffers.
 */
uint64_t fm3130_pins_settle(uint8_t *image, uint64_t image_length, uint8_t *memory,
                            uint64_t memory_length, uint64_t word);

/*
 * A tick or a power event, FM3130_TICK to FM3130_POWER_RETURNED, after a look. While a pulse is open
 * it waits for the pulse's end; one more that finds it waiting is a pulse that hangs, and then what
 * can be done is done. fm3130_pins_settle follows as after a look.
 *
 *   image    image_length bytes, as above; read
 *
 * Returns the word with what is due. Any other event: the device leaves the bus with number 3.
 *
 * Proved: HandSettled, crates/c_pins/specs/Words.antt. Allocates nothing, keeps nothing, thread-safe on
 * distinct buffers.
 */
uint64_t fm3130_pins_hand(const uint8_t *image, uint64_t image_length, uint64_t word,
                          uint64_t event);

/*
 * Catches up after sleep: many ticks in one call, which takes 20 to 32 ns for a leap year of them
 * (docs/SPEED.md). The image is left exactly as fm3130_run leaves it on a list of so many events
 * FM3130_TICK: registers, calendar, AF and CF, whatever the alarm, with an invalid calendar, a
 * halted oscillator or no supply too. The memory is not needed: a tick does not touch it. A host
 * that slept longer calls more than once.
 *
 *   image    image_length bytes, must be 64 and an image as fm3130_run takes it; read and written
 *   ticks    how many seconds passed; 0 changes nothing
 *
 * Returns  image
 *   0      the state after the last tick
 *   2      unchanged (image_length is not 64, or no well-formed state writes the image)
 *   8      unchanged (ticks is above FM3130_MOST_TICKS)
 *
 * Which field of the calendar changed is not said: compare the calendars before and after.
 *
 * Proved: CatchUpSettled, crates/c_catch_up/specs/CatchUp.antt; that it is the list run: AsTheListRun,
 * crates/c_catch_up/specs/Laws.antt. Allocates nothing, keeps nothing, thread-safe on distinct buffers.
 */
uint64_t fm3130_catch_up(uint8_t *image, uint64_t image_length, uint64_t ticks);

/*
 * The lamps: eight, one byte each at 1000h to 1007h, bit k of a report for the byte at 1000h + k.
 */
#define FM3130_LAMPS 8
#define FM3130_LAMP_ADDRESS 0x1000u

/* What fm3130_lamps returns. */
struct fm3130_shown {
    uint64_t number; /* enum fm3130_number, 0 to 4 */
    uint64_t report; /* the lamps after the last event, bit k for lamp k: 1 lit, 0 dark; under every
                        number but 0 all are dark */
};

/*
 * Does a list of events as fm3130_run does, and keeps the proving record: which lamps may be shown
 * lit. A lamp is lit exactly if the last whole read of its byte, all of it after the last bus
 * failure, gave 1 and fewer than three ticks, counted by the device or not, have passed since the
 * Stop that ended it. A whole read has all nine clocks and that Stop. The bus fails, and all eight
 * are dark at once, at a Start or Stop with 1 to 8 clocks of a byte done, at an acknowledge the
 * device does not give, and at event 5 or 6. What a read gave is what the line showed, so a master
 * that pulls the line low in the eight clocks of a read reads what it pulls.
 *
 * Lit is what was read, not what was to be written: a write that hangs leaves the old bit, and the
 * next whole read lights the lamp by it. After a failure write again and read back (docs/GUIDE.md).
 *
 * The record is 20 bytes of the caller's, beside the image. 20 zeros are the record before any
 * event: begin with them on a device between transfers. The record sees the events of these calls
 * alone, so let no other call change the device between two of them. A list may be cut into pieces
 * at any place, each piece a call: the outcome is the same.
 *
 *   image    image_length bytes, must be 64 and an image as fm3130_run takes it; read and written
 *   memory   memory_length bytes, must be 8,192, any values; read and written
 *   events   events_length bytes, any number of them, each at most 7; read
 *   answers  answers_length bytes, at least as many as events; written
 *   record   record_length bytes, must be 20, and zeros or as a call left them; read and written
 *
 * Returns                 image            memory        answers              record
 *   number 0, the report  the state after  the bytes     one byte for each    the record after
 *                         the last event   after it      event, bytes past    the last event
 *                                                        them unchanged
 *   number 1 to 4, 0      unchanged        unchanged     unchanged            unchanged
 *
 *   1      memory_length is not 8,192
 *   2      image_length is not 64, or no well-formed state writes the image; or record_length is not
 *          20, or the bytes hold no record (docs/DECISIONS.md, D102, has their limits)
 *   3      some event byte is above 7
 *   4      answers_length is less than events_length
 *
 * Image, memory and answers are those of fm3130_run. There is no count: it is the number of events,
 * or 0 under a refusal.
 *
 * Proved: LampsSettled, crates/c_lamps/specs/Run.antt; that the report is the definition above, over
 * the whole history: proven, crates/lamps/proofs/Proven.antt. Allocates nothing, keeps nothing,
 * thread-safe on distinct buffers.
 */
FM3130_TWO_WORDS
struct fm3130_shown fm3130_lamps(uint8_t *image, uint64_t image_length, uint8_t *memory,
                                 uint64_t memory_length, const uint8_t *events,
                                 uint64_t events_length, uint8_t *answers, uint64_t answers_length,
                                 uint8_t *record, uint64_t record_length);

/*
 * Whether a part of the memory or of the registers can be viewed.
 *
 *   image    image_length bytes, must be 64, any values; read
 *   memory   memory_length bytes, must be 8,192, any values; read
 *   selector enum fm3130_selector
 *   start    the first byte of the part
 *   length   its bytes; 0 is accepted, also at the very end
 *
 * Returns; no buffer is written
 *   0      the part lies within the chosen bytes
 *   1      memory_length is not 8,192
 *   2      image_length is not 64 (whether a state writes it is not tested)
 *   5      selector is neither 0 nor 1
 *   6      start + length passes 8,192 or 15, the end of the chosen bytes; the sum is exact, it
 *          does not wrap
 *
 * Proved: ViewNumberSettled, crates/c_view/specs/View.antt. Allocates nothing, keeps nothing,
 * thread-safe on distinct buffers.
 */
uint64_t fm3130_view_number(const uint8_t *image, uint64_t image_length, const uint8_t *memory,
                            uint64_t memory_length, uint64_t selector, uint64_t start,
                            uint64_t length);

/*
 * The viewer: a part of the caller's memory or registers, never a copy. The part is as fresh and
 * lives as long as the buffer it lies in.
 *
 *   image    FM3130_IMAGE_BYTES bytes, any values; read
 *   memory   FM3130_MEMORY_BYTES bytes, any values; read
 *   selector, start, length   as above
 *   number   not null; set to the number of fm3130_view_number, 0, 5 or 6
 *
 * Returns, under number 0, the address of the part: memory + start or image + start, with length
 * bytes there. Under every other number the part is empty: the address is memory, and none of its
 * bytes belong to the part.
 *
 * Tested, not proved (the proved viewer is `view` in crates/c_view/src/fm3130_view.rt, for callers in
 * Rattle: an exported function cannot return a reference). Allocates nothing, keeps nothing,
 * thread-safe on distinct buffers.
 */
static inline const uint8_t *fm3130_view(const uint8_t *image, const uint8_t *memory,
                                         uint64_t selector, uint64_t start, uint64_t length,
                                         uint64_t *number) {
    *number = fm3130_view_number(image, FM3130_IMAGE_BYTES, memory, FM3130_MEMORY_BYTES, selector,
                                 start, length);
    if (*number != FM3130_OK) {
        return memory;
    }
    return (selector == FM3130_VIEW_MEMORY ? memory : image) + start;
}

/* What fm3130_mend lists of a register: its number, the old byte, the new byte. */
#define FM3130_CHANGE_BYTES 3

/* Room for every list of fm3130_mend: all seven registers 02h to 08h. Proved: AlwaysEnough, and
 * AllNeeded, that fewer are not always, crates/c_mend/specs/Laws.antt. */
#define FM3130_CHANGES_ROOM (7 * FM3130_CHANGE_BYTES)

/* What fm3130_mend returns. */
struct fm3130_mended {
    uint64_t number; /* enum fm3130_number: 0, 2 or 4 */
    uint64_t count;  /* the registers changed under number 0, else none */
};

/*
 * Puts an old image right that holds an impossible date or time: registers 02h to 08h and, by itself
 * but by the same rule, the calendar core behind them (bytes 15 to 21). Each field that is out of
 * range on its own goes to its lowest legal figure: seconds, minutes, hours and year to 00h, day,
 * date and month to 01h, a date by itself being 1 to 31. Then a date beyond its month's end goes to
 * the last day: 31 April to 30 April, 30 February to 28 or 29. Everything else in the image stays,
 * also in the middle of a transfer. The memory is not asked for.
 *
 *   image    image_length bytes, must be 64 and an image as fm3130_run takes it; read and written
 *   changes  changes_length bytes, any number of them; FM3130_CHANGES_ROOM are always enough, and
 *            none are needed where the registers are valid; written
 *
 * Returns                       image           changes
 *   number 0, count the         put right       for each register changed, in register order: its
 *   registers changed                           number, the old byte, the new byte; bytes past
 *                                               3 * count are unchanged
 *   number 2 or 4, count 0      unchanged       unchanged
 *
 *   2      image_length is not 64, or no well-formed state writes the image
 *   4      changes_length is less than 3 times the registers to be changed
 *
 * Only registers are listed: where the core alone was put right the count is 0. What comes out is
 * valid, registers and core, and a second call changes nothing.
 *
 * Proved: MendSettled, crates/c_mend/specs/Mend.antt, and what is said above, crates/c_mend/specs/
 * Laws.antt. Allocates nothing, keeps nothing, thread-safe on distinct buffers.
 */
FM3130_TWO_WORDS
struct fm3130_mended fm3130_mend(uint8_t *image, uint64_t image_length, uint8_t *changes,
                                 uint64_t changes_length);

/*
 * The other end of the wire: a master's whole transactions with the memory. Of the four functions
 * two make a transaction's events and two say what the answers to them tell; none needs a device,
 * and the answers may come from fm3130_run or from a real part on the bench.
 *
 *   struct fm3130_filled sent = fm3130_write_events(0x1000, bytes, 1, events, sizeof events);
 *   fm3130_run(image, sizeof image, memory, sizeof memory, events, sent.count, answers, sent.count);
 *   fm3130_write_told(1, answers, sent.count, flags, sizeof flags);
 *
 * With the device powered and no other event between, bytes written to unprotected addresses and
 * then read come back the same. Proved: round_trip and through, crates/law_roundtrip/proofs.
 */

/*
 * Numbers of the master's functions, their own: 0 is done; every other is a refusal, under which
 * nothing is written. They are tested in this order, each function those that are named there, and
 * the first that applies is given.
 */
enum fm3130_master_number {
    FM3130_MASTER_OK = 0,            /* none below */
    FM3130_MASTER_TOO_MANY = 1,      /* more than 256 data bytes */
    FM3130_MASTER_READ_OF_NONE = 2,  /* a read of no data byte */
    FM3130_MASTER_WRONG_ADDRESS = 3, /* the address is above 1FFFh */
    FM3130_MASTER_LITTLE_ROOM = 4,   /* too little room in the buffer that is written */
    FM3130_MASTER_WRONG_ANSWERS = 5  /* answers are not as many as the events */
};

/* The most data bytes of one transaction. */
#define FM3130_MASTER_MOST 256

/* How many events a transaction of so many data bytes has, and so how many answers. */
#define FM3130_WRITE_EVENTS(count) (29 + 9 * (count))
#define FM3130_READ_EVENTS(count) (39 + 9 * (count))

/* What the master's functions return. */
struct fm3130_filled {
    uint64_t number; /* enum fm3130_master_number */
    uint64_t count;  /* the bytes written, at the front of the buffer; 0 where refused */
};

/*
 * The events of a whole write: Start, slave byte, address, the data bytes, Stop. At every ninth
 * clock the master leaves the line high, so that the device's acknowledge is seen. A write of no
 * bytes is accepted: it sets the address.
 *
 *   address  where the first byte goes; the next ones follow, from 1FFFh on to 0000h
 *   bytes    bytes_length bytes, at most 256; read
 *   events   events_length bytes, at least FM3130_WRITE_EVENTS(bytes_length); written
 *
 * Returns                        events
 *   number 0, count the events   one byte for each event; bytes past them are unchanged
 *   number 1, 3 or 4, count 0    unchanged
 *
 *   1      bytes_length is above 256
 *   3      address is above 1FFFh
 *   4      events_length is less than FM3130_WRITE_EVENTS(bytes_length)
 *
 * Proved: WriteEventsSettled, crates/c_master/specs/Outcome.antt. Allocates nothing, keeps nothing,
 * thread-safe on distinct buffers.
 */
FM3130_TWO_WORDS
struct fm3130_filled fm3130_write_events(uint64_t address, const uint8_t *bytes,
                                         uint64_t bytes_length, uint8_t *events,
                                         uint64_t events_length);

/*
 * The events of a whole read: Start, slave byte, address, Start again, slave byte, the data bytes,
 * Stop. The read sets its address first. After each data byte but the last the master's ninth clock
 * is low, which asks for the next; after the last it is high, which ends the read.
 *
 *   address  where the first byte comes from; the next ones follow, from 1FFFh on to 0000h
 *   count    how many bytes, 1 to 256
 *   events   events_length bytes, at least FM3130_READ_EVENTS(count); written
 *
 * Returns                        events
 *   number 0, count the events   one byte for each event; bytes past them are unchanged
 *   number 1 to 4, count 0       unchanged
 *
 *   1      count is above 256
 *   2      count is 0
 *   3      address is above 1FFFh
 *   4      events_length is less than FM3130_READ_EVENTS(count)
 *
 * Proved: ReadEventsSettled, crates/c_master/specs/Outcome.antt. Allocates nothing, keeps nothing,
 * thread-safe on distinct buffers.
 */
FM3130_TWO_WORDS
struct fm3130_filled fm3130_read_events(uint64_t address, uint64_t count, uint8_t *events,
                                        uint64_t events_length);

/*
 * What the answers to a write tell: a flag for each data byte, 1 if it was acknowledged, else 0. If
 * the slave byte or an address byte went unacknowledged, every flag is 0.
 *
 *   count    how many data bytes were written, at most 256
 *   answers  answers_length bytes, must be FM3130_WRITE_EVENTS(count), any values; read
 *   flags    flags_length bytes, at least count; written
 *
 * Returns                            flags
 *   number 0, count the data bytes   one byte for each, 1 or 0; bytes past them are unchanged
 *   number 1, 4 or 5, count 0        unchanged
 *
 *   1      count is above 256
 *   4      flags_length is less than count
 *   5      answers_length is not FM3130_WRITE_EVENTS(count)
 *
 * Proved: WriteToldSettled, crates/c_master/specs/Outcome.antt. Allocates nothing, keeps nothing,
 * thread-safe on distinct buffers.
 */
FM3130_TWO_WORDS
struct fm3130_filled fm3130_write_told(uint64_t count, const uint8_t *answers,
                                       uint64_t answers_length, uint8_t *flags,
                                       uint64_t flags_length);

/*
 * What the answers to a read tell: the bytes that were read; none if a slave byte or an address
 * byte went unacknowledged.
 *
 *   count    how many data bytes were asked for, 1 to 256
 *   answers  answers_length bytes, must be FM3130_READ_EVENTS(count), any values; read
 *   bytes    bytes_length bytes, at least count; written
 *
 * Returns                              bytes
 *   number 0, count the data bytes     the bytes as the line showed them; those past them unchanged
 *   number 0, count 0                  unchanged: a slave or address byte went unacknowledged
 *   number 1, 2, 4 or 5, count 0       unchanged
 *
 *   1      count is above 256
 *   2      count is 0
 *   4      bytes_length is less than count
 *   5      answers_length is not FM3130_READ_EVENTS(count)
 *
 * Proved: ReadToldSettled, crates/c_master/specs/Outcome.antt. Allocates nothing, keeps nothing,
 * thread-safe on distinct buffers.
 */
FM3130_TWO_WORDS
struct fm3130_filled fm3130_read_told(uint64_t count, const uint8_t *answers,
                                      uint64_t answers_length, uint8_t *bytes,
                                      uint64_t bytes_length);

/*
 * Captures: a recorded run in one file, as the analysers send it. First a table of contents, four
 * entries of 12 bytes, one a section: its kind, its offset from the file's begin and its length,
 * each a number of four bytes, the low byte first. Then the bodies, in any order, gaps allowed:
 * the image and the memory that the run began from, its events, and one answer for each.
 * docs/CAPTURE.md has a drawing and an example byte by byte.
 */

/* Sizes in bytes: of the longest capture, of an entry and of the table. */
#define FM3130_CAPTURE_MOST_BYTES 61440
#define FM3130_CAPTURE_ENTRY_BYTES 12
#define FM3130_CAPTURE_TABLE_BYTES 48

/* The kinds of sections; each is there once. */
enum fm3130_capture_kind {
    FM3130_CAPTURE_IMAGE = 1,  /* the starting image, 64 bytes that fm3130_run takes */
    FM3130_CAPTURE_MEMORY = 2, /* the starting memory, 8,192 bytes */
    FM3130_CAPTURE_EVENTS = 3, /* enum fm3130_event, one byte each */
    FM3130_CAPTURE_ANSWERS = 4 /* the recorded answers, as many as the events */
};

/* Verdicts on a capture. */
enum fm3130_verdict {
    FM3130_CAPTURE_AGREES = 0,  /* every recorded answer is the right one */
    FM3130_CAPTURE_DIFFERS = 1, /* some recorded answer is not */
    FM3130_CAPTURE_FAULTY = 2,  /* some entry of the table is faulty; no event was judged */
    FM3130_CAPTURE_TOO_LONG = 3 /* more than 61,440 bytes; nothing was looked at */
};

/* What the judge returns. */
struct fm3130_judgement {
    uint64_t number; /* enum fm3130_verdict */
    uint64_t place;  /* under 0 how many answers agree, under 1 the first wrong one, counted from
                        0, under 2 the first faulty entry, 1 to 4, under 3 it is 0 */
};

/*
 * Judges a capture: does its events, one by one, from its image and on a copy of its memory, and
 * names the first recorded answer that fm3130_run does not give.
 *
 *   file     file_length bytes, any number of them and any values; read
 *
 * Returns
 *   number 0, place n   all n answers agree (n is 0 where the lists are empty)
 *   number 1, place n   answer n, counted from 0, is wrong, and every answer before it is right
 *   number 2, place n   entry n of the table, 1 to 4, is faulty, and every entry before it is
 *                       sound: the file ends inside the entry; its kind is none, or that of an
 *                       earlier one; its body passes the end of the file (the sum is exact), or
 *                       overlaps the table or the body of an earlier entry (an empty body overlaps
 *                       nothing); or the body is one that fm3130_run refuses: an image by 2, a
 *                       memory by 1, events by 3; or, of events and answers, it is the later one in
 *                       the table and they are not equally many
 *   number 3, place 0   file_length is above 61,440; nothing else is tested
 *
 * Uses some 9 KiB of stack, most of it for the copy of the memory, and calls memcpy and memset.
 *
 * Proved: JudgeForCSettled, crates/c_judge/specs/Verdict.antt; that the answer named is the first:
 * names_the_first, crates/c_judge/proofs/Laws.antt. Allocates nothing, keeps nothing, thread-safe.
 */
FM3130_TWO_WORDS
struct fm3130_judgement fm3130_judge(const uint8_t *file, uint64_t file_length);

/*
 * Two masters on one device: the rig's controller and a handheld. Who holds the bus is one byte
 * beside the image, which the caller keeps: 0 (nobody) at first, then as these two functions leave
 * it. A master asks for the bus, calls as often as it likes, and the bus is freed when a call ends
 * whose last Stop, event 5 or event 6 has no Start after it, whoever made that call.
 *
 * A read may rely on this. From a device between transfers whose bus nobody holds, a transaction
 * that sets its address and reads in the same transaction is answered the same, whatever the other
 * master did before, if the other wrote none of the bytes that are read and no register and did not
 * read 00h, this master got no number 7 and set the address of each of its register reads in the
 * same transaction, and the ticks and power events are the same (SameAnswers,
 * crates/law_assurance/specs/Same.antt).
 *
 * A READ FROM THE CURRENT ADDRESS HAS NO SUCH ASSURANCE: both addresses are as the last transfer
 * left them, whoever made it. That it can give other bytes is proved too (NoAssurance,
 * crates/law_assurance/specs/Current.antt). Set the address, then read, in one transaction.
 */

/*
 * A master asks for the bus.
 *
 *   bus      bus_length bytes, must be 1 and enum fm3130_master; read and written
 *   master   FM3130_RIG or FM3130_HANDHELD
 *
 * Returns  bus
 *   0      master: it holds the bus. One that held it already is answered too.
 *   2      unchanged: bus_length is not 1, its byte is above 2, or master is neither 1 nor 2
 *   7      unchanged: the other holds the bus
 *
 * Proved: AskSettled, crates/c_masters/specs/Outcome.antt. Allocates nothing, keeps nothing,
 * thread-safe on distinct buffers.
 */
uint64_t fm3130_ask(uint8_t *bus, uint64_t bus_length, uint64_t master);

/*
 * A master's call of the list run. Image, memory and answers are those of fm3130_run with the same
 * events. A call without events 0 to 3 needs no bus: ticks and power events belong to neither.
 *
 *   bus      bus_length bytes, must be 1 and enum fm3130_master; read and written
 *   master   FM3130_RIG or FM3130_HANDHELD
 *   image, memory, events, answers   as fm3130_run takes them
 *
 * Returns                       bus                        image, memory, answers
 *   number 0, count the events  0 if the last Stop, event  as fm3130_run leaves them
 *                               5 or event 6 has no Start
 *                               after it; else unchanged
 *   number 1 to 4 or 7,         unchanged                  unchanged
 *   count 0
 *
 * Tested in this order:
 *   1      memory_length is not 8,192
 *   2      image_length is not 64, or no well-formed state writes the image; bus_length is not 1,
 *          its byte is above 2, or master is neither 1 nor 2
 *   3      some event byte is above 7
 *   7      some event is 0 to 3 and the master does not hold the bus as the call begins
 *   4      answers_length is less than events_length
 *
 * Proved: CallSettled, crates/c_masters/specs/Outcome.antt. Allocates nothing, keeps nothing,
 * thread-safe on distinct buffers.
 */
FM3130_TWO_WORDS
struct fm3130_ran fm3130_call(uint8_t *bus, uint64_t bus_length, uint64_t master, uint8_t *image,
                              uint64_t image_length, uint8_t *memory, uint64_t memory_length,
                              const uint8_t *events, uint64_t events_length, uint8_t *answers,
                              uint64_t answers_length);

/*
 * Trim settings of another maker's clock (document 002), which knows nothing of a device.
 *
 * Its crystal's cycles are measured over a 64-minute cycle, minus 125,829,120: that is the error,
 * from -20,000 to 20,000. A setting is a sign and a code of 0 to 31, which says how many steps: plus
 * adds 512 cycles a step, minus takes 256 away. What is left of the error is its residue. A setting
 * is accepted exactly if no setting leaves a residue nearer to zero; several may be.
 */

/* Signs. The values are those of the sign bit in that clock's control register. */
enum fm3130_trim_sign {
    FM3130_TRIM_MINUS = 0, /* minus: takes 256 cycles away a step */
    FM3130_TRIM_PLUS = 1   /* plus: adds 512 cycles a step */
};

/*
 * Verdicts on a setting. 2 to 4 are refusals; they are tested in this order, and the first that
 * applies is given.
 */
enum fm3130_trim_verdict {
    FM3130_TRIM_ACCEPTED = 0,           /* no setting leaves a smaller distance from zero */
    FM3130_TRIM_NOT_NEAREST = 1,        /* some setting leaves a smaller distance from zero */
    FM3130_TRIM_UNKNOWN_SIGN = 2,       /* sign is neither 0 nor 1 */
    FM3130_TRIM_ERROR_OUT_OF_RANGE = 3, /* error is not from -20,000 to 20,000 */
    FM3130_TRIM_CODE_ABOVE_31 = 4       /* code is above 31 */
};

/* What the proposer returns where it refuses: one more than the greatest setting. */
#define FM3130_TRIM_REFUSED 64

/*
 * Judges a setting, whoever proposed it.
 *
 *   error    the measured error in cycles, any value
 *   sign     enum fm3130_trim_sign, any value
 *   code     how many steps, any value
 *
 * Returns enum fm3130_trim_verdict
 *   0      accepted: the error is in range, the code at most 31, and no setting with a code of at
 *          most 31 leaves a smaller distance from zero
 *   1      error and setting are as they should be, but some setting leaves a smaller distance
 *   2      refused: sign is neither 0 (minus) nor 1 (plus)
 *   3      refused: error is below -20,000 or above 20,000
 *   4      refused: code is above 31
 *
 * So error 128 accepts code 0 with either sign and minus 1; error -600 accepts plus 1 alone.
 *
 * Proved: CheckNumberSettled, crates/c_trim/specs/Entries.antt. Allocates nothing, keeps nothing,
 * thread-safe.
 */
uint64_t fm3130_trim_check(int32_t error, uint64_t sign, uint64_t code);

/*
 * What a setting leaves of an error: error + 512 * code for plus, error - 256 * code for minus.
 *
 *   error, sign, code   as above, any values
 *
 * Returns the residue, -27,936 to 35,872; and 0 where fm3130_trim_check, on the same inputs,
 * returns 2, 3 or 4.
 *
 * Error -600 with plus 1 leaves -88.
 *
 * Proved: ResidueSettled, crates/c_trim/specs/Entries.antt. Allocates nothing, keeps nothing,
 * thread-safe.
 */
int32_t fm3130_trim_residue(int32_t error, uint64_t sign, uint64_t code);

/*
 * Proposes a setting for an error.
 *
 *   error    the measured error in cycles, any value
 *
 * Returns
 *   0 to 63   a setting, as bits 5 to 0 of that clock's control register hold it: the sign is the
 *             number / 32, the code the number % 32. fm3130_trim_check returns 0 for it.
 *   64        FM3130_TRIM_REFUSED: error is below -20,000 or above 20,000
 *
 * Proved: ProposeNumberSettled, crates/c_trim/specs/Entries.antt; that the setting is always
 * accepted: proposed_number_accepted, crates/c_trim/proofs/Numbers.antt. Allocates nothing, keeps
 * nothing, thread-safe.
 */
uint64_t fm3130_trim_propose(int32_t error);

#ifdef __cplusplus
}
#endif

#endif /* FM3130_H */
