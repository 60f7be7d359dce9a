/* SPDX-License-Identifier: Apache-2.0 */
/*
 * fm31.h: a verified stand-in for the larger family, for C and C++: the part with two event
 * counters and a lockable serial number, in its 64Kb size (FM3164) and its 256Kb size (FM31256).
 *
 * The part is on the same two-wire bus as the FM3130 and is played in the same way, at the level of
 * single bus clocks: a host gives event bytes and gets one answer byte for each. It has no calendar
 * and no alarm. Its watchdog, reset and charger bits are kept as documented but drive nothing.
 *
 * A device is two buffers of the caller: an image of 64 bytes (all its state) and a memory of 8,192
 * or 32,768 bytes. They are plain bytes: copy, store and compare them at will, also in the middle
 * of a transfer. The image's first 16 bytes are registers 09h to 18h; docs/FAMILY.md has the rest,
 * and the rules of the part. The image does not say its size: that is chosen by the function
 * called.
 *
 *   fm31_fresh           makes the image of a fresh device of either size
 *   fm3164_run           does a list of events on a device of 8,192 bytes
 *   fm3164_step          does one event on it
 *   fm3164_view_number   whether a part of its memory or of its registers can be viewed
 *   fm3164_view          that part itself, never a copy (an inline function, below)
 *   fm31256_run          the same four for a device of 32,768 bytes
 *   fm31256_step
 *   fm31256_view_number
 *   fm31256_view
 *   fm31_set_check       whether up to four devices can share one line
 *   fm31_set_run         does a list of events on the devices of such a set
 *
 * A first call; docs/GUIDE.md has a whole program, which counts how often a lamp is switched:
 *
 *   static uint8_t image[FM31_IMAGE_BYTES], memory[FM3164_MEMORY_BYTES];
 *   static const uint8_t events[] = {FM31_EDGE_1, FM31_EDGE_1, FM31_EDGE_2};
 *   uint8_t answers[sizeof events];
 *   fm31_fresh(image, sizeof image);
 *   fm3164_run(image, sizeof image, memory, sizeof memory,
 *              events, sizeof events, answers, sizeof answers);
 *   // image[FM31_PLACE(FM31_COUNTER_1_LOW)] is 2
 *
 * Link with libfm3130.a, which holds these functions too. On 64-bit targets they need no other
 * library; what they need on controllers, and the archive's version, FM3130_VERSION, are in
 * fm3130.h. The two headers can be used together. No function here returns a struct, so this header
 * is the same on 32-bit targets.
 *
 * For every function: Allocates nothing, keeps nothing, thread-safe on distinct buffers. It does
 * no input or output and always returns.
 *
 * The caller's duties, for every function, are those of fm3130.h:
 *   - No pointer is null, also where its length is 0: an empty buffer is any valid address.
 *   - Each buffer has at least as many bytes as its length says; those it writes can be written.
 *   - No two buffers of a call overlap.
 *   - Nobody else writes to the buffers of a call while it runs.
 * Breaking one is undefined behaviour, not a refusal. Nothing else is asked. Every length and every
 * byte in the buffers is allowed, and what cannot be done is refused by a number.
 *
 * What is proved: for all lengths and bytes, what is returned and what is left in every buffer is
 * one definition of what was given, so no second outcome is possible. The contract is named at
 * each function, with the file that defines it, and that it leaves no choice is proved too. Not
 * proved: the compiler, and the inline functions in this header, which are tested (tests/c).
 */
#ifndef FM31_H
#define FM31_H

#include <stdint.h>

#ifdef __cplusplus
extern "C" {
#endif

/* Sizes in bytes. The registers are the front of the image. */
#define FM31_IMAGE_BYTES 64
#define FM31_REGISTER_BYTES 16
#define FM3164_MEMORY_BYTES 8192
#define FM31256_MEMORY_BYTES 32768

/* Events, one byte each. The list run refuses any greater byte. 0 to 7 are those of the FM3130. */
enum fm31_event {
    FM31_START = 0,                     /* Start */
    FM31_STOP = 1,                      /* Stop */
    FM31_CLOCK_LOW = 2,                 /* Clock with the master's data line low */
    FM31_CLOCK_HIGH = 3,                /* Clock with it high, that is, released */
    FM31_TICK = 4,                      /* one-second tick; changes nothing in this part */
    FM31_POWER_LOST_WITH_BACKUP = 5,    /* main power lost, backup present */
    FM31_POWER_LOST_WITHOUT_BACKUP = 6, /* main power lost, no backup */
    FM31_POWER_RETURNED = 7,            /* main power returned */
    FM31_EDGE_1 = 8,                    /* an edge on CNT1, already filtered by its polarity */
    FM31_EDGE_2 = 9                     /* an edge on CNT2, already filtered by its polarity */
};

/*
 * Answers, one byte for each event. Bits 1 to 7 are 0.
 *   bit 0  the line: for a Clock, low (0) if the master or the device pulls it low; else 1
 */
#define FM31_ANSWER_LINE 0x01u

/*
 * Registers, 09h to 18h. An address byte outside them is not acknowledged; the companion's address
 * begins at 09h, also after a loss of power, and goes from 18h to 09h.
 */
enum fm31_register {
    FM31_FLAGS = 0x09,          /* Watchdog Restart/Flags */
    FM31_WATCHDOG = 0x0A,       /* Watchdog Control */
    FM31_CONTROL = 0x0B,        /* Companion Control */
    FM31_COUNTING = 0x0C,       /* Event Count Control */
    FM31_COUNTER_1_LOW = 0x0D,  /* Event Counter 1 LSB */
    FM31_COUNTER_1_HIGH = 0x0E, /* Event Counter 1 MSB */
    FM31_COUNTER_2_LOW = 0x0F,  /* Event Counter 2 LSB */
    FM31_COUNTER_2_HIGH = 0x10, /* Event Counter 2 MSB */
    FM31_SERIAL_FIRST = 0x11,   /* Serial Number 0 */
    FM31_SERIAL_LAST = 0x18     /* Serial Number 7 */
};

/* Where a register stands in the image: FM31_PLACE(FM31_COUNTER_1_LOW) is 4. */
#define FM31_PLACE(address) ((address)-FM31_FLAGS)

/* Bits of 09h. The flags are set by the part, and a write can clear them, never set them. */
#define FM31_WTR 0x80u /* watchdog reset; nothing sets it here */
#define FM31_POR 0x40u /* main power returned after backup, or both supplies were gone */
#define FM31_LB 0x20u  /* both supplies were gone */
#define FM31_WR 0x0Fu  /* WR3 to WR0, stored as written */

/* Bits of 0Bh. */
#define FM31_SNL 0x80u /* the serial number is locked for good: a write can set it, never clear */
#define FM31_WP 0x18u  /* WP1 and WP0: 08h protects the bottom quarter, 10h half, 18h all */

/* Bits of 0Ch. */
#define FM31_RC 0x08u  /* reads of 0Dh to 10h show the snapshot taken when it was written as 1 */
#define FM31_CC 0x04u  /* one counter of 32 bits on CNT1, counter 1 its low half */
#define FM31_C2P 0x02u /* polarity of CNT2; edges come filtered, so it changes nothing */
#define FM31_C1P 0x01u /* polarity of CNT1; the same */

/*
 * Numbers. 0 is done; every other is a refusal, under which no buffer is written. They are tested
 * in this order, each function those that are named there, and the first that applies is given; of
 * a set 9 is tested before all others.
 */
enum fm31_number {
    FM31_OK = 0,               /* none below */
    FM31_WRONG_MEMORY = 1,     /* memory has the wrong length for the chosen size */
    FM31_WRONG_STATE = 2,      /* image is not 64 bytes, or no well-formed state of the chosen size
                                  writes it (the viewer tests length only) */
    FM31_UNKNOWN_EVENT = 3,    /* some event byte is above 9 */
    FM31_SHORT_ANSWERS = 4,    /* answers shorter than events; one event: told is empty */
    FM31_UNKNOWN_SELECTOR = 5, /* viewer: selector neither 0 (memory) nor 1 (registers) */
    FM31_PAST_THE_END = 6,     /* viewer: start + length (exact sum) passes the end of the chosen
                                  bytes */
    FM31_WRONG_COUNT = 9,      /* set: not one to four devices; 7 and 8 are the FM3130's */
    FM31_EQUAL_SELECTS = 10,   /* set: two devices have the same select bits */
    FM31_IN_TRANSFER = 11      /* set: a device is not between transfers; in a list run: two devices
                                  stand as no two of a made set can */
};

/* What one event tells: its answer byte. */
#define FM31_TOLD_BYTES 1

/* The viewer's selectors. */
enum fm31_selector {
    FM31_VIEW_MEMORY = 0,   /* the 8,192 or 32,768 bytes of memory */
    FM31_VIEW_REGISTERS = 1 /* the first 16 bytes of the image, registers 09h to 18h */
};

/*
 * Makes a fresh device, of either size: POR and LB are 1, all other registers 0, power on, no
 * transfer, the memory's address 0000h, the companion's 09h. The memory is not part of it: FRAM
 * keeps its bytes, and any bytes of the right number are a memory.
 *
 *   image    image_length bytes, should be 64; written
 *
 * Returns  image
 *   0      the fresh image, all 64 bytes
 *   2      unchanged (its length is not 64)
 *
 * Proved: FreshSettled, crates/c_fm31/specs/Fresh.antt. Allocates nothing, keeps nothing,
 * thread-safe on distinct buffers.
 */
uint64_t fm31_fresh(uint8_t *image, uint64_t image_length);

/*
 * Does a list of events, one by one, on a device of 8,192 bytes. All that can be refused is tested
 * before the first event is done. A list may be cut into pieces at any place, each piece a call:
 * the outcome is the same. An empty list is accepted.
 *
 * Counters. An edge (event 8 or 9) counts while main power or the backup is present, between the
 * clocks of a byte too, and during a write. A counter has 16 bits, its low byte first, and goes
 * from FFFFh to 0000h. While CC is 1 the two are one counter of 32 bits on CNT1, which goes from
 * FFFFFFFFh to 0, and edges on CNT2 do not count.
 *
 * Frozen reads. A byte written to 0Ch with RC = 1 copies the four counter bytes. While RC is 1,
 * reads of 0Dh to 10h send the copy, and the counters run on. RC clears itself when 10h was read to
 * its eighth clock; a write of 0Ch with RC = 0 clears it too.
 *
 * Serial number. Once SNL is 1 no event of any kind changes 11h to 18h or SNL, loss of both
 * supplies included; data bytes written there are acknowledged and not stored. Proved:
 * SerialLocked, crates/fm31/specs/Lock.antt, of every list from every state; CallLocks,
 * crates/law_larger/specs/Entry.antt, of the image that a call leaves.
 *
 * A memory data byte is not acknowledged, and ends its transfer, where its address is protected:
 * nothing is stored, and the address steps on. Address bits above the size are ignored. Proved of a
 * call, crates/law_larger/specs/Entry.antt: an acknowledged byte is stored (CallStores), a protected
 * address is unchanged (CallKeeps).
 *
 *   image    image_length bytes, must be 64 and an image that fm31_fresh or this function left, or
 *            any other that keeps the limits in docs/FAMILY.md; read and written
 *   memory   memory_length bytes, must be 8,192, any values; read and written
 *   events   events_length bytes, any number of them, each at most 9; read
 *   answers  answers_length bytes, at least as many as events; written
 *
 * Returns  image              memory          answers
 *   0      the state after    the bytes       one byte for each event; bytes past them are
 *          the last event     after it        unchanged
 *   1 to 4 unchanged          unchanged       unchanged
 *
 *   1      memory_length is not 8,192
 *   2      image_length is not 64, or no well-formed state of this size writes the image
 *   3      some event byte is above 9
 *   4      answers_length is less than events_length
 *
 * There is no count: it is the number of events, or 0 under a refusal.
 *
 * Proved: RunSettled, crates/c_fm31/specs/Run.antt. Allocates nothing, keeps nothing, thread-safe on
 * distinct buffers.
 */
uint64_t fm3164_run(uint8_t *image, uint64_t image_length, uint8_t *memory, uint64_t memory_length,
                    const uint8_t *events, uint64_t events_length, uint8_t *answers,
                    uint64_t answers_length);

/*
 * Does one event on a device of 8,192 bytes. Image, memory and answer byte are those of fm3164_run
 * on the list of this one event.
 *
 *   image    image_length bytes, must be 64 and an image as fm3164_run takes it; read and written
 *   memory   memory_length bytes, must be 8,192, any values; read and written
 *   event    enum fm31_event
 *   told     told_length bytes, at least FM31_TOLD_BYTES; written
 *
 * Returns  image              memory          told
 *   0      the state after    the bytes       the answer byte; bytes past it are unchanged
 *          the event          after it
 *   1 to 4 unchanged          unchanged       unchanged
 *
 *   1      memory_length is not 8,192
 *   2      image_length is not 64, or no well-formed state of this size writes the image
 *   3      event is above 9
 *   4      told_length is 0
 *
 * Proved: SingleSettled, crates/c_fm31/specs/Single.antt, which says that it is the list run on
 * this one event. Allocates nothing, keeps nothing, thread-safe on distinct buffers.
 */
uint64_t fm3164_step(uint8_t *image, uint64_t image_length, uint8_t *memory, uint64_t memory_length,
                     uint64_t event, uint8_t *told, uint64_t told_length);

/*
 * Whether a part of the memory or of the registers of a device of 8,192 bytes can be viewed.
 *
 *   image    image_length bytes, must be 64, any values; read
 *   memory   memory_length bytes, must be 8,192, any values; read
 *   selector enum fm31_selector
 *   start    the first byte of the part; the first register, 09h, is 0
 *   length   its bytes; 0 is accepted, also at the very end
 *
 * Returns; no buffer is written
 *   0      the part lies within the chosen bytes
 *   1      memory_length is not 8,192
 *   2      image_length is not 64 (whether a state writes it is not tested)
 *   5      selector is neither 0 nor 1
 *   6      start + length passes 8,192 or 16, the end of the chosen bytes; the sum is exact, it
 *          does not wrap
 *
 * Proved: ViewNumberSettled, crates/c_view/specs/View.antt. Allocates nothing, keeps nothing,
 * thread-safe on distinct buffers.
 */
uint64_t fm3164_view_number(const uint8_t *image, uint64_t image_length, const uint8_t *memory,
                            uint64_t memory_length, uint64_t selector, uint64_t start,
                            uint64_t length);

/*
 * The viewer: a part of the caller's memory or registers, never a copy. The part is as fresh and
 * lives as long as the buffer it lies in.
 *
 *   image    FM31_IMAGE_BYTES bytes, any values; read
 *   memory   FM3164_MEMORY_BYTES bytes, any values; read
 *   selector, start, length   as above
 *   number   not null; set to the number of fm3164_view_number, 0, 5 or 6
 *
 * Returns, under number 0, the address of the part: memory + start or image + start, with length
 * bytes there. Under every other number the part is empty: the address is memory, and none of its
 * bytes belong to the part.
 *
 * Tested, not proved: an exported function cannot return a reference. Allocates nothing, keeps
 * nothing, thread-safe on distinct buffers.
 */
static inline const uint8_t *fm3164_view(const uint8_t *image, const uint8_t *memory,
                                         uint64_t selector, uint64_t start, uint64_t length,
                                         uint64_t *number) {
    *number = fm3164_view_number(image, FM31_IMAGE_BYTES, memory, FM3164_MEMORY_BYTES, selector,
                                 start, length);
    if (*number != FM31_OK) {
        return memory;
    }
    return (selector == FM31_VIEW_MEMORY ? memory : image) + start;
}

/*
 * The same four for a device of 32,768 bytes: each is as its neighbour above, with 32,768 in place
 * of 8,192 and FM31256_MEMORY_BYTES in place of FM3164_MEMORY_BYTES. The memory goes from 7FFFh to
 * 0000h, and the highest address bit is ignored. An image of the smaller device is one of this
 * device too; the other way round it is refused by 2 if its memory address is above 1FFFh.
 *
 * Proved: the same definitions, which are over the size. Allocate nothing, keep nothing,
 * thread-safe on distinct buffers.
 */

/* Does a list of events; see fm3164_run. Proved: RunSettled, crates/c_fm31/specs/Run.antt. */
uint64_t fm31256_run(uint8_t *image, uint64_t image_length, uint8_t *memory, uint64_t memory_length,
                     const uint8_t *events, uint64_t events_length, uint8_t *answers,
                     uint64_t answers_length);

/* Does one event; see fm3164_step. Proved: SingleSettled, crates/c_fm31/specs/Single.antt. */
uint64_t fm31256_step(uint8_t *image, uint64_t image_length, uint8_t *memory,
                      uint64_t memory_length, uint64_t event, uint8_t *told, uint64_t told_length);

/*
 * Whether a part can be viewed; see fm3164_view_number. Proved: ViewNumberSettled,
 * crates/c_view/specs/View.antt.
 */
uint64_t fm31256_view_number(const uint8_t *image, uint64_t image_length, const uint8_t *memory,
                             uint64_t memory_length, uint64_t selector, uint64_t start,
                             uint64_t length);

/* The viewer; see fm3164_view. Tested, not proved. */
static inline const uint8_t *fm31256_view(const uint8_t *image, const uint8_t *memory,
                                          uint64_t selector, uint64_t start, uint64_t length,
                                          uint64_t *number) {
    *number = fm31256_view_number(image, FM31_IMAGE_BYTES, memory, FM31256_MEMORY_BYTES, selector,
                                  start, length);
    if (*number != FM31_OK) {
        return memory;
    }
    return (selector == FM31_VIEW_MEMORY ? memory : image) + start;
}

/*
 * A set: one to four devices on one line, which is low if the master or any device pulls it low. A
 * set is a plan, one byte a device; the images of its devices, one after the other, 64 bytes each;
 * and a memory for each device, in a buffer of its own. A place past the plan has no image, and its
 * memory is never looked at: lend an empty buffer there.
 *
 * A byte of the plan: bits 1 and 0 are the device's select bits, which bits 2 and 1 of a slave byte
 * must equal to name it; bit 2 is 1 for a device of 32,768 bytes; the other bits are 0. Select bits
 * 00 are those of a device that is alone on its line.
 */
#define FM31_SET_MOST 4
#define FM31_PLAN_64(select) ((uint8_t)(select))
#define FM31_PLAN_256(select) ((uint8_t)(0x04u | (select)))

/*
 * Events of a set: 0 to 7 reach every device. An edge names its device by its place, 0 to 3: 8 and 9
 * are CNT1 and CNT2 of the first, 10 and 11 of the second, and so on.
 */
#define FM31_SET_EDGE_1(place) ((uint8_t)(8 + 2 * (place)))
#define FM31_SET_EDGE_2(place) ((uint8_t)(9 + 2 * (place)))

/*
 * Whether a set can be made.
 *
 *   plan     plan_length bytes, one a device; read
 *   images   images_length bytes, must be 64 a device, each an image of its size; read
 *   one .. four   the memories of the first to the fourth device, 8,192 or 32,768 bytes as its byte
 *            of the plan says; read
 *
 * Returns; no buffer is written. Tested in this order:
 *   9      the plan has not one to four bytes
 *   1      a memory has the wrong length for the size of its device
 *   2      a byte of the plan is above 7, images_length is not 64 a device, or no well-formed state
 *          of that size and those select bits writes an image
 *   10     two devices have the same select bits
 *   11     a device is not between transfers
 *   0      none of these: the set can be made
 *
 * Proved: CheckSettled, crates/c_fm31set/specs/Entry.antt; that 9 is given exactly then:
 * CountExactly, crates/c_fm31set/specs/Count.antt. Allocates nothing, keeps nothing, thread-safe on
 * distinct buffers.
 */
uint64_t fm31_set_check(const uint8_t *plan, uint64_t plan_length, const uint8_t *images,
                        uint64_t images_length, const uint8_t *one, uint64_t one_length,
                        const uint8_t *two, uint64_t two_length, const uint8_t *three,
                        uint64_t three_length, const uint8_t *four, uint64_t four_length);

/*
 * Does a list of events on a set. Each device does what it would do alone on the events that it
 * hears, except that a slave byte names it by its own select bits; a whole transaction that names
 * one device leaves the others, once ended, as they were. A list may be cut into pieces at any
 * place, each piece a call: the outcome is the same, so a set may be inside a transfer here, as far
 * as a set that was made comes to be: of each two devices one is in no transfer, or both are in the
 * same slave byte, before its acknowledge. Of such a set no two devices pull the line low at once.
 *
 *   plan, images, one .. four   as above; images and the memories of the devices are written
 *   events   events_length bytes, each below 8 + 2 times the number of devices; read
 *   answers  answers_length bytes, at least as many as events; written
 *
 * Returns         images and memories            answers
 *   0             those that the events lead to  one byte for each event, the line; bytes past
 *                                                them are unchanged
 *   any other     unchanged                      unchanged
 *
 * Tested in this order:
 *   9      as above
 *   1, 2   as above
 *   3      some event byte names no device of the set
 *   4      answers_length is less than events_length
 *   10     as above
 *   11     two devices are both in a transfer, and not in the same slave byte before its
 *          acknowledge: a set that fm31_set_check took and this function left is never refused so
 *
 * Proved: RunSettled, crates/c_fm31set/specs/Entry.antt; that 9 is given exactly then: CountExactly,
 * crates/c_fm31set/specs/Count.antt; that each device does as alone: AsAlone,
 * crates/law_ensemble/specs/Alone.antt; that after a set was made only 3 and 4 are given, call after
 * call: MadeRuns and RunsAgain, crates/law_ensemble/specs/Again.antt; that no two devices pull the line
 * low at once: OnePulls, crates/law_ensemble/specs/Pulls.antt. Allocates nothing, keeps nothing,
 * thread-safe on distinct buffers.
 */
uint64_t fm31_set_run(const uint8_t *plan, uint64_t plan_length, uint8_t *images,
                      uint64_t images_length, uint8_t *one, uint64_t one_length, uint8_t *two,
                      uint64_t two_length, uint8_t *three, uint64_t three_length, uint8_t *four,
                      uint64_t four_length, const uint8_t *events, uint64_t events_length,
                      uint8_t *answers, uint64_t answers_length);

#ifdef __cplusplus
}
#endif

#endif /* FM31_H */
