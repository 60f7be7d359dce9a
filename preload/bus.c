// SPDX-License-Identifier: Apache-2.0
// The bus behind a device file: state in a file, bytes as clocks, messages as bytes. See bus.h.
#define _GNU_SOURCE
#include "bus.h"

#include <dlfcn.h>
#include <errno.h>
#include <fcntl.h>
#include <stdio.h>
#include <stdlib.h>
#include <string.h>
#include <sys/file.h>
#include <sys/syscall.h>
#include <time.h>
#include <unistd.h>

#include <fm31.h>
#include <fm3130.h>

// What `fm3130 bus` tells the programs below it.
#define NUMBER_VARIABLE "FM3130_BUS_NUMBER"
#define STATE_VARIABLE "FM3130_BUS_STATE" // the file
#define PLAN_VARIABLE                                                                              \
    "FM3130_BUS_PLAN" // a digit a device, its plan byte (fm31.h); empty for an FM3130
#define BEGIN_VARIABLE                                                                             \
    "FM3130_BUS_BEGIN" // when seconds began to pass, on CLOCK_REALTIME; empty where none do

// An answer that was not given: bit 0 of it is a line that nobody pulls.
#define UNANSWERED 1

#define CLOCKS_OF_A_BYTE 9
#define MOST_MEMORY_BYTES ((uint64_t)FM31_SET_MOST * FM31256_MEMORY_BYTES)

// The devices, as the file has them.
struct bus {
    uint8_t plan[FM31_SET_MOST];
    unsigned devices; // of the larger family; 0 is one FM3130
    uint8_t images[FM31_SET_MOST * FM31_IMAGE_BYTES];
    uint8_t memories[MOST_MEMORY_BYTES];
    uint64_t ticks; // done so far
};

static int fail(const char *words, uint64_t number) {
    fprintf(stderr, "fm3130 bus: %s (%llu)\n", words, (unsigned long long)number);
    return EIO;
}

int bus_number(void) {
    const char *word = getenv(NUMBER_VARIABLE);
    return word != NULL && *word != '\0' ? atoi(word) : -1;
}

static uint64_t images_length(const struct bus *bus) {
    return (uint64_t)FM31_IMAGE_BYTES * (bus->devices == 0 ? 1 : bus->devices);
}

// The bytes of the memory of a device, by its plan byte.
static uint64_t memory_of(const struct bus *bus, unsigned place) {
    if (bus->devices == 0) {
        return place == 0 ? FM3130_MEMORY_BYTES : 0;
    }
    if (place >= bus->devices) {
        return 0;
    }
    return bus->plan[place] & FM31_PLAN_256(0) ? FM31256_MEMORY_BYTES : FM3164_MEMORY_BYTES;
}

static uint64_t memories_length(const struct bus *bus) {
    uint64_t length = 0;
    for (unsigned place = 0; place < FM31_SET_MOST; place++) {
        length += memory_of(bus, place);
    }
    return length;
}

static int read_plan(struct bus *bus) {
    const char *plan = getenv(PLAN_VARIABLE);
    for (bus->devices = 0; plan != NULL && plan[bus->devices] != '\0'; bus->devices++) {
        if (bus->devices == FM31_SET_MOST) {
            return fail("more than four devices", FM31_WRONG_COUNT);
        }
        bus->plan[bus->devices] = (uint8_t)(plan[bus->devices] - '0');
    }
    return 0;
}

// Reads or writes all bytes of a part of the file, by the system call: these are not the functions
// that are replaced.
static int whole(int is_write, int file, void *bytes, uint64_t length, uint64_t offset) {
    long call = is_write ? SYS_pwrite64 : SYS_pread64;
    for (uint64_t done = 0; done < length;) {
        long some = syscall(call, file, (uint8_t *)bytes + done, length - done, offset + done);
        if (some <= 0) {
            return fail("the file of the device cannot be read or written", (uint64_t)errno);
        }
        done += (uint64_t)some;
    }
    return 0;
}

// The three parts of the file, one after the other.
static int move_state(int is_write, int file, struct bus *bus) {
    uint8_t ticks[8];
    uint64_t images = images_length(bus), memories = memories_length(bus);
    for (unsigned place = 0; place < sizeof ticks; place++) {
        ticks[place] = (uint8_t)(bus->ticks >> 8 * place);
    }
    int error = whole(is_write, file, bus->images, images, 0);
    error = error != 0 ? error : whole(is_write, file, bus->memories, memories, images);
    error = error != 0 ? error : whole(is_write, file, ticks, sizeof ticks, images + memories);
    bus->ticks = 0;
    for (unsigned place = 0; place < sizeof ticks; place++) {
        bus->ticks |= (uint64_t)ticks[place] << 8 * place;
    }
    return error;
}

// Does events; the answers say what came of each. A refusal does nothing, and is no answer.
static int run(struct bus *bus, const uint8_t *events, uint64_t count, uint8_t *answers) {
    memset(answers, UNANSWERED, count);
    if (bus->devices == 0) {
        struct fm3130_ran ran = fm3130_run(bus->images, FM3130_IMAGE_BYTES, bus->memories,
                                           FM3130_MEMORY_BYTES, events, count, answers, count);
        return ran.number == FM3130_OK ? 0 : fail("the device refuses", ran.number);
    }
    uint8_t *memory[FM31_SET_MOST] = {bus->memories, bus->memories, bus->memories, bus->memories};
    for (unsigned place = 1; place < FM31_SET_MOST; place++) {
        memory[place] = memory[place - 1] + memory_of(bus, place - 1);
    }
    uint64_t number =
        fm31_set_run(bus->plan, bus->devices, bus->images, images_length(bus), memory[0],
                     memory_of(bus, 0), memory[1], memory_of(bus, 1), memory[2], memory_of(bus, 2),
                     memory[3], memory_of(bus, 3), events, count, answers, count);
    return number == FM31_OK ? 0 : fail("the devices refuse", number);
}

// Lets the seconds pass that have passed. Parts of the larger family have no clock.
static int catch_up(struct bus *bus) {
    const char *begin = getenv(BEGIN_VARIABLE);
    struct timespec now;
    if (bus->devices != 0 || begin == NULL || *begin == '\0' ||
        clock_gettime(CLOCK_REALTIME, &now) != 0) {
        return 0;
    }
    double passed = (double)now.tv_sec + (double)now.tv_nsec / 1e9 - strtod(begin, NULL);
    uint64_t due = passed > 0 ? (uint64_t)passed : 0;
    while (bus->ticks < due) {
        uint64_t ticks = due - bus->ticks;
        ticks = ticks < FM3130_MOST_TICKS ? ticks : FM3130_MOST_TICKS;
        uint64_t number = fm3130_catch_up(bus->images, FM3130_IMAGE_BYTES, ticks);
        if (number != FM3130_OK) {
            return fail("the device refuses ticks", number);
        }
        bus->ticks += ticks;
    }
    return 0;
}

static int condition(struct bus *bus, uint8_t event) {
    uint8_t answer;
    return run(bus, &event, 1, &answer);
}

// Writes a byte; ENODATA stands for one that is not acknowledged.
static int send(struct bus *bus, uint8_t byte) {
    uint8_t events[CLOCKS_OF_A_BYTE], answers[CLOCKS_OF_A_BYTE];
    for (unsigned bit = 0; bit < 8; bit++) {
        events[bit] = byte >> (7 - bit) & 1 ? FM3130_CLOCK_HIGH : FM3130_CLOCK_LOW;
    }
    events[8] = FM3130_CLOCK_HIGH;
    int error = run(bus, events, CLOCKS_OF_A_BYTE, answers);
    if (error != 0) {
        return error;
    }
    return answers[8] & FM3130_ANSWER_LINE ? ENODATA : 0;
}

// Reads a byte, and acknowledges it where the read goes on.
static int receive(struct bus *bus, int goes_on, uint8_t *byte) {
    uint8_t events[CLOCKS_OF_A_BYTE], answers[CLOCKS_OF_A_BYTE];
    memset(events, FM3130_CLOCK_HIGH, sizeof events);
    events[8] = goes_on ? FM3130_CLOCK_LOW : FM3130_CLOCK_HIGH;
    int error = run(bus, events, CLOCKS_OF_A_BYTE, answers);
    *byte = 0;
    for (unsigned bit = 0; bit < 8; bit++) {
        *byte = (uint8_t)(*byte << 1 | (answers[bit] & FM3130_ANSWER_LINE));
    }
    return error;
}

static int do_message(struct bus *bus, const struct i2c_msg *message) {
    int reads = (message->flags & I2C_M_RD) != 0;
    int error = condition(bus, FM3130_START);
    error = error != 0 ? error : send(bus, (uint8_t)(message->addr << 1 | reads));
    if (error != 0) {
        return error == ENODATA ? ENXIO : error;
    }
    for (unsigned place = 0; place < message->len && error == 0; place++) {
        error = reads ? receive(bus, place + 1u < message->len, &message->buf[place])
                      : send(bus, message->buf[place]);
    }
    return error == ENODATA ? EREMOTEIO : error;
}

// Does messages on devices that are in memory.
static int do_messages(struct bus *bus, const struct i2c_msg *messages, unsigned count) {
    int error = catch_up(bus);
    for (unsigned place = 0; place < count && error == 0; place++) {
        error = do_message(bus, &messages[place]);
    }
    int stopped = condition(bus, FM3130_STOP);
    return error != 0 ? error : stopped;
}

int bus_transfer(const struct i2c_msg *messages, unsigned count) {
    const char *name = getenv(STATE_VARIABLE);
    struct bus *bus = calloc(1, sizeof *bus);
    if (name == NULL || bus == NULL) {
        free(bus);
        return ENOMEM;
    }
    int file = (int)syscall(SYS_openat, AT_FDCWD, name, O_RDWR | O_CLOEXEC, 0);
    int error = file < 0 ? fail("the file of the device cannot be opened", (uint64_t)errno)
                         : read_plan(bus);
    if (error == 0 && flock(file, LOCK_EX) != 0) {
        error = fail("the file of the device cannot be locked", (uint64_t)errno);
    }
    error = error != 0 ? error : move_state(0, file, bus);
    if (error == 0) {
        error = do_messages(bus, messages, count);
        // What a device did before a byte that it does not acknowledge is done.
        int kept = error == EIO ? 0 : move_state(1, file, bus);
        error = error != 0 ? error : kept;
    }
    if (file >= 0) {
        syscall(SYS_close, file);
    }
    free(bus);
    return error;
}
