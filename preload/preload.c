// SPDX-License-Identifier: Apache-2.0
// The functions of the C library that a program opens /dev/i2c-N with, for the number that `fm3130
// bus` gives: there the device is the proved one. All else goes to the C library.
#define _GNU_SOURCE
#include "bus.h"

#include <dlfcn.h>
#include <errno.h>
#include <fcntl.h>
#include <linux/i2c-dev.h>
#include <stdarg.h>
#include <stdio.h>
#include <stdlib.h>
#include <string.h>
#include <sys/stat.h>
#include <sys/types.h>
#include <unistd.h>

#define MOST_FILES 1024
#define MOST_ADDRESS 0x7F
#define MOST_MESSAGE_BYTES 8192 // as the kernel has it
#define KNOWN_FLAGS (I2C_M_RD)
#define FUNCTIONS                                                                                  \
    (I2C_FUNC_I2C | I2C_FUNC_SMBUS_QUICK | I2C_FUNC_SMBUS_BYTE | I2C_FUNC_SMBUS_BYTE_DATA |        \
     I2C_FUNC_SMBUS_WORD_DATA | I2C_FUNC_SMBUS_PROC_CALL | I2C_FUNC_SMBUS_WRITE_BLOCK_DATA |       \
     I2C_FUNC_SMBUS_I2C_BLOCK)

// The files that are ours, each with the address that I2C_SLAVE gave it.
static struct {
    int is_ours;
    uint16_t address;
} files[MOST_FILES];

// What is shown to other programs; the rest is hidden.
#define SHOWN __attribute__((visibility("default")))

// The next function of a name, which is the C library's.
#define NEXT(type, name) ((type)(uintptr_t)dlsym(RTLD_NEXT, name))

static int is_ours(int file) {
    return file >= 0 && file < MOST_FILES && files[file].is_ours;
}

// Whether a path is the device file, in one of the two forms that programs use.
static int names_bus(const char *path) {
    char wanted[2][32];
    int number = bus_number();
    if (path == NULL || number < 0) {
        return 0;
    }
    snprintf(wanted[0], sizeof wanted[0], "/dev/i2c-%d", number);
    snprintf(wanted[1], sizeof wanted[1], "/dev/i2c/%d", number);
    return strcmp(path, wanted[0]) == 0 || strcmp(path, wanted[1]) == 0;
}

static int failed(int error) {
    errno = error;
    return -1;
}

static int outcome(int error) {
    return error == 0 ? 0 : failed(error);
}

// A file of its own, which holds the place of ours.
static int open_bus(int flags) {
    int (*next)(const char *, int, ...) = NEXT(int (*)(const char *, int, ...), "open");
    int file = next("/dev/null", O_RDWR | (flags & O_CLOEXEC));
    if (file >= MOST_FILES) {
        close(file);
        return failed(EMFILE);
    }
    if (file >= 0) {
        files[file].is_ours = 1;
        files[file].address = 0;
    }
    return file;
}

// Only these have a third word; to take one that is not there would be undefined.
static mode_t mode_of(int flags, va_list words) {
    return flags & O_CREAT || (flags & O_TMPFILE) == O_TMPFILE ? (mode_t)va_arg(words, int) : 0;
}

#define OPEN(name)                                                                                 \
    SHOWN int name(const char *path, int flags, ...) {                                             \
        va_list words;                                                                             \
        va_start(words, flags);                                                                    \
        mode_t mode = mode_of(flags, words);                                                       \
        va_end(words);                                                                             \
        return names_bus(path) ? open_bus(flags)                                                   \
                               : NEXT(int (*)(const char *, int, ...), #name)(path, flags, mode);  \
    }

#define OPENAT(name)                                                                               \
    SHOWN int name(int folder, const char *path, int flags, ...) {                                 \
        va_list words;                                                                             \
        va_start(words, flags);                                                                    \
        mode_t mode = mode_of(flags, words);                                                       \
        va_end(words);                                                                             \
        return names_bus(path)                                                                     \
                   ? open_bus(flags)                                                               \
                   : NEXT(int (*)(int, const char *, int, ...), #name)(folder, path, flags, mode); \
    }

OPEN(open)
OPEN(open64)
OPENAT(openat)
OPENAT(openat64)

// Those of programs that were compiled with checks.
SHOWN int __open_2(const char *path, int flags) {
    return names_bus(path) ? open_bus(flags)
                           : NEXT(int (*)(const char *, int), "__open_2")(path, flags);
}

SHOWN int __open64_2(const char *path, int flags) {
    return names_bus(path) ? open_bus(flags)
                           : NEXT(int (*)(const char *, int), "__open64_2")(path, flags);
}

// `i2cdetect -l` asks here first for all buses.
static FILE *open_list(void) {
    char line[96];
    FILE *list = tmpfile();
    if (list != NULL) {
        snprintf(line, sizeof line, "i2c-%d\ti2c\tfm3130 bus\tproved stand-in\n", bus_number());
        fputs(line, list);
        rewind(list);
    }
    return list;
}

static int names_list(const char *path) {
    return path != NULL && strcmp(path, "/proc/bus/i2c") == 0 && bus_number() >= 0;
}

SHOWN FILE *fopen(const char *restrict path, const char *restrict mode) {
    return names_list(path) ? open_list()
                            : NEXT(FILE * (*)(const char *, const char *), "fopen")(path, mode);
}

SHOWN FILE *fopen64(const char *restrict path, const char *restrict mode) {
    return names_list(path) ? open_list()
                            : NEXT(FILE * (*)(const char *, const char *), "fopen64")(path, mode);
}

// Programs that look whether the file is there.
#define STAT(name, type)                                                                           \
    SHOWN int name(const char *restrict path, struct type *restrict status) {                      \
        return NEXT(int (*)(const char *, struct type *),                                          \
                    #name)(names_bus(path) ? "/dev/null" : path, status);                          \
    }

STAT(stat, stat)
STAT(stat64, stat64)
STAT(lstat, stat)
STAT(lstat64, stat64)

SHOWN int access(const char *path, int mode) {
    return NEXT(int (*)(const char *, int), "access")(names_bus(path) ? "/dev/null" : path, mode);
}

SHOWN int close(int file) {
    if (is_ours(file)) {
        files[file].is_ours = 0;
    }
    return NEXT(int (*)(int), "close")(file);
}

// A second number of one file: it has the address of the first, and then its own.
static int keep_second(int file, int second) {
    if (second >= 0 && second < MOST_FILES) {
        files[second].is_ours = 0;
        if (is_ours(file)) {
            files[second] = files[file];
        }
    }
    return second;
}

SHOWN int dup(int file) {
    return keep_second(file, NEXT(int (*)(int), "dup")(file));
}

SHOWN int dup2(int file, int wanted) {
    int second = NEXT(int (*)(int, int), "dup2")(file, wanted);
    return second == file ? second : keep_second(file, second);
}

SHOWN int dup3(int file, int wanted, int flags) {
    return keep_second(file, NEXT(int (*)(int, int, int), "dup3")(file, wanted, flags));
}

// One message: how many bytes were done.
static ssize_t message(int file, uint16_t flags, uint8_t *bytes, size_t length) {
    uint16_t some = (uint16_t)(length < MOST_MESSAGE_BYTES ? length : MOST_MESSAGE_BYTES);
    struct i2c_msg one = {files[file].address, flags, some, bytes};
    int error = bus_transfer(&one, 1);
    return error == 0 ? some : failed(error);
}

SHOWN ssize_t read(int file, void *bytes, size_t length) {
    if (is_ours(file)) {
        return message(file, I2C_M_RD, bytes, length);
    }
    return NEXT(ssize_t(*)(int, void *, size_t), "read")(file, bytes, length);
}

SHOWN ssize_t __read_chk(int file, void *bytes, size_t length, size_t room) {
    if (is_ours(file) && length <= room) {
        return message(file, I2C_M_RD, bytes, length);
    }
    return NEXT(ssize_t(*)(int, void *, size_t, size_t), "__read_chk")(file, bytes, length, room);
}

SHOWN ssize_t write(int file, const void *bytes, size_t length) {
    if (is_ours(file)) {
        return message(file, 0, (uint8_t *)(uintptr_t)bytes, length);
    }
    return NEXT(ssize_t(*)(int, const void *, size_t), "write")(file, bytes, length);
}

// Whether each message is one that this bus knows; nothing is on the wires before all are looked
// at.
static int test_messages(const struct i2c_rdwr_ioctl_data *given) {
    if (given == NULL || given->msgs == NULL || given->nmsgs == 0 ||
        given->nmsgs > I2C_RDWR_IOCTL_MAX_MSGS) {
        return EINVAL;
    }
    for (unsigned place = 0; place < given->nmsgs; place++) {
        const struct i2c_msg *one = &given->msgs[place];
        if (one->flags & ~KNOWN_FLAGS) {
            return EOPNOTSUPP;
        }
        if (one->addr > MOST_ADDRESS || one->len > MOST_MESSAGE_BYTES ||
            (one->len > 0 && one->buf == NULL)) {
            return EINVAL;
        }
    }
    return 0;
}

static int transfer_messages(const struct i2c_rdwr_ioctl_data *given) {
    int error = test_messages(given);
    error = error != 0 ? error : bus_transfer(given->msgs, given->nmsgs);
    return error == 0 ? (int)given->nmsgs : failed(error);
}

static int set_address(int file, uintptr_t address) {
    if (address > MOST_ADDRESS) {
        return failed(EINVAL);
    }
    files[file].address = (uint16_t)address;
    return 0;
}

static int control(int file, unsigned long request, void *word) {
    struct i2c_smbus_ioctl_data *call = word;
    switch (request) {
    case I2C_SLAVE:
    case I2C_SLAVE_FORCE:
        return set_address(file, (uintptr_t)word);
    case I2C_FUNCS:
        *(unsigned long *)word = FUNCTIONS;
        return 0;
    case I2C_RDWR:
        return transfer_messages(word);
    case I2C_SMBUS:
        if (call == NULL || call->read_write > I2C_SMBUS_READ) {
            return failed(EINVAL);
        }
        return outcome(bus_smbus(files[file].address, call->read_write, call->command, call->size,
                                 call->data));
    case I2C_RETRIES:
    case I2C_TIMEOUT:
        return 0;
    case I2C_TENBIT: // neither ten bits nor a check byte, so to ask for them must not seem to work
    case I2C_PEC:
        return word == NULL ? 0 : failed(EOPNOTSUPP);
    default:
        return failed(ENOTTY);
    }
}

SHOWN int ioctl(int file, unsigned long request, ...) {
    va_list words;
    va_start(words, request);
    void *word = va_arg(words, void *);
    va_end(words);
    if (is_ours(file)) {
        return control(file, request, word);
    }
    return NEXT(int (*)(int, unsigned long, ...), "ioctl")(file, request, word);
}
