/* SPDX-License-Identifier: Apache-2.0 */
/* One device as the host keeps it: the two buffers that fm3130.h asks for. */
#ifndef HOST_DEVICE_H
#define HOST_DEVICE_H

#include <stdint.h>

#include "fm3130.h"

struct device {
    uint8_t image[FM3130_IMAGE_BYTES];
    uint8_t memory[FM3130_MEMORY_BYTES];
};

/* Places in the image, by docs/IMAGE.md. */
enum image_place {
    IMAGE_TIME = 2,               /* registers 02h to 08h: seven bytes, seconds first */
    IMAGE_CORE = 15,              /* the calendar that counts: seven bytes, seconds first */
    IMAGE_COMPANION_ADDRESS = 22, /* 0 to 14 */
    IMAGE_MEMORY_ADDRESS = 23,    /* two bytes, the high one first */
    IMAGE_POWER = 25,             /* 0 main power, 1 backup alone, 2 none */
    IMAGE_PHASE = 26,             /* enum phase */
    IMAGE_CLOCKS = 27,            /* clocks done of the byte under way */
    IMAGE_BYTE = 28               /* its bits so far, or the byte that is sent */
};

/* The byte under way, by docs/IMAGE.md. */
enum phase {
    PHASE_IDLE,
    PHASE_SLAVE,
    PHASE_ADDRESS_HIGH,
    PHASE_ADDRESS_LOW,
    PHASE_POINTER,
    PHASE_WRITE_MEMORY,
    PHASE_WRITE_COMPANION,
    PHASE_READ_MEMORY,
    PHASE_READ_COMPANION
};

/* A fresh device with a memory of zeros. */
void device_fresh(struct device *device);

/* The number that the list run would give for an empty list: 0, or 2 for an image that is none. */
uint64_t device_number(struct device *device);

/* What one event tells: its answer, and the field of the calendar that it changed. */
struct told {
    uint8_t answer;
    uint8_t rolled; /* enum fm3130_rolled */
};

/* Does one event. Image and event must have been tested. */
struct told device_step(struct device *device, uint8_t event);

/* The same, for its answer alone. */
uint8_t device_do(struct device *device, uint8_t event);

/* An answer that shows the pin as it is now: a copy is asked by an event that changes nothing. */
uint8_t device_pin(const struct device *device);

/* The address that the memory or the companion is at. */
unsigned device_memory_address(const struct device *device);
unsigned device_companion_address(const struct device *device);

/* When a number is given, in the words of 01's table. */
const char *number_words(uint64_t number);

#endif
