/* SPDX-License-Identifier: Apache-2.0 */
/* The FM3130 in plain C, as a programmer writes it who wants it fast: the opponent of the benchmark and the guide of
 * the fuzzer. Nothing of it is proved. */
#ifndef PLAIN_H
#define PLAIN_H

#include <stddef.h>
#include <stdint.h>

enum { PLAIN_IMAGE = 64, PLAIN_MEMORY = 8192, PLAIN_REGISTERS = 15, PLAIN_CORE = 7 };

/* The device without its memory. `pin` holds bits 3 to 1 of an answer, and is renewed only where 00h, 0Eh or the
 * supplies change. A transfer exists only while main power is present. */
struct plain_device {
    uint8_t registers[PLAIN_REGISTERS];
    uint8_t core[PLAIN_CORE];
    uint8_t companion_address;
    uint16_t memory_address;
    uint8_t power;
    uint8_t phase;
    uint8_t clocks;
    uint8_t byte;
    uint8_t first_address_byte;
    uint8_t pin;
};

/* The device of an image that docs/IMAGE.md accepts, and back. */
void plain_read_image(struct plain_device *device, const uint8_t *image);
void plain_write_image(const struct plain_device *device, uint8_t *image);

/* All events, each 0 to 7, one by one; `answers` has room for one byte an event. */
void plain_events(struct plain_device *device, uint8_t *memory, const uint8_t *events, size_t count, uint8_t *answers);

/* The same from an image that is accepted, to the image that the events lead to. */
void plain_run(uint8_t *image, uint8_t *memory, const uint8_t *events, size_t count, uint8_t *answers);

/* The same from any image and any buffers, with the tests that the proved program makes: the number of 01's table. */
unsigned plain_run_tested(uint8_t *image, size_t image_length, uint8_t *memory, size_t memory_length,
                          const uint8_t *events, size_t count, uint8_t *answers, size_t room);

#endif
