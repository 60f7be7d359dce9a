/* SPDX-License-Identifier: Apache-2.0 */
/* One device over fm3130.h. No rule of the part stands here: the proved archive is asked. */
#include "device.h"

#include <stdio.h>
#include <stdlib.h>
#include <string.h>

/* What is fresh or was tested is not refused. Were it all the same, nothing must be said of it. */
static void must_be_done(const char *what, uint64_t number) {
    if (number != FM3130_OK) {
        fprintf(stderr, "fm3130-host: %s is refused: %s\n", what, number_words(number));
        abort();
    }
}

void device_fresh(struct device *device) {
    memset(device->memory, 0, sizeof device->memory);
    must_be_done("a fresh device", fm3130_fresh(device->image, sizeof device->image));
}

uint64_t device_number(struct device *device) {
    uint8_t none[2] = {0, 0}; /* an empty buffer is any address; the two do not overlap */
    return fm3130_run(device->image, sizeof device->image, device->memory, sizeof device->memory,
                      &none[0], 0, &none[1], 0)
        .number;
}

struct told device_step(struct device *device, uint8_t event) {
    uint8_t told[FM3130_TOLD_BYTES] = {FM3130_ANSWER_LINE, FM3130_ROLLED_NOTHING};
    must_be_done("a tested device",
                 fm3130_step(device->image, sizeof device->image, device->memory,
                             sizeof device->memory, event, told, sizeof told));
    return (struct told){told[0], told[1]};
}

uint8_t device_do(struct device *device, uint8_t event) {
    return device_step(device, event).answer;
}

uint8_t device_pin(const struct device *device) {
    struct device copy = *device;
    int is_on = device->image[IMAGE_POWER] == 0;
    return device_do(&copy, is_on ? FM3130_POWER_RETURNED : FM3130_POWER_LOST_WITH_BACKUP);
}

unsigned device_memory_address(const struct device *device) {
    const uint8_t *place = device->image + IMAGE_MEMORY_ADDRESS;
    return place[0] * 256u + place[1];
}

unsigned device_companion_address(const struct device *device) {
    return device->image[IMAGE_COMPANION_ADDRESS];
}

const char *number_words(uint64_t number) {
    static const char *const words[] = {
        "done",
        "memory is not 8,192 bytes (number 1)",
        "image is not 64 bytes, or no well-formed state writes it (number 2)",
        "some event byte is above 7 (number 3)",
        "answers shorter than events (number 4)",
        "selector neither 0 (memory) nor 1 (registers) (number 5)",
        "start + length passes the end of the chosen bytes (number 6)",
    };
    return number < sizeof words / sizeof words[0] ? words[number] : "a number that is none";
}
