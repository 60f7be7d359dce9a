/* SPDX-License-Identifier: Apache-2.0 */
/*
 * levels.h: pins.h done another way. What the levels of SCL and SDA mean is the archive's here, and
 * proved.
 *
 * It reads SCL and SDA, hands what it sees to the proved archive (fm3130_pins_look and the others of
 * fm3130.h), sets SDA as that says, open drain, and never touches SCL. No rule of the part or of the
 * bus stands here. It is used as pins.h is, and costs more at a fall (docs/CONTROLLER.md).
 *
 *   static uint8_t image[FM3130_IMAGE_BYTES], memory[FM3130_MEMORY_BYTES];
 *   static struct levels levels;
 *   unsigned number = (unsigned)fm3130_fresh(image, sizeof image);
 *   if (number == 0) {
 *       number = levels_begin(&levels, image, memory);
 *   }
 *   while (number == 0) {
 *       number = second_passed() ? levels_due(&levels, FM3130_TICK) : levels_look(&levels);
 *   }
 *   say_so(number);
 *
 * docs/CONTROLLER.md has the wiring, the time there is for a look, and the board's duties:
 *   - It looks at least once while SCL is high and once while it is low, and before SDA turns.
 *   - It calls these functions one at a time: none from an interrupt while another runs.
 *   - A number that is not 0 is shown to somebody. Image and memory are nobody else's to write.
 */
#ifndef LEVELS_H
#define LEVELS_H

#include <stdint.h>

#include "fm3130.h"

/*
 * What the board gives, as to pins.h: four small functions, which do nothing else.
 * A level is 0 for low; any other number is high.
 */
int pins_read_scl(void);
int pins_read_sda(void);
void pins_pull_sda(void);    /* SDA low */
void pins_release_sda(void); /* SDA let go: the resistor or somebody else decides */

/* One device on its pins. The board may read all of it; only the functions below write it. */
struct levels {
    uint8_t *image;  /* lent, 64 bytes */
    uint8_t *memory; /* lent, 8,192 bytes */
    uint64_t word;   /* what is known between two looks; its bits are in fm3130.h */
    uint8_t seen;    /* the levels that the last look has left */
    uint8_t number;  /* 0, or why the device has left the bus */
    uint8_t answer;  /* as of an event that is no Clock: the ACS pin's function, the alarm */
};

/*
 * Begins with a device in the two buffers, in the middle of a transfer too, and with SDA released.
 * A pulse under way is not counted. Returns 0, 2 where the image is refused, or FM3130_PINS_LATE
 * where SCL rose before SDA was pulled.
 */
unsigned levels_begin(struct levels *levels, uint8_t *image, uint8_t *memory);

/*
 * Looks at the two wires and does what they say: to be called again and again, or at each change of
 * one of them.
 *
 * Start and Stop are done when SDA turns while SCL is high. A Clock is a whole pulse, done when SCL
 * falls, with the level that SDA had at its rise. At the fall SDA is driven first, by what was known
 * before, then the event is done and the lines of the next Clocks are asked.
 *
 * Returns 0, or the number under which the device has left the bus: SDA is released, and no later
 * look, tick or power event does anything until levels_begin. See docs/CONTROLLER.md, "Refusals".
 */
unsigned levels_look(struct levels *levels);

/*
 * A tick or a power event, FM3130_TICK to FM3130_POWER_RETURNED. It is done at once, but if a pulse
 * is open it waits for its end; where the next one finds it still waiting, the master hangs, and
 * both are done. Looks at the wires first. Returns as levels_look does; 3 for any other event.
 */
unsigned levels_due(struct levels *levels, uint8_t event);

#endif
