/* SPDX-License-Identifier: Apache-2.0 */
/*
 * pins.h: the proved device on the pins of a controller, for firmware in C without a library.
 *
 * It turns the levels of SCL and SDA into the events of fm3130.h, drives SDA as the device does,
 * open drain, and never touches SCL. No rule of the part stands here: the proved archive is asked.
 *
 *   static uint8_t image[FM3130_IMAGE_BYTES], memory[FM3130_MEMORY_BYTES];
 *   static struct pins pins;
 *   unsigned number = (unsigned)fm3130_fresh(image, sizeof image);
 *   if (number == 0) {
 *       number = pins_begin(&pins, image, memory);
 *   }
 *   while (number == 0) {
 *       number = second_passed() ? pins_due(&pins, FM3130_TICK) : pins_look(&pins);
 *   }
 *   say_so(number);
 *
 * docs/CONTROLLER.md has the wiring, the time there is for a look, and the board's duties:
 *   - It looks at least once while SCL is high and once while it is low, and before SDA turns.
 *   - It calls these functions one at a time: none from an interrupt while another runs.
 *   - A number that is not 0 is shown to somebody. Image and memory are nobody else's to write.
 */
#ifndef PINS_H
#define PINS_H

#include <stdint.h>

/*
 * What the board gives: four small functions, which do nothing else.
 * A level is 0 for low; any other number is high.
 */
int pins_read_scl(void);
int pins_read_sda(void);
void pins_pull_sda(void);    /* SDA low */
void pins_release_sda(void); /* SDA let go: the resistor or somebody else decides */

/*
 * Why the device has left the bus, beside enum fm3130_number: the controller was not quick enough,
 * so that a bit on the wire may have been another than the device's.
 */
#define PINS_LATE 0x80u

/* One device on its pins. The board may read all of it; only the functions below write it. */
struct pins {
    uint8_t *image;  /* lent, 64 bytes */
    uint8_t *memory; /* lent, 8,192 bytes */
    uint16_t line;   /* what fm3130_line told after the last event */
    uint8_t number;  /* 0, or why the device has left the bus */
    uint8_t answer;  /* the last event's: the ACS pin's function, the alarm; 1 if there was none */
    uint8_t scl;     /* the levels at the last look, 0 or 1; of SDA, while SCL was high */
    uint8_t sda;
    uint8_t is_open;    /* SCL has risen, and neither its fall nor a Start or Stop was seen */
    uint8_t is_pulling; /* the device pulls SDA */
    uint8_t waiting;    /* a tick or power event that waits for the pulse's end; 0 for none */
};

/*
 * Begins with a device in the two buffers, in the middle of a transfer too, and with SDA released.
 * A pulse under way is not counted. Returns 0, 2 where the image is refused, or PINS_LATE where SCL
 * rose before SDA was pulled.
 */
unsigned pins_begin(struct pins *pins, uint8_t *image, uint8_t *memory);

/*
 * Looks at the two wires and does what they say: to be called again and again, or at each change of
 * one of them.
 *
 * Start and Stop are done when SDA turns while SCL is high. A Clock is a whole pulse, done when SCL
 * falls, with the level that SDA had at its rise. At the fall SDA is driven first, by what
 * fm3130_line said before, then the event is done and the line is asked again.
 *
 * Returns 0, or the number under which the device has left the bus: SDA is released, and no later
 * look, tick or power event does anything until pins_begin. See docs/CONTROLLER.md, "Refusals".
 */
unsigned pins_look(struct pins *pins);

/*
 * A tick or a power event, FM3130_TICK to FM3130_POWER_RETURNED. It is done at once, but if a pulse
 * is open it waits for its end; where the next one finds it still waiting, the master hangs, and
 * both are done. Looks at the wires first. Returns as pins_look does; 3 for any other event.
 */
unsigned pins_due(struct pins *pins, uint8_t event);

#endif
