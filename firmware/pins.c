/* SPDX-License-Identifier: Apache-2.0 */
/* The proved device on the pins of a controller: pins.h says what, docs/CONTROLLER.md why. */
#include "pins.h"

#include "fm3130.h"

/* Bytes of the image (docs/IMAGE.md): the supplies; the clocks of a byte that are done. */
enum { SUPPLIES_AT = 25, MAIN_POWER = 0, CLOCKS_AT = 27, BEFORE_EIGHTH = 7 };

/* Nothing waits. It is a Start's number, which never does. */
enum { NOTHING = FM3130_START };

/* The answer before any event, and of a refused one: the line high, the ACS pin released. */
enum { NO_ANSWER = FM3130_ANSWER_LINE };

/* Leaves the bus. A master gets no more acknowledges, so it cannot miss it. */
static void leave(struct pins *pins, unsigned number) {
    pins_release_sda();
    pins->is_pulling = 0;
    pins->is_open = 0;
    pins->waiting = NOTHING;
    pins->number = (uint8_t)number;
}

static void ask(struct pins *pins) {
    pins->line =
        (uint16_t)fm3130_line(pins->image, FM3130_IMAGE_BYTES, pins->memory, FM3130_MEMORY_BYTES);
    if ((pins->line & FM3130_LINE_NUMBER) != FM3130_OK) {
        leave(pins, pins->line & FM3130_LINE_NUMBER);
    }
}

/* One event on the device, and the line after it. */
static void happen(struct pins *pins, uint8_t event) {
    uint8_t told[FM3130_TOLD_BYTES];
    if (pins->number != FM3130_OK) {
        return;
    }
    unsigned number = (unsigned)fm3130_step(pins->image, FM3130_IMAGE_BYTES, pins->memory,
                                            FM3130_MEMORY_BYTES, event, told, sizeof told);
    if (number != FM3130_OK) {
        leave(pins, number);
        return;
    }
    pins->answer = told[0];
    ask(pins);
}

static void happen_clock(struct pins *pins) {
    pins->is_open = 0;
    happen(pins, pins->sda ? FM3130_CLOCK_HIGH : FM3130_CLOCK_LOW);
}

static void happen_waiting(struct pins *pins) {
    uint8_t event = pins->waiting;
    pins->waiting = NOTHING;
    if (event != NOTHING) {
        happen(pins, event);
    }
}

/*
 * Pulls or releases SDA. That must be over before SCL rises: while it is high, a change would be a
 * Start or a Stop to all on the bus, and the master may have read the bit already.
 */
static void drive(struct pins *pins, unsigned pull) {
    uint8_t is_pulling = pull != 0;
    if (is_pulling == pins->is_pulling || pins->number != FM3130_OK) {
        return;
    }
    if (pins_read_scl() == 0) {
        pins->is_pulling = is_pulling;
        if (is_pulling) {
            pins_pull_sda();
        } else {
            pins_release_sda();
        }
    }
    if (pins_read_scl() != 0) {
        leave(pins, PINS_LATE);
    }
}

/* SCL is low: the end of a pulse, if one was open. */
static void fall(struct pins *pins) {
    pins->scl = 0;
    if (pins->is_open) {
        unsigned after = pins->sda ? FM3130_LINE_PULLED_AFTER_HIGH : FM3130_LINE_PULLED_AFTER_LOW;
        drive(pins, pins->line & after);
        happen_clock(pins);
    }
    happen_waiting(pins);
    drive(pins, pins->line & FM3130_LINE_PULLED);
}

/* SCL has risen. */
static void rise(struct pins *pins, uint8_t sda) {
    pins->scl = 1;
    pins->sda = sda;
    pins->is_open = 1;
}

/* SDA has turned while SCL is high: the pulse is no Clock, and what waited came before. */
static void turn(struct pins *pins, uint8_t sda) {
    pins->sda = sda;
    pins->is_open = 0;
    happen_waiting(pins);
    happen(pins, sda ? FM3130_STOP : FM3130_START);
}

/* SCL and SDA while it is high; SDA is read between two readings of SCL. */
static void look_at_both(struct pins *pins) {
    uint8_t sda = pins_read_sda() != 0;
    if (pins_read_scl() == 0) {
        /*
         * It fell meanwhile, so this SDA may be the next clock's. Of a whole pulse none is known.
         */
        if (pins->scl) {
            fall(pins);
        } else {
            leave(pins, PINS_LATE);
        }
    } else if (pins->scl == 0) {
        rise(pins, sda);
    } else if (pins->sda != sda) {
        turn(pins, sda);
    }
}

unsigned pins_look(struct pins *pins) {
    if (pins->number != FM3130_OK) {
        return pins->number;
    }
    if (pins_read_scl() != 0) {
        look_at_both(pins);
    } else if (pins->scl) {
        fall(pins);
    }
    return pins->number;
}

/*
 * The pulse has lasted from one tick or power event to the next: the master hangs in it, and what
 * waits must not wait for ever. A byte's eighth Clock cannot be taken yet, for a Stop may still cut
 * the byte; but no tick changes its line, so what waits goes before it. Any other Clock is taken
 * now: should Start or Stop come, they leave what they leave without it. SDA stays as it is until
 * SCL falls.
 */
static void outlast(struct pins *pins) {
    if (pins->is_open && pins->image[CLOCKS_AT] != BEFORE_EIGHTH) {
        happen_clock(pins);
    }
    happen_waiting(pins);
}

unsigned pins_due(struct pins *pins, uint8_t event) {
    if (pins_look(pins) != FM3130_OK) {
        return pins->number;
    }
    if (event < FM3130_TICK || event > FM3130_POWER_RETURNED) {
        leave(pins, FM3130_UNKNOWN_EVENT);
        return pins->number;
    }
    if (pins->waiting != NOTHING) {
        outlast(pins);
    }
    if (pins->is_open) {
        pins->waiting = event;
        return pins->number;
    }
    happen(pins, event);
    if (pins->scl == 0) {
        drive(pins, pins->line & FM3130_LINE_PULLED);
    }
    return pins->number;
}

/* The levels to begin with. SDA counts only if SCL was high before it was read and after. */
static void look_first(struct pins *pins) {
    pins->scl = pins_read_scl() != 0;
    if (pins->scl) {
        pins->sda = pins_read_sda() != 0;
        pins->scl = pins_read_scl() != 0;
    }
}

/*
 * The first event changes nothing, power returned where it is on or lost where it is off; it is
 * done for its answer, which has the ACS pin.
 */
unsigned pins_begin(struct pins *pins, uint8_t *image, uint8_t *memory) {
    pins->image = image;
    pins->memory = memory;
    pins->answer = NO_ANSWER;
    pins->sda = 1;
    leave(pins, FM3130_OK);
    look_first(pins);
    happen(pins, image[SUPPLIES_AT] == MAIN_POWER ? FM3130_POWER_RETURNED
                                                  : FM3130_POWER_LOST_WITH_BACKUP);
    if (pins->scl == 0) {
        drive(pins, pins->line & FM3130_LINE_PULLED);
    }
    return pins->number;
}
