/* SPDX-License-Identifier: Apache-2.0 */
#include "fm3130_part.h"

#include <string.h>

#include "../bench/plain.h"
#include "hold.h"

enum { TRIM_PLACE = 1, TIME_PLACE = 2, ALARM_PLACE = 9, CALENDAR_BYTES = 7 };

enum { CORE_PLACE = 15, DAY_PLACE = 18, DATE_PLACE = 19, YEAR_PLACE = 21 };

/* A core near the end of a day, a month or the century, registers that may agree with it, a running oscillator, and at
 * times an alarm within the next seconds. */
static void liven(struct choices *choices, uint8_t *image)
{
    static const uint8_t times[4][3] = {{0x59, 0x59, 0x23}, {0x50, 0x59, 0x23}, {0x58, 0x59, 0x19}, {0x09, 0x00, 0x00}};
    static const uint8_t dates[8][2] = {{0x28, 0x02}, {0x29, 0x02}, {0x31, 0x12}, {0x30, 0x04},
                                        {0x31, 0x04}, {0x31, 0x01}, {0x09, 0x09}, {0x30, 0x11}};
    static const uint8_t years[4] = {0x99, 0x00, 0x08, 0x09};
    uint8_t way = choose_byte(choices);
    memcpy(image + CORE_PLACE, times[way & 3], sizeof times[0]);
    image[DAY_PLACE] = (uint8_t)(1 + (way >> 2) % 7);
    memcpy(image + DATE_PLACE, dates[way >> 5], sizeof dates[0]);
    uint8_t year = choose_byte(choices);
    image[YEAR_PLACE] = year & 1 ? years[year / 2 % 4] : choose_byte(choices);
    image[TRIM_PLACE] &= 0x3F;
    uint8_t more = choose_byte(choices);
    if (more & 1)
        memcpy(image + TIME_PLACE, image + CORE_PLACE, CALENDAR_BYTES);
    if (more & 2)
        image[ALARM_PLACE] = more >> 2 & 0x0F;
}

/* Seconds, minutes, hours, date, month, year are 1 to 6; the day of the week is none of them. */
static uint8_t highest_changed(const uint8_t *old_image, const uint8_t *new_image)
{
    static const uint8_t places[6] = {CORE_PLACE, CORE_PLACE + 1, CORE_PLACE + 2,
                                      DATE_PLACE, DATE_PLACE + 1, YEAR_PLACE};
    for (uint8_t field = 6; field > 0; field--)
        if (old_image[places[field - 1]] != new_image[places[field - 1]])
            return field;
    return 0;
}

/* The second byte that one event tells: the highest field of the core that a tick changed. */
static void hold_told(const uint8_t *old_image, const uint8_t *new_image, uint64_t event, const uint8_t *told)
{
    uint8_t must_be = event == FM3130_TICK ? highest_changed(old_image, new_image) : 0;
    hold(told[1] == must_be, "a single event tells the highest field that changed");
}

static const uint8_t beside[BESIDE] = {0x00, 0x0E, 0x0F, 0x9F, 0xA0, 0xA1, 0xD0, 0xD1};

const struct part fm3130_part = {
    .limits = &fm3130_limits,
    .beside = beside,
    .fresh = fm3130_fresh,
    .run = fm3130_run,
    .step = fm3130_step,
    .view_number = fm3130_view_number,
    .plain = plain_run,
    .liven = liven,
    .add_traffic = add_bus_traffic,
    .hold_told = hold_told,
};
