/* SPDX-License-Identifier: Apache-2.0 */
/*
 * fm3130_catch_up through the header: held to the list run of as many ticks at midnights, month ends
 * and the century's end, with alarms that ring on the way or never, with the calendar frozen, invalid,
 * halted and without supply; a leap year of ticks by hand; no ticks; every refusal, and their order.
 */
#include <string.h>

#include "check.h"
#include "fm3130.h"

enum { CONTROL = 0, TRIM = 1, ALARM = 9, CORE = 15, POWER = 25, LIST = 100000 };

static uint8_t image[FM3130_IMAGE_BYTES], by_list[FM3130_IMAGE_BYTES];
static uint8_t memory[FM3130_MEMORY_BYTES], ticks[LIST], answers[LIST];

/* A calendar, seconds first. */
static const uint8_t cores[][7] = {
    {0x59, 0x59, 0x23, 7, 0x31, 0x12, 0x99}, /* the century's last second */
    {0x58, 0x59, 0x23, 4, 0x28, 0x02, 0x08}, /* before a leap day */
    {0x58, 0x59, 0x23, 4, 0x28, 0x02, 0x09}, /* before March */
    {0x00, 0x00, 0x00, 1, 0x29, 0x02, 0x00}, /* a leap day */
    {0x59, 0x59, 0x23, 3, 0x30, 0x04, 0x24}, /* a month's last second */
    {0x09, 0x34, 0x12, 6, 0x15, 0x06, 0x24}, /* some second */
    {0x59, 0x59, 0x23, 3, 0x31, 0x04, 0x24}, /* 31 April: invalid */
    {0x0A, 0x00, 0x00, 1, 0x01, 0x01, 0x00}, /* a digit that is none */
};

/* Alarm seconds, minutes, hours, date and month; 80h is Match, which leaves a field out. */
static const uint8_t alarms[][5] = {
    {0x80, 0x80, 0x80, 0x80, 0x80}, /* every second */
    {0x00, 0x00, 0x00, 0x01, 0x01}, /* a year's first second */
    {0x00, 0x00, 0x00, 0x29, 0x02}, /* a leap day */
    {0x00, 0x80, 0x80, 0x31, 0x02}, /* never: 31 February */
    {0x3F, 0x80, 0x80, 0x80, 0x80}, /* never: no digits */
    {0x80, 0x80, 0x12, 0x80, 0x80}, /* noon's hour */
    {0x58, 0x59, 0x23, 0x31, 0x12}, /* the second before a year's last */
};

/* 00h: nothing; W; R; both flags set already; AEN. */
static const uint8_t controls[] = {0x00, 0x02, 0x01, 0x60, 0x08};

static const uint64_t counts[] = {0, 1, 2, 59, 60, 61, 3600, 43200, 86399, 86400, 86401, LIST};

static uint64_t catch_up(uint64_t count) { return fm3130_catch_up(image, sizeof image, count); }

static void begin(const uint8_t *core, const uint8_t *alarm, uint8_t control) {
    check_equal("fm3130_fresh", fm3130_fresh(image, sizeof image), FM3130_OK);
    image[CONTROL] = control;
    image[TRIM] = 0;
    memcpy(image + ALARM, alarm, 5);
    memcpy(image + CORE, core, 7);
}

/* One call leaves what the list run of as many ticks leaves. */
static void check_as_list(const char *what, uint64_t count) {
    memcpy(by_list, image, sizeof image);
    struct fm3130_ran ran = fm3130_run(by_list, sizeof by_list, memory, sizeof memory, ticks, count,
                                       answers, sizeof answers);
    check_equal(what, ran.number, FM3130_OK);
    check_equal(what, catch_up(count), FM3130_OK);
    check_equal(what, (uint64_t)memcmp(image, by_list, sizeof image), 0);
}

static void check_against_lists(void) {
    memset(ticks, FM3130_TICK, sizeof ticks);
    for (unsigned c = 0; c < sizeof cores / sizeof cores[0]; c++) {
        for (unsigned a = 0; a < sizeof alarms / sizeof alarms[0]; a++) {
            for (unsigned n = 0; n < sizeof counts / sizeof counts[0]; n++) {
                begin(cores[c], alarms[a], controls[n % sizeof controls]);
                check_as_list("catching up as the list run", counts[n]);
            }
        }
    }
    begin(cores[0], alarms[0], 0);
    image[TRIM] = 0x80;
    check_as_list("catching up, halted", 86400);
    begin(cores[0], alarms[0], 0);
    image[POWER] = 1;
    check_as_list("catching up on backup", 86400);
    check_equal("fm3130_fresh", fm3130_fresh(image, sizeof image), FM3130_OK);
    image[POWER] = 2;
    check_as_list("catching up without supply", 86400);
}

/* A leap year of ticks from the century's last second: worked out by hand. */
static void check_leap_year(void) {
    static const uint8_t later[7] = {0x59, 0x59, 0x23, 2, 0x31, 0x12, 0x00};
    begin(cores[0], alarms[2], 0);
    check_equal("a leap year of ticks", catch_up(FM3130_MOST_TICKS), FM3130_OK);
    check_equal("a leap year: core", (uint64_t)memcmp(image + CORE, later, sizeof later), 0);
    check_equal("a leap year: 02h to 08h", (uint64_t)memcmp(image + 2, later, sizeof later), 0);
    check_equal("a leap year: AF and CF", image[CONTROL], 0x60);
    begin(cores[0], alarms[3], 0);
    check_equal("31 February", catch_up(FM3130_MOST_TICKS), FM3130_OK);
    check_equal("31 February: CF alone", image[CONTROL], 0x20);
}

/* No ticks: 02h to 08h do not even take the core. */
static void check_none(void) {
    static uint8_t before[sizeof image];
    begin(cores[0], alarms[0], 0);
    image[2] = 0x42;
    memcpy(before, image, sizeof image);
    check_equal("no ticks", catch_up(0), FM3130_OK);
    check_equal("no ticks: image", (uint64_t)memcmp(image, before, sizeof image), 0);
}

static void check_refused(const char *what, uint64_t number, uint64_t length, uint64_t count) {
    static uint8_t before[sizeof image];
    memcpy(before, image, sizeof image);
    check_equal(what, fm3130_catch_up(image, length, count), number);
    check_equal(what, (uint64_t)memcmp(image, before, sizeof image), 0);
}

static void check_refusals(void) {
    begin(cores[0], alarms[0], 0);
    check_refused("8 at one more", 8, sizeof image, FM3130_MOST_TICKS + 1);
    check_refused("8 at 2 to the 32", 8, sizeof image, UINT64_C(1) << 32);
    check_refused("8 at the top", 8, sizeof image, UINT64_MAX);
    check_refused("2 by length", 2, sizeof image - 1, 1);
    check_refused("2 with no byte", 2, 0, 0);
    check_refused("2 before 8", 2, sizeof image - 1, UINT64_MAX);
    image[POWER] = 3;
    check_refused("2 by its bytes, before 8", 2, sizeof image, UINT64_MAX);
}

void check_catching_up(void) {
    check_against_lists();
    check_leap_year();
    check_none();
    check_refusals();
}
