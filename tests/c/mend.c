/* SPDX-License-Identifier: Apache-2.0 */
/*
 * fm3130_mend through the header, beside the rule written plainly in C: every byte in every field of
 * registers and core, every month's end in common and leap years, the list, all that stays, and every
 * refusal with untouched buffers.
 */
#include <string.h>

#include "check.h"
#include "fm3130.h"

enum { TIME = 2, CORE = 15, FIELDS = 7, ROOM = FM3130_CHANGES_ROOM + 8, FILL = 0xA5 };
enum { DATE = 4, MONTH = 5, YEAR = 6 };

/* The lowest and the highest legal figure of each field, and the bits that its register stores. */
static const unsigned lowest[FIELDS] = {0, 0, 0, 1, 1, 1, 0};
static const unsigned highest[FIELDS] = {59, 59, 23, 7, 31, 12, 99};
static const unsigned stored[FIELDS] = {0x7F, 0x7F, 0x3F, 0x07, 0x3F, 0x1F, 0xFF};

/* Dates to begin with: two valid ones, then some that no calendar has. */
static const uint8_t dates[][FIELDS] = {
    {0x59, 0x34, 0x12, 6, 0x15, 0x06, 0x24}, {0x00, 0x00, 0x00, 1, 0x29, 0x02, 0x08},
    {0x59, 0x59, 0x23, 7, 0x31, 0x04, 0x99}, {0x7F, 0x60, 0x24, 0, 0x00, 0x00, 0xAA},
    {0x0A, 0x5F, 0x1A, 3, 0x30, 0x02, 0x09}, {0x30, 0x30, 0x30, 5, 0x31, 0x13, 0xFF},
};

static uint8_t image[FM3130_IMAGE_BYTES], before[FM3130_IMAGE_BYTES], expected[FM3130_IMAGE_BYTES];
static uint8_t changes[ROOM], list[ROOM];
static unsigned long images;

static struct fm3130_mended mend(uint64_t image_length, uint64_t changes_length) {
    return fm3130_mend(image, image_length, changes, changes_length);
}

static unsigned figure(uint8_t byte) {
    return byte / 16u * 10u + byte % 16u;
}

static uint8_t digits(unsigned number) {
    return (uint8_t)(number / 10 * 16 + number % 10);
}

static unsigned days(unsigned month, unsigned year) {
    static const unsigned common[] = {31, 28, 31, 30, 31, 30, 31, 31, 30, 31, 30, 31};
    return common[month - 1] + (month == 2 && year % 4 == 0 ? 1 : 0);
}

/* The rule: each field by itself, then the date by its month. */
static void put_right(uint8_t *time) {
    for (unsigned i = 0; i < FIELDS; i++) {
        unsigned is_decimal = time[i] / 16 < 10 && time[i] % 16 < 10;
        if (!is_decimal || figure(time[i]) < lowest[i] || figure(time[i]) > highest[i]) {
            time[i] = (uint8_t)lowest[i];
        }
    }
    unsigned last = days(figure(time[MONTH]), figure(time[YEAR]));
    if (figure(time[DATE]) > last) {
        time[DATE] = digits(last);
    }
}

/* What must come of the image: the registers listed, registers and core put right, all else kept. */
static uint64_t expect(void) {
    uint64_t count = 0;
    memcpy(expected, image, sizeof image);
    put_right(expected + TIME);
    put_right(expected + CORE);
    memset(list, FILL, sizeof list);
    for (unsigned i = 0; i < FM3130_REGISTER_BYTES; i++) {
        if (expected[i] != image[i]) {
            list[3 * count] = (uint8_t)i;
            list[3 * count + 1] = image[i];
            list[3 * count + 2] = expected[i];
            count++;
        }
    }
    return count;
}

/* Mends the image, compares image, list and count, and mends once more. */
static void check_image(const char *what) {
    uint64_t count = expect();
    memset(changes, FILL, sizeof changes);
    struct fm3130_mended mended = mend(sizeof image, sizeof changes);
    check_equal(what, mended.number, FM3130_OK);
    check_equal(what, mended.count, count);
    check_equal(what, (uint64_t)memcmp(image, expected, sizeof image), 0);
    check_equal(what, (uint64_t)memcmp(changes, list, sizeof changes), 0);
    mended = mend(sizeof image, 0); /* valid registers need no room */
    check_equal(what, mended.number, FM3130_OK);
    check_equal(what, mended.count, 0);
    check_equal(what, (uint64_t)memcmp(image, expected, sizeof image), 0);
    images++;
}

/* An image in the middle of a transfer, with these bytes in registers and core. */
static void begin(const uint8_t *time, const uint8_t *core) {
    check_equal("fm3130_fresh", fm3130_fresh(image, sizeof image), FM3130_OK);
    image[0] = 0x42;
    image[9] = 0xFF;
    image[14] = 0x98;
    image[22] = 8;
    image[23] = 0x12;
    image[24] = 0x34;
    image[26] = 6; /* a write to the companion, three clocks of 101b */
    image[27] = 3;
    image[28] = 5;
    memcpy(image + TIME, time, FIELDS);
    memcpy(image + CORE, core, FIELDS);
}

/* Every byte that a register stores, in every field, in every date; in the registers and in the core. */
static void check_every_byte(void) {
    static const unsigned count = sizeof dates / sizeof dates[0];
    for (unsigned date = 0; date < count; date++) {
        for (unsigned field = 0; field < FIELDS; field++) {
            for (unsigned byte = 0; byte <= stored[field]; byte++) {
                const uint8_t *other = dates[(date + field) % count];
                begin(dates[date], other);
                image[TIME + field] = (uint8_t)byte;
                check_image("mend: a byte of the registers");
                begin(other, dates[date]);
                image[CORE + field] = (uint8_t)byte;
                check_image("mend: a byte of the core");
            }
        }
    }
}

/* Every date of every month of every year. */
static void check_month_ends(void) {
    for (unsigned year = 0; year < 100; year++) {
        for (unsigned month = 1; month <= 12; month++) {
            for (unsigned date = 1; date <= 31; date++) {
                uint8_t time[FIELDS] = {0, 0, 0, 1, digits(date), digits(month), digits(year)};
                begin(time, dates[month % 2]);
                check_image("mend: a month's end");
            }
        }
    }
}

/* A refusal by the first number that fits, with image and lent bytes untouched. */
static void check_mend_refused(const char *what, uint64_t number, uint64_t image_length,
                               uint64_t changes_length) {
    memcpy(before, image, sizeof image);
    memset(changes, FILL, sizeof changes);
    memcpy(list, changes, sizeof changes);
    struct fm3130_mended mended = mend(image_length, changes_length);
    check_equal(what, mended.number, number);
    check_equal(what, mended.count, 0);
    check_equal(what, (uint64_t)memcmp(image, before, sizeof image), 0);
    check_equal(what, (uint64_t)memcmp(changes, list, sizeof changes), 0);
}

static void check_mend_refusals(void) {
    begin(dates[3], dates[3]); /* all seven registers are to be changed */
    uint64_t count = expect();
    check_equal("mend: room for every list", 3 * count, FM3130_CHANGES_ROOM);
    check_mend_refused("mend: 2 before 4", FM3130_WRONG_STATE, 63, 0);
    check_mend_refused("mend: 2 of no bytes", FM3130_WRONG_STATE, 0, sizeof changes);
    for (uint64_t room = 0; room < 3 * count; room++) {
        check_mend_refused("mend: 4", FM3130_SHORT_ANSWERS, sizeof image, room);
    }
    check_equal("mend: room for the list", mend(sizeof image, 3 * count).count, count);
    begin(dates[2], dates[2]);
    image[TIME] = 0x80; /* a bit that the register map fixes at 0 */
    check_mend_refused("mend: 2 by its bytes", FM3130_WRONG_STATE, sizeof image, 0);
}

unsigned long check_mends(void) {
    check_every_byte();
    check_month_ends();
    check_mend_refusals();
    return images;
}
