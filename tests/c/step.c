/* SPDX-License-Identifier: Apache-2.0 */
/*
 * fm3130_step through the header: K12's run event by event, the field that a tick says at each kind
 * of calendar, every refusal with untouched buffers, and their order.
 */
#include <string.h>

#include "check.h"
#include "fm3130.h"

enum { CORE = 15, POWER = 25, TOLD_ROOM = 8, FILL = 0xA5 };

/* A calendar, seconds first, and the field that a tick says. */
struct moment {
    const char *what;
    uint8_t core[7];
    uint8_t rolled;
};

static const struct moment moments[] = {
    {"seconds 09h", {0x09, 0x34, 0x12, 6, 0x15, 0x06, 0x24}, FM3130_ROLLED_SECONDS},
    {"a minute's end", {0x59, 0x34, 0x12, 6, 0x15, 0x06, 0x24}, FM3130_ROLLED_MINUTES},
    {"an hour's end", {0x59, 0x59, 0x12, 6, 0x15, 0x06, 0x24}, FM3130_ROLLED_HOURS},
    {"a day's end", {0x59, 0x59, 0x23, 7, 0x15, 0x06, 0x24}, FM3130_ROLLED_DATE},
    {"29/02 in a leap year", {0x59, 0x59, 0x23, 4, 0x28, 0x02, 0x08}, FM3130_ROLLED_DATE},
    {"28/02 in a common year", {0x59, 0x59, 0x23, 4, 0x28, 0x02, 0x09}, FM3130_ROLLED_MONTH},
    {"a month's end", {0x59, 0x59, 0x23, 7, 0x30, 0x06, 0x24}, FM3130_ROLLED_MONTH},
    {"a year's end", {0x59, 0x59, 0x23, 2, 0x31, 0x12, 0x24}, FM3130_ROLLED_YEAR},
    {"the century's end", {0x59, 0x59, 0x23, 7, 0x31, 0x12, 0x99}, FM3130_ROLLED_YEAR},
    {"31/04", {0x59, 0x59, 0x23, 3, 0x31, 0x04, 0x24}, FM3130_ROLLED_NOTHING},
    {"day 0", {0x09, 0x34, 0x12, 0, 0x15, 0x06, 0x24}, FM3130_ROLLED_NOTHING},
};

static uint8_t image[FM3130_IMAGE_BYTES], memory[FM3130_MEMORY_BYTES], told[TOLD_ROOM];

static uint64_t step(uint64_t event, uint64_t told_length) {
    return fm3130_step(image, sizeof image, memory, sizeof memory, event, told, told_length);
}

/* A fresh device whose oscillator runs. */
static void begin(void) {
    check_equal("fm3130_fresh", fm3130_fresh(image, sizeof image), FM3130_OK);
    image[1] = 0;
    memset(memory, 0x3C, sizeof memory);
    memset(told, FILL, sizeof told);
}

/* Every event of K12 by itself gives the answer that the list gives. */
static void check_exact_steps(void) {
    static const uint8_t events[] = {0, 3, 2, 3, 2, 2, 2, 2, 2, 3, 1};
    static const uint8_t answers[] = {5, 5, 4, 5, 4, 4, 4, 4, 4, 4, 5};
    begin();
    for (unsigned i = 0; i < sizeof events; i++) {
        check_equal("step, K12: number", step(events[i], FM3130_TOLD_BYTES), FM3130_OK);
        check_equal("step, K12: answer", told[0], answers[i]);
        check_equal("step, K12: field", told[1], FM3130_ROLLED_NOTHING);
        check_equal("step, K12: byte past", told[2], FILL);
    }
}

static void check_moments(void) {
    for (unsigned i = 0; i < sizeof moments / sizeof moments[0]; i++) {
        begin();
        memcpy(image + CORE, moments[i].core, sizeof moments[i].core);
        check_equal(moments[i].what, step(FM3130_TICK, sizeof told), FM3130_OK);
        check_equal(moments[i].what, told[1], moments[i].rolled);
        check_equal(moments[i].what, told[2], FILL);
    }
    begin();
    image[1] = 0x80;
    check_equal("halted: number", step(FM3130_TICK, sizeof told), FM3130_OK);
    check_equal("halted: field", told[1], FM3130_ROLLED_NOTHING);
    begin();
    check_equal("no supply: number", step(FM3130_POWER_LOST_WITHOUT_BACKUP, sizeof told),
                FM3130_OK);
    check_equal("no supply: number", step(FM3130_TICK, sizeof told), FM3130_OK);
    check_equal("no supply: field", told[1], FM3130_ROLLED_NOTHING);
    begin();
    check_equal("backup: number", step(FM3130_POWER_LOST_WITH_BACKUP, sizeof told), FM3130_OK);
    check_equal("backup: number", step(FM3130_TICK, sizeof told), FM3130_OK);
    check_equal("backup: field", told[1], FM3130_ROLLED_SECONDS);
}

/* A refusal by the first number that fits, with image, memory and what is told untouched. */
static void check_step_refused(const char *what, uint64_t number, uint64_t image_length,
                               uint64_t memory_length, uint64_t event, uint64_t told_length) {
    static uint8_t image_before[sizeof image], memory_before[sizeof memory],
        told_before[sizeof told];
    memcpy(image_before, image, sizeof image);
    memcpy(memory_before, memory, sizeof memory);
    memcpy(told_before, told, sizeof told);
    check_equal(what,
                fm3130_step(image, image_length, memory, memory_length, event, told, told_length),
                number);
    check_equal(what, (uint64_t)memcmp(image, image_before, sizeof image), 0);
    check_equal(what, (uint64_t)memcmp(memory, memory_before, sizeof memory), 0);
    check_equal(what, (uint64_t)memcmp(told, told_before, sizeof told), 0);
}

static void check_refusals(void) {
    begin();
    check_step_refused("step: 1 before all", 1, 63, 8191, 8, 1);
    check_step_refused("step: 2 by length", 2, 63, sizeof memory, 8, 1);
    check_step_refused("step: 3 before 4", 3, sizeof image, sizeof memory, 8, 1);
    check_step_refused("step: 3 at 256", 3, sizeof image, sizeof memory, 256 + FM3130_TICK, 2);
    check_step_refused("step: 3 at the top", 3, sizeof image, sizeof memory, UINT64_MAX, 2);
    check_step_refused("step: 4", 4, sizeof image, sizeof memory, FM3130_TICK, 1);
    check_step_refused("step: 4 with nothing lent", 4, sizeof image, sizeof memory, FM3130_TICK, 0);
    image[POWER] = 3;
    check_step_refused("step: 2 by its bytes", 2, sizeof image, sizeof memory, FM3130_TICK, 2);
}

void check_steps(void) {
    check_exact_steps();
    check_moments();
    check_refusals();
}
