/* SPDX-License-Identifier: Apache-2.0 */
/* A table of what was measured. */
#include "table.h"

#include "board.h"

void row_note(struct row *row, uint32_t instructions) {
    row->calls++;
    row->total += instructions;
    if (instructions > row->worst) {
        row->worst = instructions;
    }
}

/* A division by subtraction of shifted numbers. */
static uint32_t quotient(uint32_t number, uint32_t divisor) {
    uint32_t result = 0;
    for (int shift = 31; shift >= 0; shift--) {
        if (number >> shift >= divisor) {
            number -= divisor << shift;
            result |= (uint32_t)1 << shift;
        }
    }
    return result;
}

static void say_field(uint32_t number) {
    say("\t");
    say_number(number, 0);
}

void table_say(const char *const *names, const struct row *rows, unsigned count) {
    for (unsigned i = 0; i < count; i++) {
        if (rows[i].calls > 0) {
            say(names[i]);
            say_field(rows[i].calls);
            say_field(quotient(rows[i].total + rows[i].calls / 2, rows[i].calls));
            say_field(rows[i].worst);
            say_field(rows[i].stack);
            say("\n");
        }
    }
}
