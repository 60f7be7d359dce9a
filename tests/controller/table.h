/* SPDX-License-Identifier: Apache-2.0 */
/* A table of what was measured, a row for each kind of call. */
#ifndef CONTROLLER_TABLE_H
#define CONTROLLER_TABLE_H

#include <stdint.h>

struct row {
    uint32_t calls, total, worst; /* instructions */
    uint32_t stack;               /* bytes, at worst; 0 where it was not measured */
};

void row_note(struct row *row, uint32_t instructions);

/* The rows with calls, fields between tabs: name, calls, average, worst, stack. */
void table_say(const char *const *names, const struct row *rows, unsigned count);

#endif
