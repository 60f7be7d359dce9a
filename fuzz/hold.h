/* SPDX-License-Identifier: Apache-2.0 */
/* What a target says, and how it ends, where something does not hold. */
#ifndef HOLD_H
#define HOLD_H

#include <stdio.h>
#include <stdlib.h>

static inline void hold(int true_or_not, const char *what)
{
    if (!true_or_not) {
        fprintf(stderr, "fuzz: this does not hold: %s\n", what);
        abort();
    }
}

#endif
