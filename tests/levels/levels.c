/* SPDX-License-Identifier: Apache-2.0 */
/*
 * levels: firmware/levels.c with the archive of this machine: the sessions of tests/wires that
 * tests/c/pins.c plays with firmware/pins.c. The first difference ends it with status 1.
 */
#include <stdio.h>
#include <stdlib.h>

#include "wires.h"

enum { SESSION_STRIDE = 61, YEAR_STRIDE = 3, NOISES = 2000 };

void wires_differ(const char *what, uint32_t is, uint32_t must_be) {
    fprintf(stderr, "levels: DIFFERENT: session %lu, clock %lu: %s is %lu, must be %lu\n",
            (unsigned long)played.sessions, (unsigned long)played.clocks, what, (unsigned long)is,
            (unsigned long)must_be);
    exit(1);
}

int main(void) {
    play_session(SESSION_STRIDE);
    play_turn_of_year(YEAR_STRIDE);
    play_hangs();
    play_noise(NOISES);
    play_leavings();
    printf("levels: %lu clocks on two wires: equal\n", (unsigned long)played.clocks);
    return 0;
}
