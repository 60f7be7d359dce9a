/* SPDX-License-Identifier: Apache-2.0 */
/*
 * wires STRIDE STRIDE TIMES: the bit-banging master of tests/wires against firmware/pins.c, or
 * with WIRES_LEVELS firmware/levels.c, on the board.
 */
#include "../wires/wires.h"
#include "board.h"

void wires_differ(const char *what, uint32_t is, uint32_t must_be) {
    say("session ");
    say_number(played.sessions, 0);
    say(", clock ");
    say_number(played.clocks, 0);
    say(": ");
    differ(what, is, must_be);
}

int main(void) {
    play_session(number_of(board_word(1)));
    play_turn_of_year(number_of(board_word(2)));
    play_hangs();
    play_noise(number_of(board_word(3)));
    play_leavings();
    say_number(played.sessions, 0);
    say(" sessions, ");
    say_number(played.clocks, 0);
    say(" clocks, ");
    say_number(played.bytes, 0);
    say(" bytes\n");
    return 0;
}
