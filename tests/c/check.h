/* SPDX-License-Identifier: Apache-2.0 */
/* What the C tests share: a check that ends the program at the first difference. */
#ifndef TESTS_CHECK_H
#define TESTS_CHECK_H

#include <stdint.h>

#ifdef __GNUC__
#define ENDS_LIKE_PRINTF __attribute__((noreturn, format(printf, 1, 2)))
#else
#define ENDS_LIKE_PRINTF
#endif

/* Says what differs, as printf does, and ends the program with status 1. */
void differ(const char *format, ...) ENDS_LIKE_PRINTF;

/* Two numbers that must be equal; `what` says of which case. */
void check_equal(const char *what, uint64_t is, uint64_t must_be);

/*
 * Runs the frames of a file and compares with the lines that the second program wrote for them.
 * Returns the number of events.
 */
unsigned long check_frames(const char *frames, const char *lines);

/* fm3130_step: one event, and the field of the calendar that it changed. */
void check_steps(void);

/*
 * fm3130_line and fm3130_run_number: at every event of a file of frames, held to fm3130_run on copies. Returns how often the
 * line was asked.
 */
unsigned long check_lines(const char *frames);

/* What the two refuse, and that a refusal writes nothing. */
void check_line_refusals(void);

/* fm3130_catch_up: many ticks in one call, held to the list run of as many. */
void check_catching_up(void);

/*
 * fm3130_mend: every byte in every calendar field, every month's end, the list, every refusal.
 * Returns the number of images.
 */
unsigned long check_mends(void);
/* The master's functions: exact events, bytes that come back, what answers tell, refusals. */
void check_master(void);

/*
 * fm3130_judge: captures that agree or differ, every kind of fault at every entry, pairs of faults.
 * Returns the number of captures judged.
 */
unsigned long check_captures(void);
/*
 * firmware/pins.c on two wires, with a master that knows only levels and ticks at many places. Returns the
 * number of clocks.
 */
unsigned long check_pins(void);

/* fm3130_lamps: what lights and darkens a lamp, and what is refused. */
void check_lamps(void);

/*
 * Two masters: asks, calls, refusals, and a session. Returns the number of calls that were held to
 * rules written out in the test.
 */
unsigned long check_handheld(void);

/*
 * fm31.h: the larger family in both sizes, held to what docs/FAMILY.md says. Returns the number of
 * comparisons.
 */
unsigned long check_family(void);

/* fm31_set_check and fm31_set_run: one to four devices on one line. */
void check_sets(void);

/*
 * Holds the trim functions to a plain search: every error in range with every setting, then what is
 * refused. Returns the number of settings judged.
 */
unsigned long check_trim(void);

#endif
