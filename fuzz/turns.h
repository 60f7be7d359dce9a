/* SPDX-License-Identifier: Apache-2.0 */
/* fm3130_ask and fm3130_call, held to 02's number 8 and to the list run along the turns of two masters. */
#ifndef TURNS_H
#define TURNS_H

#include "calls.h"

/* Lays the fences of the bus byte and of a turn's events and answers. */
void prepare_turns(void);

/* Turns of both masters on the device of a chosen call, whose list is dealt out to them. */
void hold_turns(struct call call, struct choices *choices);

#endif
