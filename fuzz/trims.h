/* SPDX-License-Identifier: Apache-2.0 */
/* The three entries of the other clock's trim settings, held to 02's number 9 in plain numbers. */
#ifndef TRIMS_H
#define TRIMS_H

#include "choice.h"

/* Every setting of every error in the range and of some beside it: they are few, and nothing guides a search to one of
 * them. */
void hold_range(void);

/* Any error, sign and code. */
void hold_trims(struct choices *choices);

#endif
