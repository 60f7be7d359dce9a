/* SPDX-License-Identifier: Apache-2.0 */
/* What seldom comes by chance and the lamps are about: traffic with their bytes, and what stands there at first. */
#ifndef LAMP_CHOICES_H
#define LAMP_CHOICES_H

#include "calls.h"

/* One choice of traffic: lamps' bytes that are read, a piece of that, a tick, a byte, one that is cut, or what any part
 * hears. */
void add_lamp_traffic(const struct part *part, struct choices *choices, struct list *list);

/* Chooses the lamps' bytes of a call's memory, and mostly puts its device between transfers. */
void liven_lamps(struct call call, struct choices *choices);

#endif
