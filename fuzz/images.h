/* SPDX-License-Identifier: Apache-2.0 */
/* The two entries that need an image and no memory: fm3130_catch_up, held to lists of ticks, and fm3130_mend, held to
 * request 14. */
#ifndef IMAGES_H
#define IMAGES_H

#include "calls.h"

/* Lays the fence for the list of changes. */
void prepare_images(void);

/* Each on the image of a chosen call, which is left as it was. */
void hold_catch_up(struct call call, struct choices *choices);
void hold_mend(struct call call, struct choices *choices);

#endif
