/* SPDX-License-Identifier: Apache-2.0 */
/* What is held of every part's list run, single event, viewer and fresh image. */
#ifndef HOLDING_H
#define HOLDING_H

#include "calls.h"

/* Lays the fences of calls.h and the one for what single events tell. */
void prepare(void);

/* Holds the four entries on one chosen call; `choices` say what the viewer and the single event are asked. The buffers
 * are left as the call chose them. */
void hold_part(struct call call, struct choices choices);

#endif
