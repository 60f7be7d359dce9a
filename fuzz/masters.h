/* SPDX-License-Identifier: Apache-2.0 */
/* The master's four entries, held to what request 1 says of them, by themselves and through the list run. */
#ifndef MASTERS_H
#define MASTERS_H

#include "calls.h"

/* Lays the fences of what the master reads and writes. */
void prepare_masters(void);

/* The entries on buffers and numbers of their own. */
void hold_masters(struct choices *choices);

/* Bytes written through the device of a chosen call and read again; the call is left as it was. */
void hold_through(struct call call, struct choices *choices);

#endif
