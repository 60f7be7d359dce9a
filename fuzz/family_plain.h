/* SPDX-License-Identifier: Apache-2.0 */
/* The larger family in plain C, written from request 5, documents 001 and 003 and the decisions on them: what the
 * proved entries are held to, and the guide of the search. Nothing of it is proved. */
#ifndef FAMILY_PLAIN_H
#define FAMILY_PLAIN_H

#include <stddef.h>
#include <stdint.h>

/* The select bits of a device alone on its line. */
enum { LONE = 0 };

/* All events, each 0 to 9, one by one on a device with a memory of `size` bytes and these select bits, from an image that
 * is accepted to the image that they lead to; `answers` has room for one byte an event. */
void family_run(unsigned size, unsigned select, uint8_t *image, uint8_t *memory, const uint8_t *events, size_t count,
                uint8_t *answers);

#endif
