/* SPDX-License-Identifier: Apache-2.0 */
/* The larger family in its two sizes, as a target takes a part. */
#ifndef FAMILY_PARTS_H
#define FAMILY_PARTS_H

#include "calls.h"

/* The 64Kb size, then the 256Kb size. */
extern const struct part family_parts[2];

#endif
