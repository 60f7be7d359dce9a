/* SPDX-License-Identifier: Apache-2.0 */
/* The FM3130, as a target takes a part. */
#ifndef FM3130_PART_H
#define FM3130_PART_H

#include "calls.h"

extern const struct part fm3130_part;

#endif
