/* SPDX-License-Identifier: Apache-2.0 */
/*
 * The device at the other end of the wires: firmware/pins.c or, with WIRES_LEVELS, firmware/levels.c
 * under the names of pins.h.
 */
#ifndef DEVICE_H
#define DEVICE_H

#ifdef WIRES_LEVELS
#include "levels.h"
#define pins levels
#define pins_begin levels_begin
#define pins_look levels_look
#define pins_due levels_due
#else
#include "pins.h"
#endif

#endif
