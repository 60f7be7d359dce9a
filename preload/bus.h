/* SPDX-License-Identifier: Apache-2.0 */
/*
 * The bus behind a device file of Linux: whole messages of a master, done by the proved device.
 *
 * `fm3130 bus` keeps the device in one file, which every program below it shares: the images of all
 * devices, 64 bytes each, their memories, and the ticks done so far, eight bytes, the low one
 * first. A transfer locks the file, does its events and writes the file back. Each function returns
 * 0 or a number of errno.
 */
#ifndef FM3130_PRELOAD_BUS_H
#define FM3130_PRELOAD_BUS_H

#include <linux/i2c.h>
#include <stdint.h>

/* The number of /dev/i2c-N that is ours; -1 where there is none. */
int bus_number(void);

/*
 * Messages in one transfer, each behind a Start, and a Stop at the end, which is done all the same
 * where a byte is not acknowledged: ENXIO if nothing answers at the address, EREMOTEIO if it is a
 * later byte. EIO is a device that refuses, or a file that cannot be read or written; it is said on
 * standard error.
 */
int bus_transfer(const struct i2c_msg *messages, unsigned count);

/* One SMBus call, as the kernel makes messages of it; `data` may be null where the call has none. */
int bus_smbus(uint16_t address, uint8_t read_write, uint8_t command, uint32_t size,
              union i2c_smbus_data *data);

#endif
