// SPDX-License-Identifier: Apache-2.0
// SMBus calls as messages, as the kernel makes them for an adapter that knows I2C alone.
#include "bus.h"

#include <errno.h>
#include <stddef.h>

// A write of some bytes, and a read after it; either may be missing.
struct call {
    uint8_t written[I2C_SMBUS_BLOCK_MAX + 2];
    unsigned write_length;
    uint8_t *read;
    unsigned read_length;
};

static int do_call(uint16_t address, struct call *call) {
    struct i2c_msg messages[2];
    unsigned count = 0;
    if (call->write_length > 0 || call->read == NULL) {
        messages[count++] =
            (struct i2c_msg){address, 0, (uint16_t)call->write_length, call->written};
    }
    if (call->read != NULL) {
        messages[count++] =
            (struct i2c_msg){address, I2C_M_RD, (uint16_t)call->read_length, call->read};
    }
    return bus_transfer(messages, count);
}

static void put(struct call *call, uint8_t byte) {
    call->written[call->write_length++] = byte;
}

// A word goes low byte first; the machine's own order must not matter.
static void put_word(struct call *call, uint16_t word) {
    put(call, (uint8_t)word);
    put(call, (uint8_t)(word >> 8));
}

static int do_word(uint16_t address, struct call *call, union i2c_smbus_data *data) {
    uint8_t read[2] = {0, 0};
    call->read = read;
    call->read_length = sizeof read;
    int error = do_call(address, call);
    if (error == 0) {
        data->word = (uint16_t)(read[0] | read[1] << 8);
    }
    return error;
}

static int do_block(uint16_t address, struct call *call, uint32_t size, int reads,
                    union i2c_smbus_data *data) {
    unsigned length = data->block[0];
    if (length == 0 || length > I2C_SMBUS_BLOCK_MAX) {
        return EINVAL;
    }
    if (reads) {
        call->read = &data->block[1];
        call->read_length = length;
        return do_call(address, call);
    }
    if (size == I2C_SMBUS_BLOCK_DATA) {
        put(call, (uint8_t)length);
    }
    for (unsigned place = 1; place <= length; place++) {
        put(call, data->block[place]);
    }
    return do_call(address, call);
}

// Calls that have no data byte: a quick one is its slave byte alone, a byte is what other calls
// have as command.
static int do_short(uint16_t address, int reads, uint8_t command, uint32_t size,
                    union i2c_smbus_data *data) {
    struct call call = {.write_length = 0};
    uint8_t nothing;
    if (size == I2C_SMBUS_QUICK) {
        call.read = reads ? &nothing : NULL;
        return do_call(address, &call);
    }
    if (!reads) {
        put(&call, command);
        return do_call(address, &call);
    }
    if (data == NULL) {
        return EINVAL;
    }
    call.read = &data->byte;
    call.read_length = 1;
    return do_call(address, &call);
}

int bus_smbus(uint16_t address, uint8_t read_write, uint8_t command, uint32_t size,
              union i2c_smbus_data *data) {
    int reads = read_write == I2C_SMBUS_READ;
    if (size == I2C_SMBUS_QUICK || size == I2C_SMBUS_BYTE) {
        return do_short(address, reads, command, size, data);
    }
    if (data == NULL) {
        return EINVAL;
    }
    struct call call = {.write_length = 0};
    put(&call, command);
    switch (size) {
    case I2C_SMBUS_BYTE_DATA:
        if (reads) {
            call.read = &data->byte;
            call.read_length = 1;
        } else {
            put(&call, data->byte);
        }
        return do_call(address, &call);
    case I2C_SMBUS_WORD_DATA:
        if (reads) {
            return do_word(address, &call, data);
        }
        put_word(&call, data->word);
        return do_call(address, &call);
    case I2C_SMBUS_PROC_CALL:
        put_word(&call, data->word);
        return do_word(address, &call, data);
    case I2C_SMBUS_I2C_BLOCK_BROKEN: // the old form of the next, which always read 32 bytes
        if (reads) {
            data->block[0] = I2C_SMBUS_BLOCK_MAX;
        }
        return do_block(address, &call, size, reads, data);
    case I2C_SMBUS_I2C_BLOCK_DATA:
        return do_block(address, &call, size, reads, data);
    case I2C_SMBUS_BLOCK_DATA: // a read whose length the device says is no message of this bus
        return reads ? EOPNOTSUPP : do_block(address, &call, size, reads, data);
    default:
        return EOPNOTSUPP;
    }
}
