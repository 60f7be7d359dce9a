# SPDX-License-Identifier: Apache-2.0
"""The bus beside smbus2: its names and signatures, its errors, and a test that was written for it."""

import errno
import inspect

import pytest

import fm3130
from fm3130 import Device, SMBus, i2c_msg

# smbus2 0.4.2 of Debian 12: where it is installed, a test holds this list to it.
METHODS = {
    "block_process_call": ["i2c_addr", "register", "data", "force"],
    "close": [],
    "enable_pec": ["enable"],
    "i2c_rdwr": ["i2c_msgs"],
    "open": ["bus"],
    "process_call": ["i2c_addr", "register", "value", "force"],
    "read_block_data": ["i2c_addr", "register", "force"],
    "read_byte": ["i2c_addr", "force"],
    "read_byte_data": ["i2c_addr", "register", "force"],
    "read_i2c_block_data": ["i2c_addr", "register", "length", "force"],
    "read_word_data": ["i2c_addr", "register", "force"],
    "write_block_data": ["i2c_addr", "register", "data", "force"],
    "write_byte": ["i2c_addr", "value", "force"],
    "write_byte_data": ["i2c_addr", "register", "value", "force"],
    "write_i2c_block_data": ["i2c_addr", "register", "data", "force"],
    "write_quick": ["i2c_addr", "force"],
    "write_word_data": ["i2c_addr", "register", "value", "force"],
}


def methods_of(kind):
    found = inspect.getmembers(kind, inspect.isfunction)
    names = [(name, function) for name, function in found if not name.startswith("_")]
    return {name: list(inspect.signature(function).parameters)[1:] for name, function in names}


def defaults_of(kind, name):
    parameters = inspect.signature(getattr(kind, name)).parameters.values()
    return [(one.kind, one.default) for one in parameters]


def errno_of(action, *arguments):
    with pytest.raises(OSError) as raised:
        action(*arguments)
    return raised.value.errno


def test_the_methods_are_those_of_the_list():
    assert methods_of(SMBus) == METHODS


def test_the_list_is_that_of_smbus2():
    smbus2 = pytest.importorskip("smbus2")
    assert methods_of(smbus2.SMBus) == METHODS
    for name in METHODS:
        assert defaults_of(SMBus, name) == defaults_of(smbus2.SMBus, name), name
    for name in ("read", "write"):
        ours, theirs = getattr(i2c_msg, name), getattr(smbus2.i2c_msg, name)
        assert list(inspect.signature(ours).parameters) == list(inspect.signature(theirs).parameters)


def test_messages_of_smbus2_itself(fm3130_bus):
    smbus2 = pytest.importorskip("smbus2")
    fm3130_bus.i2c_rdwr(smbus2.i2c_msg.write(0x50, [0x01, 0x23, 0x5A, 0x00, 0xFF]))
    read = smbus2.i2c_msg.read(0x50, 3)
    fm3130_bus.i2c_rdwr(smbus2.i2c_msg.write(0x50, [0x01, 0x23]), read)
    assert list(read) == [0x5A, 0x00, 0xFF]


def test_registers(fm3130_bus):
    fm3130_bus.write_byte_data(0x68, 0x01, 0x00)
    assert fm3130_bus.read_byte_data(0x68, 0x01) == 0x00
    fm3130_bus.write_i2c_block_data(0x68, 0x09, [0x11, 0x22, 0x13])
    assert fm3130_bus.read_i2c_block_data(0x68, 0x09, 3) == [0x11, 0x22, 0x13]
    fm3130_bus.write_word_data(0x68, 0x09, 0x2211)
    assert fm3130_bus.read_word_data(0x68, 0x09) == 0x2211
    fm3130_bus.write_byte(0x68, 0x0A)
    assert fm3130_bus.read_byte(0x68) == 0x22
    fm3130_bus.write_quick(0x68)


def test_blocks_with_their_length(fm3130_bus):
    fm3130_bus.write_block_data(0x68, 0x09, [0x11, 0x12])
    assert fm3130_bus.read_i2c_block_data(0x68, 0x09, 3) == [0x02, 0x11, 0x12]
    assert errno_of(fm3130_bus.read_block_data, 0x68, 0x09) == errno.EOPNOTSUPP
    assert errno_of(fm3130_bus.block_process_call, 0x68, 0x09, [1]) == errno.EOPNOTSUPP


def test_a_process_call_reads_what_follows(fm3130_bus):
    assert fm3130_bus.process_call(0x68, 0x09, 0x2211) == 0x0000
    assert fm3130_bus.read_word_data(0x68, 0x09) == 0x2211


def test_the_memory_has_two_address_bytes(fm3130_bus, fm3130_device):
    fm3130_bus.i2c_rdwr(i2c_msg.write(0x50, [0x1F, 0xFF, 0x11, 0x22]))
    read = i2c_msg.read(0x50, 2)
    fm3130_bus.i2c_rdwr(i2c_msg.write(0x50, [0x1F, 0xFF]), read)
    assert (list(read), bytes(read), len(read)) == ([0x11, 0x22], b"\x11\x22", 2)
    assert fm3130_device.memory[0x0000] == 0x22


def test_a_bad_date_is_an_oserror(fm3130_bus):
    fm3130_bus.write_byte_data(0x68, 0x00, 0x02)
    fm3130_bus.write_i2c_block_data(0x68, 0x06, [0x31, 0x04])
    assert errno_of(fm3130_bus.write_byte_data, 0x68, 0x00, 0x00) == errno.EREMOTEIO
    fm3130_bus.write_byte_data(0x68, 0x06, 0x30)
    fm3130_bus.write_byte_data(0x68, 0x00, 0x00)


def test_what_nothing_acknowledges(fm3130_bus, fm3130_device):
    assert errno_of(fm3130_bus.read_byte, 0x51) == errno.ENXIO
    assert errno_of(fm3130_bus.write_quick, 0x20) == errno.ENXIO
    assert errno_of(fm3130_bus.read_byte_data, 0x68, 0x0F) == errno.EREMOTEIO
    fm3130_device.lose_power()
    assert errno_of(fm3130_bus.read_byte_data, 0x68, 0x00) == errno.ENXIO


def test_what_the_kernel_refuses(fm3130_bus, fm3130_device):
    before = fm3130_device.image
    assert errno_of(fm3130_bus.read_byte, 0x80) == errno.EINVAL
    assert errno_of(fm3130_bus.read_i2c_block_data, 0x68, 0x00, 0) == errno.EINVAL
    assert errno_of(fm3130_bus.write_i2c_block_data, 0x68, 0x00, []) == errno.EINVAL
    assert errno_of(fm3130_bus.i2c_rdwr) == errno.EINVAL
    assert errno_of(fm3130_bus.i2c_rdwr, i2c_msg.write(0x50, [0]), i2c_msg.read(0x80, 1)) == errno.EINVAL
    with pytest.raises(OSError):
        fm3130_bus.pec = 1
    assert fm3130_bus.pec == 0
    assert fm3130_device.image == before


@pytest.mark.parametrize("block", [[0] * 33, [256], [-1]])
def test_what_smbus2_refuses(fm3130_bus, block):
    with pytest.raises(ValueError):
        fm3130_bus.write_i2c_block_data(0x68, 0x09, block)


def test_messages_with_other_flags(fm3130_bus, fm3130_device):
    before = fm3130_device.image
    message = i2c_msg.write(0x50, [0x00])
    message.flags = 0x4000  # I2C_M_NOSTART
    assert errno_of(fm3130_bus.i2c_rdwr, message) == errno.EOPNOTSUPP
    assert fm3130_device.image == before


def test_a_value_that_is_no_byte(fm3130_bus):
    with pytest.raises(OverflowError):
        fm3130_bus.write_byte_data(0x68, 0x09, 0x100)
    with pytest.raises(ValueError):
        fm3130_bus.read_i2c_block_data(0x68, 0x00, 33)


def test_a_closed_bus():
    with SMBus(Device()) as bus:
        bus.write_quick(0x50)
    assert errno_of(bus.write_quick, 0x50) == errno.EBADF
    bus.close()
    with pytest.raises(TypeError):
        SMBus(1)


def test_a_bus_of_a_set():
    both = fm3130.Set([(0, fm3130.Fm31256()), (2, fm3130.Fm3164())])
    bus = SMBus(both)
    bus.write_byte_data(0x6A, 0x11, 0x42)
    assert bus.read_byte_data(0x6A, 0x11) == 0x42
    assert bus.read_byte_data(0x68, 0x11) == 0x00
    assert errno_of(bus.read_byte, 0x51) == errno.ENXIO


# What follows is written for smbus2, down to SMBus(1), and knows nothing of this package.


def set_alarm(minutes):
    from smbus2 import SMBus

    with SMBus(1) as bus:
        bus.write_byte_data(0x68, 0x0A, minutes)


def store_name(name):
    from smbus2 import SMBus, i2c_msg

    with SMBus(1) as bus:
        bus.i2c_rdwr(i2c_msg.write(0x50, [0x00, 0x40] + list(name.encode())))
        read = i2c_msg.read(0x50, len(name))
        bus.i2c_rdwr(i2c_msg.write(0x50, [0x00, 0x40]), read)
        return bytes(read).decode()


def test_code_for_smbus2_unchanged(fm3130_as_smbus2):
    set_alarm(0x30)
    assert store_name("rig 7") == "rig 7"
    assert fm3130_as_smbus2.registers[0x0A] == 0x30
    assert bytes(fm3130_as_smbus2.memory[0x40:0x45]) == b"rig 7"
