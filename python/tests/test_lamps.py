# SPDX-License-Identifier: Apache-2.0
"""The proving record sees all that is done on its device."""

import pytest

from fm3130 import Device, Lamps, Refused, SMBus, event, i2c_msg

DARK = (False,) * 8


@pytest.fixture
def lit():
    """A device whose lamp 3 is lit, and its lamps."""
    device = Device()
    lamps = Lamps(device)
    device.write(0x1003, b"\x01")
    assert lamps.lit == DARK
    device.read(0x1003, 1)
    assert lamps.lit == (False, False, False, True, False, False, False, False)
    return device, lamps


def test_three_ticks_darken(lit):
    device, lamps = lit
    device.sleep(2)
    assert lamps.is_lit(3)
    device.run([event.TICK])
    assert lamps.lit == DARK


@pytest.mark.parametrize("seconds", [0, 1, 2, 3, 4, 100])
def test_a_sleep_is_the_ticks_for_the_record_too(seconds):
    def ran(sleeps):
        device = Device()
        device.write_registers(0x01, [0x00])
        lamps = Lamps(device)
        device.memory[0x1000:0x1008] = b"\x01" * 8
        device.read(0x1000, 8)
        device.run([event.TICK])
        device.sleep(seconds) if sleeps else device.run([event.TICK] * seconds)
        return device.image, lamps.record, lamps.lit

    assert ran(sleeps=True) == ran(sleeps=False)


def test_a_bus_failure_darkens(lit):
    device, lamps = lit
    with pytest.raises(OSError):
        device.transfer(0x51, read=1)
    assert lamps.lit == DARK


def test_a_read_by_smbus_lights():
    device = Device()
    lamps = Lamps(device)
    bus = SMBus(device)
    bus.i2c_rdwr(i2c_msg.write(0x50, [0x10, 0x00, 0x01]))
    bus.i2c_rdwr(i2c_msg.write(0x50, [0x10, 0x00]), i2c_msg.read(0x50, 1))
    assert lamps.is_lit(0)


def test_a_refusal_changes_no_lamp(lit):
    device, lamps = lit
    before = (device.image, lamps.record, lamps.lit)
    with pytest.raises(Refused):
        device.run([event.TICK, event.TICK, event.TICK, 8])
    assert (device.image, lamps.record, lamps.lit) == before


def test_where_no_record_begins():
    device = Device()
    device.run([event.START])
    with pytest.raises(ValueError):
        Lamps(device)
    device.run([event.STOP])
    lamps = Lamps(device)
    with pytest.raises(ValueError):
        Lamps(device)
    with pytest.raises(IndexError):
        lamps.is_lit(8)
