# SPDX-License-Identifier: Apache-2.0
"""One FM3130: runs, transfers, calendar, sleep, files, and what is refused."""

import datetime
import errno

import pytest

from fm3130 import Change, Device, NotAcknowledged, Refused, device as module, event, mend

NEW_YEAR = datetime.datetime(2099, 12, 31, 23, 59, 59)
SETUP = 0x0E
PROTECT_BOTTOM = 0x08  # WP 01: 0000h to 07FFh


def refused_by(number, action, *arguments):
    with pytest.raises(Refused) as raised:
        action(*arguments)
    assert raised.value.number == number
    assert f"(number {number})" in str(raised.value)


def spoilt():
    """A device that no call leaves: its image is none of a state's."""
    device = Device()
    device._image[:] = bytes(64)
    return device


def test_the_exact_run():
    events = bytes.fromhex("00 03 02 03 02 02 02 02 02 03 01")
    assert Device().run(events).hex(" ") == "05 05 04 05 04 04 04 04 04 04 05"


def test_a_run_in_pieces_is_the_same_run():
    events = bytes.fromhex("00 03 02 03 02 02 02 02 02 03 01")
    device = Device()
    assert b"".join(device.run([one]) for one in events) == Device().run(events)


def test_written_and_read_back():
    device = Device()
    assert device.write(0x1FFF, b"\x5a\xc3") == [True, True]
    assert (device.memory[0x1FFF], device.memory[0x0000]) == (0x5A, 0xC3)
    assert device.read(0x1FFF, 3) == b"\x5a\xc3\x00"


def test_a_transfer_has_the_events_of_the_proved_master():
    """The clocks that transfer makes by itself are those of fm3130_write_events and fm3130_read_events."""
    seen = []

    class Watched(Device):
        def run(self, events):
            listed = bytes(events)
            seen.append(listed)
            return super().run(listed)

    device = Watched()
    for by_master, by_transfer in (
        (lambda: device.write(0x0123, b"\x5a\xff\x00"), lambda: device.transfer(0x50, b"\x01\x23\x5a\xff\x00")),
        (lambda: device.read(0x0123, 3), lambda: device.transfer(0x50, b"\x01\x23", 3)),
    ):
        seen.clear()
        by_master()
        proved = b"".join(seen)
        seen.clear()
        by_transfer()
        assert b"".join(seen) == proved


def test_a_protected_byte_is_told():
    device = Device()
    device.write_registers(SETUP, [PROTECT_BOTTOM])
    assert device.write(0x07FF, b"\x11\x22") == [False, False]
    assert device.write(0x0800, b"\x33") == [True]
    assert (device.memory[0x07FF], device.memory[0x0800]) == (0x00, 0x33)


def test_a_protected_byte_is_raised_and_the_transfer_ended():
    device = Device()
    device.write_registers(SETUP, [PROTECT_BOTTOM])
    with pytest.raises(NotAcknowledged) as raised:
        device.transfer(0x50, b"\x07\xff\x11")
    assert raised.value.errno == errno.EREMOTEIO
    assert raised.value.acknowledged == 2
    assert not device.is_in_transfer


def test_nobody_at_an_address():
    device = Device()
    with pytest.raises(NotAcknowledged) as raised:
        device.transfer(0x51, read=1)
    assert raised.value.errno == errno.ENXIO
    assert not device.is_in_transfer


def test_the_calendar():
    device = Device()
    moment = datetime.datetime(2024, 2, 28, 12, 30, 45)
    device.set_calendar(moment)
    assert device.calendar == moment
    assert device.read_calendar() == moment
    assert device.registers[0x05] == 3  # a Wednesday
    assert device.registers[0x00] == 0x90  # LB and POR are kept, W is 0 again


def test_the_calendar_stands_unless_it_is_started():
    device = Device()
    device.set_calendar(NEW_YEAR, start=False)
    device.sleep(5)
    assert device.calendar == NEW_YEAR


@pytest.mark.parametrize("moment, day", [(datetime.datetime(1999, 1, 1), None), (NEW_YEAR, 0), (NEW_YEAR, 8)])
def test_a_moment_that_the_device_cannot_hold(moment, day):
    device = Device()
    before = device.image
    with pytest.raises(ValueError):
        device.set_calendar(moment, day)
    assert device.image == before


def test_a_bad_date_is_refused():
    """31 April: the write of 00h that would load it is not acknowledged, and W stays 1."""
    device = Device()
    device.write_registers(0x00, [0x02])
    device.write_registers(0x06, [0x31, 0x04])
    with pytest.raises(NotAcknowledged):
        device.write_registers(0x00, [0x00])
    assert device.registers[0x00] & 0x02
    with pytest.raises(ValueError):
        device.read_calendar()
    assert device.calendar == datetime.datetime(2000, 1, 1)


def with_bad_core():
    image = bytearray(Device().image)
    image[6:8] = image[19:21] = bytes([0x31, 0x04])
    return bytes(image)


def test_an_invalid_calendar_is_none():
    assert Device(image=with_bad_core()).calendar is None
    image = bytearray(Device().image)
    for place, byte in ((18, 0), (15, 0x60), (15, 0x0A), (20, 0x13)):  # day, seconds twice, month
        changed = bytes(image[:place]) + bytes([byte]) + bytes(image[place + 1 :])
        assert Device(image=changed).calendar is None


def test_mended():
    device = Device(image=with_bad_core())
    assert device.mend() == [Change(0x06, 0x31, 0x30)]
    assert device.calendar == datetime.datetime(2000, 4, 30)
    assert device.mend() == []
    image, changes = mend(with_bad_core())
    assert (image, len(changes)) == (device.image, 1)


def test_sleep_is_the_ticks():
    slept, ticked = Device(), Device()
    for device in (slept, ticked):
        device.set_calendar(NEW_YEAR)
    slept.sleep(datetime.timedelta(minutes=2))
    ticked.run([event.TICK] * 120)
    assert slept.image == ticked.image
    assert slept.calendar == datetime.datetime(2000, 1, 1, 0, 1, 59)
    assert slept.registers[0x00] & 0x20  # CF


def test_a_sleep_of_years():
    device = Device()
    device.set_calendar(datetime.datetime(2000, 1, 1))
    device.sleep(datetime.timedelta(days=36524))
    assert device.calendar == datetime.datetime(2099, 12, 31)


@pytest.mark.parametrize("seconds", [-1, datetime.timedelta(seconds=-1), datetime.timedelta(microseconds=1)])
def test_no_such_sleep(seconds):
    with pytest.raises(ValueError):
        Device().sleep(seconds)


def test_power():
    device = Device()
    device.write(0x0010, b"k")
    device.lose_power()
    assert (device.power, device.write(0x0010, b"x"), device.read(0x0010, 1)) == ("backup", [False], b"")
    device.lose_power(backup=False)
    assert device.power == "none"
    device.return_power()
    assert (device.power, device.read(0x0010, 1)) == ("on", b"k")


def test_files(tmp_path):
    device = Device()
    device.write(0x0010, b"kept")
    device.save(tmp_path / "image.bin", tmp_path / "memory.bin")
    again = Device.from_files(tmp_path / "image.bin", tmp_path / "memory.bin")
    assert (again.image, again.memory) == (device.image, device.memory)


def test_wrong_lengths_and_images_are_refused():
    fresh = Device().image
    refused_by(1, Device, fresh, bytes(8191))
    refused_by(2, Device, fresh[:63], bytes(8192))
    refused_by(2, Device, bytes(64), bytes(8192))


def test_an_unknown_event_is_refused_and_nothing_done():
    device = Device()
    before = device.image
    refused_by(3, device.run, [event.START, 8])
    assert device.image == before


@pytest.mark.parametrize("events", [5, "0"])
def test_events_are_a_list(events):
    with pytest.raises(TypeError):
        Device().run(events)


def test_the_masters_refusals():
    device = Device()
    device.write(0x0010, b"\x01")
    before = device.image
    refused_by(1, device.write, 0, bytes(257))
    refused_by(1, device.read, 0, 257)
    refused_by(2, device.read, 0, 0)
    refused_by(3, device.write, 0x2000, b"\x01")
    refused_by(3, device.read, 0x2000, 1)
    assert device.image == before
    with pytest.raises(ValueError):
        device.read(-1, 1)
    with pytest.raises(ValueError):
        device.read(2**64, 1)


def test_a_refusal_is_never_an_acknowledge():
    device = spoilt()
    for action, arguments in (
        (device.run, ([0, 1],)),
        (device.write, (0, b"\x01")),
        (device.read, (0, 1)),
        (device.transfer, (0x50, b"\x00\x00\x01")),
        (device.sleep, (1,)),
        (device.mend, ()),
        (device.set_calendar, (NEW_YEAR,)),
        (device.lose_power, ()),
    ):
        refused_by(2, action, *arguments)
    assert device.image == bytes(64)


def test_a_number_that_no_table_has_is_a_refusal(monkeypatch):
    device = Device()
    given = []

    class Ran:
        number = 77

    def call(name, *arguments):
        given.append(bytes(arguments[-1]))
        return Ran

    monkeypatch.setattr(module, "call", call)
    refused_by(77, device.run, [0, 1, 3])
    assert given == [b"\x01\x01\x01"]  # every answer begins as a line that is high
