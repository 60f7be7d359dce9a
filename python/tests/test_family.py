# SPDX-License-Identifier: Apache-2.0
"""The larger family: counters, a locked serial number, two sizes, and sets."""

import pytest

from fm3130 import Fm3164, Fm31256, NotAcknowledged, Refused, Set, event


def refused_by(number, action, *arguments):
    with pytest.raises(Refused) as raised:
        action(*arguments)
    assert raised.value.number == number


@pytest.fixture(params=[Fm3164, Fm31256])
def part(request):
    return request.param()


def test_edges_are_counted_and_frozen_reads(part):
    part.edge(1, times=300)
    part.edge(2)
    part.write_registers(0x0C, [0x08])
    part.edge(1)
    assert part.read_registers(0x0D, 4).hex(" ") == "2c 01 01 00"
    assert part.counters == (301, 1)
    with pytest.raises(ValueError):
        part.edge(3)


def test_a_locked_serial_number(part):
    part.write_registers(0x11, range(8))
    part.write_registers(0x0B, [0x80])
    part.write_registers(0x11, [99])
    part.lose_power(backup=False)
    part.return_power()
    assert part.serial_number == bytes(range(8))
    assert part.registers[0x0B - 0x09] & 0x80


def test_the_last_byte_of_each_size(part):
    last = (part.MEMORY_BYTES - 1).to_bytes(2, "big")
    part.transfer(0x50, last + b"\x11\x22")
    assert (part.memory[-1], part.memory[0]) == (0x11, 0x22)


def test_refusals():
    refused_by(1, Fm3164, None, bytes(32768))
    refused_by(1, Fm31256, None, bytes(8192))
    refused_by(2, Fm3164, bytes(64))
    refused_by(3, Fm3164().run, [10])


def test_an_image_of_the_greater_part_may_be_none_of_the_smaller():
    greater = Fm31256()
    greater.transfer(0x50, b"\x20\x00")
    refused_by(2, Fm3164, greater.image)


def test_files(tmp_path, part):
    part.edge()
    part.save(tmp_path / "image", tmp_path / "memory")
    assert type(part).from_files(tmp_path / "image", tmp_path / "memory").counters == (1, 0)


def test_no_register_below_09h(part):
    with pytest.raises(NotAcknowledged):
        part.read_registers(0x08)


def test_a_set_of_two():
    both = Set([(0, Fm31256()), (2, Fm3164())])
    both.transfer(0x52, b"\x00\x10\x5a")
    assert both.transfer(0x52, b"\x00\x10", 1) == b"\x5a"
    assert both.transfer(0x50, b"\x00\x10", 1) == b"\x00"
    assert (both.memory(2)[0x10], both.memory(0)[0x10]) == (0x5A, 0x00)
    both.edge(2, pin=2, times=3)
    assert (both.device(2).counters, both.device(0).counters) == ((0, 3), (0, 0))
    assert isinstance(both.device(0), Fm31256)
    with pytest.raises(NotAcknowledged):
        both.transfer(0x51, read=1)
    with pytest.raises(LookupError):
        both.edge(1)


def test_a_set_takes_copies():
    part = Fm3164()
    alone = Set([(0, part)])
    alone.transfer(0x50, b"\x00\x10\x5a")
    assert (part.memory[0x10], alone.memory(0)[0x10]) == (0x00, 0x5A)


def test_sets_that_are_refused():
    refused_by(9, Set, [])
    refused_by(9, Set, [(place % 4, Fm3164()) for place in range(5)])
    refused_by(10, Set, [(1, Fm3164()), (1, Fm31256())])
    begun = Fm3164()
    begun.run([event.START])
    refused_by(11, Set, [(0, begun)])
    with pytest.raises(ValueError):
        Set([(4, Fm3164())])


def test_an_edge_of_nobody_is_refused_and_nothing_done():
    both = Set([(0, Fm3164()), (1, Fm3164())])
    before = both.images
    refused_by(3, both.run, [event.edge_1(0), event.edge_1(2)])
    assert both.images == before
