# SPDX-License-Identifier: Apache-2.0
"""Event bytes, and the clocks of a byte on the bus.

>>> from fm3130 import Device, event
>>> Device().run([event.START, *event.written_byte(0xA0), event.STOP]).hex(" ")
'05 05 04 05 04 04 04 04 04 04 05'
"""

from typing import Iterable

START = 0
STOP = 1
CLOCK_LOW = 2
CLOCK_HIGH = 3
TICK = 4
POWER_LOST_WITH_BACKUP = 5
POWER_LOST_WITHOUT_BACKUP = 6
POWER_RETURNED = 7
# Edges on CNT1 and CNT2, of the larger family.
EDGE_1 = 8
EDGE_2 = 9

# Bit 0 of an answer: the line is high.
LINE = 0x01


def clock(is_high: bool) -> int:
    """A Clock with the master's line high or low."""
    return CLOCK_HIGH if is_high else CLOCK_LOW


def written_byte(byte: int) -> bytes:
    """The nine clocks of a written byte: high bit first, and the ninth released, so that the acknowledge is seen."""
    if not 0 <= byte <= 0xFF:
        raise ValueError(f"{byte} is no byte")
    return bytes(clock(bool(byte >> bit & 1)) for bit in range(7, -1, -1)) + bytes([CLOCK_HIGH])


def read_byte(goes_on: bool) -> bytes:
    """The nine clocks of a byte that is read; the ninth is low if the master wants another."""
    return bytes([CLOCK_HIGH] * 8 + [clock(not goes_on)])


def value_of(answers: Iterable[int]) -> int:
    """The byte that the line showed in eight answers, or in the first eight of nine."""
    value = 0
    for answer in list(answers)[:8]:
        value = value << 1 | answer & LINE
    return value


def is_acknowledged(answers: bytes) -> bool:
    """Whether the ninth answer to a written byte has the line low; fewer than nine tell of no acknowledge."""
    return len(answers) == 9 and not answers[8] & LINE


def edge_1(place: int) -> int:
    """An edge on CNT1 of the device at a place of a set, 0 to 3."""
    return EDGE_1 + 2 * place


def edge_2(place: int) -> int:
    """An edge on CNT2 of the device at a place of a set, 0 to 3."""
    return EDGE_2 + 2 * place


def event_bytes(events: Iterable[int]) -> bytes:
    """The events as the library takes them. A number alone is refused, since bytes(5) would be five Starts."""
    if isinstance(events, (int, str)):
        raise TypeError("events are a list of numbers")
    return bytes(events)
