# SPDX-License-Identifier: Apache-2.0
"""The larger family, with two event counters and a lockable serial number: one part, or up to four on one line."""

import os
import pathlib
from typing import Iterable, List, Optional, Sequence, Tuple, Union

from . import _image, event
from ._bus import OnTheBus
from ._library import call
from ._refused import must_be_done
from .device import unanswered

IMAGE_BYTES = 64
REGISTER_BYTES = 16
FIRST_REGISTER = 0x09
COUNTING = 0x0C
COUNTERS = slice(0x0D - FIRST_REGISTER, 0x11 - FIRST_REGISTER)
SERIAL = slice(0x11 - FIRST_REGISTER, 0x19 - FIRST_REGISTER)
SET_MOST = 4

Path = Union[str, "os.PathLike[str]"]


def _counters(image: bytes) -> Tuple[int, int]:
    """The two counters of an image, each with its low byte first."""
    four = bytes(image[COUNTERS])
    return int.from_bytes(four[:2], "little"), int.from_bytes(four[2:], "little")


class Part(OnTheBus):
    """What both sizes have in common."""

    MEMORY_BYTES = 0
    RUN = ""
    # Bit 2 of a byte of a set's plan.
    PLAN = 0

    def __init__(self, image: Optional[bytes] = None, memory: Optional[bytes] = None) -> None:
        self._image = bytearray(IMAGE_BYTES if image is None else image)
        self._memory = bytearray(self.MEMORY_BYTES if memory is None else memory)
        if image is None:
            must_be_done(call("fm31_fresh", self._image))
        # An empty list changes nothing, and is refused if these are no image and no memory of this size.
        self.run([])

    @classmethod
    def from_files(cls, image: Path, memory: Path) -> "Part":
        """A device from the two files that `save`, the command or a program in C left."""
        return cls(pathlib.Path(image).read_bytes(), pathlib.Path(memory).read_bytes())

    def save(self, image: Path, memory: Path) -> None:
        """Writes image and memory to two files."""
        pathlib.Path(image).write_bytes(self._image)
        pathlib.Path(memory).write_bytes(self._memory)

    def run(self, events: Iterable[int]) -> bytes:
        """Does a list of events; the answer to each. Raises `Refused`, and then no event was done."""
        listed = event.event_bytes(events)
        answers = unanswered(len(listed))
        must_be_done(call(self.RUN, self._image, self._memory, listed, answers))
        return bytes(answers)

    def edge(self, pin: int = 1, times: int = 1) -> None:
        """Edges on CNT1 or CNT2, which are counted."""
        if pin not in (1, 2):
            raise ValueError(f"there is no CNT{pin}")
        self.run([event.EDGE_1 if pin == 1 else event.EDGE_2] * times)

    @property
    def counters(self) -> Tuple[int, int]:
        """The two counters as they are now, looked at from outside the bus."""
        return _counters(self._image)

    @property
    def serial_number(self) -> bytes:
        """Registers 11h to 18h as they are now."""
        return bytes(self._image[SERIAL])

    @property
    def registers(self) -> bytes:
        """Registers 09h to 18h as they are now; the first is 09h."""
        return bytes(self._image[:REGISTER_BYTES])

    @property
    def image(self) -> bytes:
        """The state image as it is now."""
        return bytes(self._image)

    @property
    def memory(self) -> memoryview:
        """The memory itself, no copy."""
        return memoryview(self._memory)

    @property
    def power(self) -> str:
        """Which supplies are there: on, backup or none."""
        return _image.SUPPLY_NAMES[self._image[_image.SUPPLIES]]

    def __repr__(self) -> str:
        return f"<fm3130.{type(self).__name__}: counters {self.counters}, power {self.power}>"


class Fm3164(Part):
    """The part of 8,192 bytes.

    >>> import fm3130
    >>> device = fm3130.Fm3164()
    >>> device.edge(1, times=7)
    >>> device.write_registers(0x0C, [0x08])  # RC: a snapshot of the counters
    >>> device.edge(1)
    >>> device.read_registers(0x0D, 4).hex(" "), device.counters
    ('07 00 00 00', (8, 0))
    """

    MEMORY_BYTES = 8192
    RUN = "fm3164_run"
    PLAN = 0x00


class Fm31256(Part):
    """The part of 32,768 bytes.

    >>> import fm3130
    >>> device = fm3130.Fm31256()
    >>> device.transfer(0x50, write=b"\\x7f\\xffok")
    b''
    >>> device.transfer(0x50, write=b"\\x7f\\xff", read=2)
    b'ok'
    """

    MEMORY_BYTES = 32768
    RUN = "fm31256_run"
    PLAN = 0x04


class Set(OnTheBus):
    """One to four parts on one line, each with its select bits, 0 to 3.

    The set takes copies. On the bus a device is at 50h and 68h plus its select bits.

    >>> import fm3130
    >>> both = fm3130.Set([(0, fm3130.Fm31256()), (2, fm3130.Fm3164())])
    >>> both.transfer(0x52, write=b"\\x00\\x10Z")
    b''
    >>> both.transfer(0x52, write=b"\\x00\\x10", read=1), both.transfer(0x50, write=b"\\x00\\x10", read=1)
    (b'Z', b'\\x00')
    >>> both.edge(2)
    >>> both.device(2).counters
    (1, 0)
    """

    def __init__(self, devices: Sequence[Tuple[int, Part]]) -> None:
        self._selects = [select for select, _ in devices]
        self._kinds = [type(part) for _, part in devices]
        # A select above 3 would read as another size in the plan, so it is told here.
        wrong = [select for select in self._selects if not 0 <= select <= 3]
        if wrong:
            raise ValueError(f"select bits are 0 to 3, and not {wrong[0]}")
        self._plan = bytes(part.PLAN | select for select, part in devices)
        self._images = bytearray(b"".join(part.image for _, part in devices))
        self._memories = [bytearray(part.memory) for _, part in devices]
        must_be_done(call("fm31_set_check", self._plan, bytes(self._images), *map(bytes, self._lent())))

    def run(self, events: Iterable[int]) -> bytes:
        """Does a list of events on all devices; the line after each. Raises `Refused`, and then no event was done."""
        listed = event.event_bytes(events)
        answers = unanswered(len(listed))
        must_be_done(call("fm31_set_run", self._plan, self._images, *self._lent(), listed, answers))
        return bytes(answers)

    def edge(self, select: int, pin: int = 1, times: int = 1) -> None:
        """Edges on CNT1 or CNT2 of the device with these select bits."""
        if pin not in (1, 2):
            raise ValueError(f"there is no CNT{pin}")
        place = self._place(select)
        self.run([event.edge_1(place) if pin == 1 else event.edge_2(place)] * times)

    def device(self, select: int) -> Part:
        """A copy of the device with these select bits, as one that is alone. Raises `Refused` inside its transfer."""
        place = self._place(select)
        return self._kinds[place](self.images[place], bytes(self._memories[place]))

    def memory(self, select: int) -> memoryview:
        """The memory of the device with these select bits, no copy."""
        return memoryview(self._memories[self._place(select)])

    @property
    def images(self) -> List[bytes]:
        """The state images of the devices as they are now, by their places."""
        starts = range(0, len(self._images), IMAGE_BYTES)
        return [bytes(self._images[start : start + IMAGE_BYTES]) for start in starts]

    @property
    def selects(self) -> Tuple[int, ...]:
        """The select bits of the devices, by their places."""
        return tuple(self._selects)

    def _place(self, select: int) -> int:
        if select not in self._selects:
            raise LookupError(f"no device of the set has select bits {select}")
        return self._selects.index(select)

    def _lent(self) -> List[bytearray]:
        """Four memories; a place past the plan has an empty one."""
        return (self._memories + [bytearray() for _ in range(SET_MOST)])[:SET_MOST]
