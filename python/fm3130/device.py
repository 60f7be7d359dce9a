# SPDX-License-Identifier: Apache-2.0
"""One FM3130: a state image of 64 bytes and a memory of 8,192, which the proved library alone changes."""

import datetime
import operator
import os
import pathlib
from typing import TYPE_CHECKING, Iterable, List, NamedTuple, Optional, Tuple, Union

from . import _calendar, _image, event
from ._bus import OnTheBus
from ._library import call
from ._refused import MASTER_WORDS, must_be_done

if TYPE_CHECKING:
    from .lamps import Lamps

IMAGE_BYTES = 64
MEMORY_BYTES = 8192
REGISTER_BYTES = 15
MOST_TICKS = 31_622_400
MASTER_MOST = 256

# Registers 00h and 01h, and their bits that are used here.
CONTROL = 0x00
CALIBRATION = 0x01
CALENDAR = 0x02
W = 0x02
OSCEN = 0x80

Path = Union[str, "os.PathLike[str]"]


def unanswered(count: int) -> bytearray:
    """Room for answers. Each begins with 1, a line that is high: nothing is acknowledged before a call has said so."""
    return bytearray(b"\x01" * count)


class Change(NamedTuple):
    """A register that `mend` put right."""

    register: int
    old: int
    new: int


def mend(image: bytes) -> Tuple[bytes, List[Change]]:
    """An old image with its impossible date or time put right, and the registers that were changed for it.

    >>> import fm3130
    >>> image = bytearray(fm3130.Device().image)
    >>> image[6:8] = bytes([0x31, 0x04])  # 31 April, in the registers
    >>> mended, changes = fm3130.mend(bytes(image))
    >>> [str(change) for change in changes], mended[6:8].hex(" ")
    (['Change(register=6, old=49, new=48)'], '30 04')
    """
    put_right = bytearray(image)
    listed = bytearray(21)
    mended = call("fm3130_mend", put_right, listed)
    must_be_done(mended.number)
    return bytes(put_right), [Change(*listed[3 * one : 3 * one + 3]) for one in range(mended.count)]


class Device(OnTheBus):
    """One FM3130, fresh or from an image and a memory.

    >>> import fm3130
    >>> device = fm3130.Device()
    >>> device.write(0x0123, b"Z")
    [True]
    >>> device.read(0x0123, 1)
    b'Z'
    >>> device.calendar
    datetime.datetime(2000, 1, 1, 0, 0)
    """

    def __init__(self, image: Optional[bytes] = None, memory: Optional[bytes] = None) -> None:
        self._image = bytearray(IMAGE_BYTES if image is None else image)
        self._memory = bytearray(MEMORY_BYTES if memory is None else memory)
        self._lamps: Optional["Lamps"] = None
        if image is None:
            must_be_done(call("fm3130_fresh", self._image))
        # An empty list changes nothing, and is refused if these are no image and no memory.
        self.run([])

    @classmethod
    def from_files(cls, image: Path, memory: Path) -> "Device":
        """A device from the two files that `save`, the command or a program in C left."""
        return cls(pathlib.Path(image).read_bytes(), pathlib.Path(memory).read_bytes())

    def save(self, image: Path, memory: Path) -> None:
        """Writes image and memory to two files."""
        pathlib.Path(image).write_bytes(self._image)
        pathlib.Path(memory).write_bytes(self._memory)

    def run(self, events: Iterable[int]) -> bytes:
        """Does a list of events; the answer to each. Raises `Refused`, and then no event was done.

        >>> import fm3130
        >>> list(fm3130.Device().run([fm3130.event.START, fm3130.event.STOP]))
        [5, 5]
        """
        listed = event.event_bytes(events)
        answers = unanswered(len(listed))
        if self._lamps is not None:
            self._lamps.take(self._image, self._memory, listed, answers)
        else:
            must_be_done(call("fm3130_run", self._image, self._memory, listed, answers).number)
        return bytes(answers)

    def sleep(self, seconds: Union[int, datetime.timedelta]) -> None:
        """So many seconds pass, at once: the device is left as single ticks leave it.

        >>> import fm3130, datetime
        >>> device = fm3130.Device()
        >>> device.set_calendar(datetime.datetime(2024, 2, 28, 23, 59, 59))
        >>> device.sleep(1)
        >>> device.calendar
        datetime.datetime(2024, 2, 29, 0, 0)
        """
        left = _whole_seconds(seconds)
        if self._lamps is not None:
            seen = min(left, self._lamps.TICKS_SEEN)
            self.run([event.TICK] * seen)
            left -= seen
        while left:
            ticks = min(left, MOST_TICKS)
            must_be_done(call("fm3130_catch_up", self._image, ticks))
            left -= ticks

    def write(self, address: int, data: bytes) -> List[bool]:
        """Writes at most 256 bytes to the memory over the bus; of each, whether it was acknowledged.

        The proved master's side makes the transaction and reads its answers. Nothing is raised for a byte that was not
        acknowledged: a protected byte is False, and so is every byte after it.
        """
        sent = bytes(data)
        events = bytearray(29 + 9 * min(len(sent), MASTER_MOST))
        must_be_done(call("fm3130_write_events", address, sent, events).number, MASTER_WORDS)
        answers = self.run(events)
        flags = bytearray(len(sent))
        must_be_done(call("fm3130_write_told", len(sent), answers, flags).number, MASTER_WORDS)
        return [flag == 1 for flag in flags]

    def read(self, address: int, count: int) -> bytes:
        """Reads at most 256 bytes of the memory over the bus; none if the device did not answer, as without power."""
        events = bytearray(39 + 9 * min(count, MASTER_MOST))
        must_be_done(call("fm3130_read_events", address, count, events).number, MASTER_WORDS)
        answers = self.run(events)
        data = bytearray(count)
        told = call("fm3130_read_told", count, answers, data)
        must_be_done(told.number, MASTER_WORDS)
        return bytes(data[: told.count])

    def mend(self) -> List[Change]:
        """Puts an impossible date or time right, in the registers and in the calendar behind them; the registers changed."""
        put_right, changes = mend(bytes(self._image))
        self._image[:] = put_right
        return changes

    def set_calendar(self, moment: datetime.datetime, day: Optional[int] = None, start: bool = True) -> None:
        """Sets the calendar over the bus, by W, and lets the oscillator run unless `start` is False.

        The day of the week is that of the moment, Monday 1, unless another is given. Raises ValueError outside 2000 to 2099.
        """
        calendar = _calendar.bytes_of(moment, day)
        # The other bits of 00h stay: LB and POR too, which a write of 0 would clear.
        control = self.registers[CONTROL] & ~W
        if start:
            self.write_registers(CALIBRATION, [self.registers[CALIBRATION] & ~OSCEN])
        self.write_registers(CONTROL, [control | W])
        self.write_registers(CALENDAR, calendar)
        self.write_registers(CONTROL, [control])

    def read_calendar(self) -> datetime.datetime:
        """The calendar over the bus, registers 02h to 08h in one transfer; ValueError where they are no date."""
        return _calendar.moment_of(self.read_registers(CALENDAR, 7))

    @property
    def calendar(self) -> Optional[datetime.datetime]:
        """The calendar that counts, looked at from outside the bus; None where it is no date, and then it stands still."""
        try:
            return _calendar.moment_of(self._image[_image.CORE])
        except ValueError:
            return None

    @property
    def registers(self) -> bytes:
        """Registers 00h to 0Eh as they are now, looked at from outside the bus."""
        return bytes(self._image[:REGISTER_BYTES])

    @property
    def image(self) -> bytes:
        """The state image as it is now."""
        return bytes(self._image)

    @property
    def memory(self) -> memoryview:
        """The memory itself, no copy: FRAM may hold any bytes, so a test may preset it here.

        >>> import fm3130
        >>> device = fm3130.Device()
        >>> device.memory[0x0123:0x0125] = b"ok"
        >>> device.read(0x0123, 2)
        b'ok'
        """
        return memoryview(self._memory)

    @property
    def power(self) -> str:
        """Which supplies are there: on, backup or none."""
        return _image.SUPPLY_NAMES[self._image[_image.SUPPLIES]]

    @property
    def is_in_transfer(self) -> bool:
        """Whether a transfer is under way."""
        return self._image[_image.PHASE] != _image.IDLE

    def __repr__(self) -> str:
        return f"<fm3130.Device: calendar {self.calendar}, power {self.power}>"


def _whole_seconds(seconds: Union[int, datetime.timedelta]) -> int:
    if isinstance(seconds, datetime.timedelta):
        if seconds.microseconds:
            raise ValueError(f"{seconds} is no whole number of seconds")
        seconds = seconds // datetime.timedelta(seconds=1)
    seconds = operator.index(seconds)
    if seconds < 0:
        raise ValueError(f"{seconds} seconds cannot pass")
    return seconds
