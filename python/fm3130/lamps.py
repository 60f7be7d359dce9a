# SPDX-License-Identifier: Apache-2.0
"""The proving record: which of eight lamps may be shown lit."""

from typing import Tuple

from ._library import call
from ._refused import must_be_done
from .device import Device

RECORD_BYTES = 20
LAMPS = 8
FIRST_ADDRESS = 0x1000


class Lamps:
    """The lamps of a device between transfers. From here on the record sees all that is done on the device.

    A lamp is lit if the last whole read of its byte, at 1000h to 1007h, gave 1 less than three ticks ago and the bus has not
    failed since. It is what was read, not what was to be written: docs/GUIDE.md says what lit means.

    >>> import fm3130
    >>> device = fm3130.Device()
    >>> lamps = fm3130.Lamps(device)
    >>> device.write(0x1000, b"\\x01"), lamps.is_lit(0)
    ([True], False)
    >>> device.read(0x1000, 1), lamps.is_lit(0)
    (b'\\x01', True)
    >>> device.sleep(3)
    >>> lamps.is_lit(0)
    False
    """

    # After three ticks all lamps are dark, and more of them change nothing in the record.
    TICKS_SEEN = 3

    def __init__(self, device: Device) -> None:
        if device._lamps is not None:
            raise ValueError("the device has its lamps already")
        if device.is_in_transfer:
            raise ValueError("a record begins on a device between transfers")
        self._record = bytearray(RECORD_BYTES)
        self._report = 0
        device._lamps = self

    def take(self, image: bytearray, memory: bytearray, events: bytes, answers: bytearray) -> None:
        """Does events on the device and keeps the record; called by the device's `run`."""
        shown = call("fm3130_lamps", image, memory, events, answers, self._record)
        must_be_done(shown.number)
        self._report = shown.report

    @property
    def record(self) -> bytes:
        """The record's bytes as they are now."""
        return bytes(self._record)

    @property
    def lit(self) -> Tuple[bool, ...]:
        """Of each lamp, whether it may be shown lit."""
        return tuple(self.is_lit(lamp) for lamp in range(LAMPS))

    def is_lit(self, lamp: int) -> bool:
        """Whether a lamp, 0 to 7, may be shown lit."""
        if not 0 <= lamp < LAMPS:
            raise IndexError(f"there is no lamp {lamp}")
        return bool(self._report >> lamp & 1)
