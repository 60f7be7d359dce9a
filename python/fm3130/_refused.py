# SPDX-License-Identifier: Apache-2.0
"""What can be wrong: a number of the library, or a byte that nobody acknowledged."""

import errno
import os
from typing import Dict

# By enum fm3130_number and enum fm31_number.
WORDS: Dict[int, str] = {
    1: "memory has the wrong length",
    2: "image is not 64 bytes, or no well-formed state writes it",
    3: "some event byte is unknown",
    4: "answers shorter than events",
    5: "selector neither 0 (memory) nor 1 (registers)",
    6: "start + length passes the end of the chosen bytes",
    7: "this master does not hold the bus",
    8: "more than 31,622,400 ticks",
    9: "a set has one to four devices",
    10: "two devices of a set have the same select bits",
    11: "a device of the set is in a transfer",
}

# By enum fm3130_master_number.
MASTER_WORDS: Dict[int, str] = {
    1: "more than 256 data bytes",
    2: "a read of no data byte",
    3: "the address is above 1FFFh",
    4: "too little room",
    5: "answers are not as many as the events",
}


class Refused(Exception):
    """The library refused by a number, and then nothing was done and nothing was written.

    >>> import fm3130
    >>> fm3130.Device().run([0, 8])
    Traceback (most recent call last):
    fm3130.Refused: some event byte is unknown (number 3)
    """

    def __init__(self, number: int, words: str) -> None:
        super().__init__(number, words)
        self.number = number
        self.words = words

    def __str__(self) -> str:
        return f"{self.words} (number {self.number})"


# As users see it and as doctest names it: the module is not theirs to know.
Refused.__module__ = "fm3130"


def must_be_done(number: int, words: Dict[int, str] = WORDS) -> None:
    """Raises every number but 0, one that no table has too."""
    if number != 0:
        raise Refused(number, words.get(number, "a number that no table has"))


class NotAcknowledged(OSError):
    """A byte that was not acknowledged: the master gave up there, and ended the transfer by a Stop.

    ``errno`` is ENXIO where it was a slave byte, so that nothing answers at the address, and EREMOTEIO where it was a later
    byte. ``acknowledged`` is how many bytes after the slave byte were acknowledged before it.

    >>> import fm3130
    >>> fm3130.Device().transfer(0x51, read=1)
    Traceback (most recent call last):
    fm3130.NotAcknowledged: [Errno 6] nothing acknowledges at 51h
    """

    def __init__(self, code: int, words: str, acknowledged: int = 0) -> None:
        super().__init__(code, words)
        self.acknowledged = acknowledged

    @classmethod
    def address(cls, address: int) -> "NotAcknowledged":
        """Nothing answers at an address."""
        return cls(errno.ENXIO, f"nothing acknowledges at {address:02X}h")

    @classmethod
    def byte(cls, address: int, byte: int, acknowledged: int) -> "NotAcknowledged":
        """A byte after the slave byte."""
        words = f"{address:02X}h does not acknowledge {byte:02X}h, after {acknowledged} bytes that it did"
        return cls(errno.EREMOTEIO, words, acknowledged)


NotAcknowledged.__module__ = "fm3130"


def invalid(words: str) -> OSError:
    """What the kernel refuses before anything is on the wires."""
    return OSError(errno.EINVAL, f"{os.strerror(errno.EINVAL)}: {words}")
