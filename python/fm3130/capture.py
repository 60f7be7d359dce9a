# SPDX-License-Identifier: Apache-2.0
"""Recordings of a device: one file each, by docs/CAPTURE.md, and what the rules say of it."""

import struct
from typing import NamedTuple

from ._library import call

AGREES = 0
DIFFERS = 1
FAULTY = 2
TOO_LONG = 3


class Verdict(NamedTuple):
    """What the judge says: a number, and the place that goes with it."""

    number: int
    place: int

    @property
    def agrees(self) -> bool:
        """Whether every recorded answer is the right one."""
        return self.number == AGREES

    def __str__(self) -> str:
        words = {
            AGREES: f"all agree: {self.place} answers",
            DIFFERS: f"answer {self.place} differs",
            FAULTY: f"entry {self.place} of the table is faulty",
            TOO_LONG: "more than 61,440 bytes",
        }
        return words.get(self.number, f"a verdict that no table has, {self.number}")


def judge(file: bytes) -> Verdict:
    """Judges a capture: names its first answer that the rules do not give.

    >>> import fm3130
    >>> device = fm3130.Device()
    >>> image, memory, events = device.image, bytes(device.memory), bytes([0, 3, 1])
    >>> file = fm3130.capture_file(image, memory, events, device.run(events))
    >>> str(fm3130.judge(file))
    'all agree: 3 answers'
    """
    judged = call("fm3130_judge", bytes(file))
    return Verdict(judged.number, judged.place)


def capture_file(image: bytes, memory: bytes, events: bytes, answers: bytes) -> bytes:
    """A capture of a run: what it began from, its events and its answers."""
    bodies = [bytes(image), bytes(memory), bytes(events), bytes(answers)]
    offset = 48
    table = b""
    for kind, body in enumerate(bodies, start=1):
        table += struct.pack("<III", kind, offset, len(body))
        offset += len(body)
    return table + b"".join(bodies)
