# SPDX-License-Identifier: Apache-2.0
"""Captures that the tests make, and the judge's verdicts."""

from fm3130 import Device, Verdict, capture_file, event, judge
from fm3130.capture import AGREES, DIFFERS, FAULTY, TOO_LONG

EVENTS = bytes([event.START, *event.written_byte(0xA0), event.STOP])


def recording(change=None):
    """A run's capture; its answers may be changed by a function."""
    device = Device()
    image, memory = device.image, bytes(device.memory)
    answers = bytearray(device.run(EVENTS))
    if change:
        change(answers)
    return capture_file(image, memory, EVENTS, bytes(answers))


def test_all_agree():
    assert judge(recording()) == Verdict(AGREES, 11)
    assert judge(recording()).agrees


def test_the_first_wrong_answer_is_named():
    def change(answers):
        answers[9] ^= 1
        answers[10] ^= 1

    verdict = judge(recording(change))
    assert verdict == Verdict(DIFFERS, 9)
    assert not verdict.agrees
    assert str(verdict) == "answer 9 differs"


def test_a_faulty_entry_is_named():
    assert judge(recording()[:-1]) == Verdict(FAULTY, 4)
    assert judge(b"") == Verdict(FAULTY, 1)


def test_one_that_is_too_long():
    assert judge(bytes(61441)) == Verdict(TOO_LONG, 0)


def test_the_file_is_that_of_the_page():
    """docs/CAPTURE.md shows this very capture, 8,326 bytes."""
    file = recording()
    assert len(file) == 8326
    assert file[0x2070:].hex(" ") == "00 03 02 03 02 02 02 02 02 03 01 05 05 04 05 04 04 04 04 04 04 05"
