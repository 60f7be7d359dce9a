# SPDX-License-Identifier: Apache-2.0
"""From the text of a bus script to items, by docs/SCRIPTS.md."""

import re
from typing import List, NamedTuple, Optional

MOST_TIMES = 4_294_967_295

_BLANK = re.compile(r"[\s,\ufeff]+|(?:#|//).*")
_ACTION = re.compile(r"\[|\]|\{[^}#]*\}|(?:(?!//)[^\s,\[\]{}:*#])+")
_REPEAT = re.compile(r"[:*]([0-9A-Za-z_]*)")
_BYTE = re.compile(r"0[xX][0-9A-Fa-f]{1,2}|[0-9A-Fa-f]{2}")
_CLOCKS = re.compile(r"\{[01\s,]*[01][01\s,]*\}")
_EDGE = re.compile(r"c[12](@[0-3])?")
_EXPECTED_BYTE = re.compile(rf"(r[+-]?|R)=({_BYTE.pattern})")
_ACKNOWLEDGED = re.compile(rf"({_BYTE.pattern})([+-])")

# The states of the ACS pin that a script can expect, as bits 1 to 3 of an answer byte have them.
PINS = {"low": 5, "high": 1, "released": 0, "square": 2, "calibration": 3}

WORDS = ("[", "]", "r", "r+", "R", "r-", "t", "lost", "gone", "power")
READS = ("r", "r+", "R", "r-")
KNOWN = (
    "known: [ ] r r+ R r- t lost gone power, edges as c1 or c1@2, bytes as A0 or 0xA0, clocks as {0110}, "
    "expectations as r=5A A0+ A0- pin=low"
)


class ScriptError(ValueError):
    """A text that is no script: nothing was played.

    >>> import fm3130
    >>> fm3130.script("[ A0 01 lots ]")  # doctest: +ELLIPSIS
    Traceback (most recent call last):
    fm3130.ScriptError: 1:9: unknown word lots; known: [ ] r r+ R r- t lost gone power, ...
    """

    def __init__(self, line: int, column: int, words: str) -> None:
        super().__init__(f"{line}:{column}: {words}")
        self.line = line
        self.column = column


ScriptError.__module__ = "fm3130"


class Expected(NamedTuple):
    """What a script expects of a byte or of the pin; None for what it does not."""

    byte: Optional[int] = None
    acknowledged: Optional[bool] = None
    pin: Optional[int] = None


class Item(NamedTuple):
    """One thing that a script asks for, how often, where it stands, and what is expected of it.

    The word is without the expectation, and "pin" where the pin is looked at.
    """

    word: str
    times: int
    line: int
    column: int
    expected: Expected = Expected()
    text: str = ""

    @property
    def byte(self) -> Optional[int]:
        """The byte that it writes, if it writes one. In lower case c1 and c2 are edges, in every script."""
        if _EDGE.fullmatch(self.word) or not _BYTE.fullmatch(self.word):
            return None
        return int(self.word, 16)

    @property
    def is_on_the_bus(self) -> bool:
        """Whether it is seen on the two wires."""
        return self.word in ("[", "]", *READS) or self.word.startswith("{") or self.byte is not None


def items_of(text: str) -> List[Item]:
    """The items of a text; raises `ScriptError` at the first thing that is none."""
    items: List[Item] = []
    for number, line in enumerate(text.splitlines(), start=1):
        place = 0
        while place < len(line):
            blank = _BLANK.match(line, place)
            if blank:
                place = blank.end()
                continue
            item, place = _item(line, number, place)
            items.append(item)
    return items


def _item(line: str, number: int, place: int) -> "tuple[Item, int]":
    """The item at a place of a line, and the place after it."""
    action = _ACTION.match(line, place)
    if action is None:
        raise ScriptError(number, place + 1, f"{line[place]} stands alone")
    word, expected = _parted(action.group())
    if not _is_known(word) and expected.pin is None:
        raise ScriptError(number, place + 1, f"unknown word {action.group()}; {KNOWN}")
    repeat = _REPEAT.match(line, action.end())
    end = repeat.end() if repeat else action.end()
    times = _times(repeat.group(1)) if repeat else 1
    if times is None:
        raise ScriptError(number, action.end() + 1, f"a repeat is a decimal number from 1 to {MOST_TIMES}")
    if word == "pin" and repeat:
        raise ScriptError(number, place + 1, "the pin is looked at once")
    return Item(word, times, number, place + 1, expected, action.group()), end


def _parted(word: str) -> "tuple[str, Expected]":
    """A word without what it expects, and what it expects."""
    byte = _EXPECTED_BYTE.fullmatch(word)
    if byte:
        return byte.group(1), Expected(byte=int(byte.group(2), 16))
    acknowledged = _ACKNOWLEDGED.fullmatch(word)
    if acknowledged and not _EDGE.fullmatch(acknowledged.group(1)):
        return acknowledged.group(1), Expected(acknowledged=acknowledged.group(2) == "+")
    if word.startswith("pin=") and word[4:] in PINS:
        return "pin", Expected(pin=PINS[word[4:]])
    return word, Expected()


def _is_known(word: str) -> bool:
    return word in WORDS or any(kind.fullmatch(word) for kind in (_BYTE, _CLOCKS, _EDGE))


def _times(digits: str) -> Optional[int]:
    digits = digits.replace("_", "")
    if not re.fullmatch(r"[0-9]{1,10}", digits) or not 1 <= int(digits) <= MOST_TIMES:
        return None
    return int(digits)
