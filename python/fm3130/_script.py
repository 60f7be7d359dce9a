# SPDX-License-Identifier: Apache-2.0
"""Bus scripts, by docs/SCRIPTS.md: played on a device, and what happened in words."""

from typing import List, NamedTuple, Optional, Sequence, Tuple, Union

from . import _image, _words, event
from ._notation import PINS, READS, Item, ScriptError, items_of
from .device import Device
from .family import Part, Set

_POWER = {
    "lost": (event.POWER_LOST_WITH_BACKUP, "main power lost, backup present"),
    "gone": (event.POWER_LOST_WITHOUT_BACKUP, "main power lost, no backup"),
    "power": (event.POWER_RETURNED, "main power returned"),
}
# As many edges or clocks in one repeat would take long and much room; the command can do them.
_MOST_EVENTS = 1_000_000


class Happening(NamedTuple):
    """One thing that happened: its notation, what it means, and of a byte its value and its acknowledge.

    `acknowledged` is the device's where a byte was written and the master's where it was read; False where a byte was to be
    and none came about; None for all else.
    """

    notation: str
    words: str
    byte: Optional[int] = None
    acknowledged: Optional[bool] = None
    is_read: bool = False

    def __str__(self) -> str:
        if self.byte is None:
            # One blank at least, also behind a long repeat.
            return f"{self.notation:<7} {self.words}".rstrip()
        acknowledge = "ACK" if self.acknowledged else "NACK"
        return f"  {self.notation:<5} {self.byte:02X}h  {acknowledge:<5} {self.words}".rstrip()


class Played:
    """What a script did: `str` is the listing, `read` the bytes that were read, `device` the device after it."""

    def __init__(self, device: Union[Device, Part, Set], happenings: List[Happening]) -> None:
        self.device = device
        self.happenings = happenings

    @property
    def read(self) -> bytes:
        """The bytes that were read, in their order."""
        return bytes(one.byte for one in self.happenings if one.is_read and one.byte is not None)

    @property
    def all_acknowledged(self) -> bool:
        """Whether the device acknowledged every byte that the script writes."""
        return not any(one.acknowledged is False and not one.is_read for one in self.happenings)

    def __str__(self) -> str:
        return "\n".join(map(str, self.happenings))


class Unmet(AssertionError):
    """A script was played, and something did not come about that it expects: `places` has line and column of each.

    >>> import fm3130
    >>> fm3130.script("[ A0 01 23 [ A1 r=5A ]")
    Traceback (most recent call last):
    fm3130.Unmet: 1:17: r=5A: expected 5Ah, seen 00h
    """

    def __init__(self, unmet: List[Tuple[Item, str]], played: Played) -> None:
        super().__init__("\n".join(f"{item.line}:{item.column}: {item.text}: {words}" for item, words in unmet))
        self.places = [(item.line, item.column) for item, _ in unmet]
        self.played = played


Unmet.__module__ = "fm3130"


def script(text: str, device: Union[Device, Part, Set, None] = None) -> Played:
    """Plays a script on a device, a fresh FM3130 if none is given. Raises `ScriptError` before anything is played, and `Unmet`
    after all is played where something did not come about that it expects.

    >>> import fm3130
    >>> print(fm3130.script("[ A0 01 23 5A ]"))
    [       Start
      write A0h  ACK   slave byte: memory, write
      write 01h  ACK   memory address, first byte
      write 23h  ACK   memory address 0123h
      write 5Ah  ACK   memory 0123h: stored
    ]       Stop
    >>> fm3130.script("[ D0 05 [ D1 r:3 ]").read.hex(" ")
    '01 01 01'
    >>> fm3130.script("[ A0+ 01 23 5A+ ] [ A0 01 23 [ A1 r=5A ]").read.hex()
    '5a'
    """
    items = items_of(text)
    target = Device() if device is None else device
    for item in items:
        _check(item, target)
    player = _Player(target)
    for place, item in enumerate(items):
        player.play(item, items[place + 1 :])
    played = Played(target, player.happenings)
    if player.unmet:
        raise Unmet(player.unmet, played)
    return played


def _check(item: Item, device: Union[Device, Part, Set]) -> None:
    """Raises what this device cannot be asked for, before anything is played."""
    if item.word.startswith(("c1", "c2")):
        problem = _problem_of_edge(item.word, device)
        if problem:
            raise ScriptError(item.line, item.column, problem)
    if item.expected.pin is not None and not isinstance(device, Device):
        raise ScriptError(item.line, item.column, f"{item.text}: there is no ACS pin")
    if item.word != "t" and item.times > _MOST_EVENTS:
        raise ScriptError(item.line, item.column, f"{item.times} times are too many here; the command fm3130 plays them")


def _problem_of_edge(word: str, device: Union[Device, Part, Set]) -> str:
    """Why a device has no such edge; empty if it has."""
    if isinstance(device, Device):
        return f"{word} is an edge, and the FM3130 has no counters"
    if ("@" in word) != isinstance(device, Set):
        return f"{word}: an edge names its device exactly in a set"
    if isinstance(device, Set) and int(word[3:]) not in device.selects:
        return f"{word} names no device of the set"
    return ""


def _next_ends(following: Sequence[Item]) -> bool:
    """Whether a Start or a Stop is the next thing on the bus, so that a plain r is the last of its read."""
    on_the_bus = [item.word for item in following if item.is_on_the_bus][:1]
    return on_the_bus in (["["], ["]"])


def _unlike(item: Item, told: Happening) -> str:
    """How a byte is not as expected; empty where it is. What nobody sends is no byte that was read."""
    byte, acknowledged = item.expected.byte, item.expected.acknowledged
    if byte is not None and not told.is_read:
        return f"expected {byte:02X}h, and nobody sends"
    if byte is not None and told.byte != byte:
        return f"expected {byte:02X}h, seen {told.byte:02X}h"
    if acknowledged is not None and bool(told.acknowledged) != acknowledged:
        return "expected an acknowledge, seen none" if acknowledged else "expected no acknowledge, seen one"
    return ""


def _braces(clocks: Sequence[int]) -> str:
    """Clocks as a script writes them."""
    return "{" + "".join("1" if one == event.CLOCK_HIGH else "0" for one in clocks) + "}"


class _Player:
    """Plays items one by one and notes what happened."""

    def __init__(self, device: Union[Device, Part, Set]) -> None:
        self.device = device
        self.happenings: List[Happening] = []
        self.unmet: List[Tuple[Item, str]] = []
        self.is_started = self._heard()[_image.PHASE] != _image.IDLE

    def play(self, item: Item, following: Sequence[Item]) -> None:
        """Plays an item; those after it say whether a plain r goes on."""
        if item.expected.pin is not None:
            self._look(item, item.expected.pin)
        elif item.word in READS:
            for left in range(item.times, 0, -1):
                goes_on = item.word == "r+" or item.word == "r" and not (left == 1 and _next_ends(following))
                self._byte(event.read_byte(goes_on))
                self._hold(item)
        elif item.word == "t":
            self._ticks(item.times)
        elif item.word.startswith(("c1", "c2")):
            self._edges(item)
        else:
            for _ in range(item.times):
                self._one(item)
                self._hold(item)

    def _hold(self, item: Item) -> None:
        """Notes how the byte that was just told is not as expected; of a repeated one the first time."""
        words = _unlike(item, self.happenings[-1])
        if words and not (self.unmet and self.unmet[-1][0] is item):
            self.unmet.append((item, words))

    def _look(self, item: Item, expected: int) -> None:
        """Looks at the ACS pin: an event that changes nothing, on a copy, has it in its answer."""
        device = self.device
        assert isinstance(device, Device)
        nothing = (event.POWER_RETURNED, event.POWER_LOST_WITH_BACKUP, event.POWER_LOST_WITHOUT_BACKUP)
        copy = Device(device.image, bytes(device.memory))
        seen = copy.run([nothing[device.image[_image.SUPPLIES]]])[0] >> 1 & 7
        if seen != expected:
            names = {state: name for name, state in PINS.items()}
            self.unmet.append((item, f"expected pin={names[expected]}, seen pin={names[seen]}"))

    def _one(self, item: Item) -> None:
        if item.word == "[":
            self._tell([event.START], "[", "repeated Start" if self.is_started else "Start")
            self.is_started = True
        elif item.word == "]":
            self._tell([event.STOP], "]", "Stop")
            self.is_started = False
        elif item.word in _POWER:
            code, words = _POWER[item.word]
            self._tell([code], item.word, words)
            self.is_started = self.is_started and self._heard()[_image.SUPPLIES] == 0
        elif item.byte is not None:
            self._byte(event.written_byte(item.byte))
        else:
            self._clocks([event.clock(level == "1") for level in item.word if level in "01"])

    def _tell(self, events: Sequence[int], notation: str, words: str) -> None:
        self.device.run(events)
        self.happenings.append(Happening(notation, words))

    def _clocks(self, clocks: Sequence[int]) -> None:
        """Single clocks: nine of them are a byte, if one begins here."""
        if len(clocks) == 9:
            return self._byte(bytes(clocks))
        self._stray(clocks)

    def _stray(self, clocks: Sequence[int], acknowledged: Optional[bool] = None) -> None:
        """Clocks that are no byte by themselves."""
        self.device.run(clocks)
        words = "inside a byte" if self.is_started else "outside a transfer"
        self.happenings.append(Happening(_braces(clocks), words, acknowledged=acknowledged))

    def _byte(self, clocks: bytes) -> None:
        """Nine clocks. Outside a transfer, or where one is under way, they are no byte, and nothing acknowledges it."""
        first = self._heard()
        if first[_image.CLOCKS_DONE] or not self.is_started:
            return self._stray(clocks, acknowledged=False)
        shown = self.device.run(clocks[:8])
        eighth = self._heard()
        ninth = self.device.run(clocks[8:])[0]
        value = event.value_of(shown)
        is_read = first[_image.PHASE] in (_image.READ_MEMORY, _image.READ_COMPANION)
        # Low by the master alone is no acknowledge of the device's: one that does not acknowledge has left the transfer.
        by_device = is_read or clocks[8] == event.CLOCK_HIGH or eighth[_image.PHASE] != _image.IDLE
        acknowledged = not ninth & event.LINE and by_device
        verb = "read" if is_read else "line" if first[_image.PHASE] == _image.IDLE else "write"
        words = _words.of_byte(first, eighth, value)
        self.happenings.append(Happening(verb, words, value, acknowledged, is_read))

    def _ticks(self, times: int) -> None:
        notation = "t" if times == 1 else f"t*{times}"
        words = "1 tick" if times == 1 else f"{times} ticks"
        if not isinstance(self.device, Device):
            # A tick changes nothing in these parts, however often.
            return self._tell([event.TICK], notation, words + ": this part has no clock")
        before = self.device.calendar
        self.device.sleep(times)
        after = self.device.calendar
        told = "the calendar stands still" if before == after else f"{before} -> {after}"
        self.happenings.append(Happening(notation, f"{words}: {told}"))

    def _edges(self, item: Item) -> None:
        """Edges of a part, c1, or of a device of a set, c1@2."""
        pin = int(item.word[1])
        notation = item.word if item.times == 1 else f"{item.word}*{item.times}"
        words = f"{item.times} edge{'s' if item.times > 1 else ''} on CNT{pin}"
        if isinstance(self.device, Set):
            self.device.edge(int(item.word[3:]), pin, item.times)
        elif isinstance(self.device, Part):
            self.device.edge(pin, item.times)
        self.happenings.append(Happening(notation, words))

    def _heard(self) -> bytes:
        """The image of whoever is in the transfer; of a set where nobody is, that of the first."""
        if not isinstance(self.device, Set):
            return self.device.image
        images = self.device.images
        return next((one for one in images if one[_image.PHASE] != _image.IDLE), images[0])
