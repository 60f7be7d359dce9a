# SPDX-License-Identifier: Apache-2.0
"""Scripts: the notation, what is told of bytes, and texts that are none."""

import datetime
import pathlib
import subprocess

import pytest

from fm3130 import Device, Fm3164, Fm31256, ScriptError, Set, Unmet, event, script

TOP = pathlib.Path(__file__).resolve().parents[2]


def guide_lines(command):
    """What docs/GUIDE.md shows below a command, up to the end of its block."""
    lines = (TOP / "docs/GUIDE.md").read_text().split(command)[1].split("\n\n")[0].splitlines()
    return [line[4:] for line in lines[1:]]


def test_the_listing_is_that_of_the_guide():
    text = "[ A0 01 23 5A ]  [ A0 01 23 [ A1 r ]"
    _, *shown = guide_lines(f"$ echo '{text}' | fm3130 run - --memory memory.bin")
    played = script(text)
    assert str(played).splitlines() == shown
    assert (played.read, played.all_acknowledged) == (b"\x5a", True)


class Noting(Device):
    """Notes the events that it is given."""

    def __init__(self):
        self.noted = b""
        super().__init__()

    def run(self, events):
        listed = bytes(events)
        self.noted += listed
        return super().run(listed)

    def sleep(self, seconds):
        self.noted += bytes([event.TICK]) * seconds
        super().sleep(seconds)


@pytest.mark.parametrize(
    "text, events",
    [
        ("[]", "00 01"),
        ("[ D1 r:2 ]", "00 03 03 02 03 02 02 02 03 03" + " 03" * 8 + " 02" + " 03" * 9 + " 01"),
        ("r+ R r-", " 03" * 8 + " 02" + " 03" * 18),
        ("r", " 03" * 8 + " 02"),
        ("r lost ]", " 03" * 9 + " 05 01"),
        ("{01 1}*2 # a comment ]", "02 03 03 02 03 03"),
        ("0x1,0X12 // ] ]", "02 02 02 02 02 02 02 03 03 02 02 02 03 02 02 03 02 03"),
        ("lost gone power", "05 06 07"),
        ("C1", "03 03 02 02 02 02 02 03 03"),
    ],
)
def test_the_notation(text, events):
    device = Noting()
    script(text, device)
    assert device.noted == bytes.fromhex(events)


@pytest.mark.parametrize(
    "text, line, column",
    [
        ("[ A0 lots ]", 1, 6),
        ("[\n 5 ]", 2, 2),
        ("t*0", 1, 2),
        ("t*4294967296", 1, 2),
        ("t*x", 1, 2),
        ("* ]", 1, 1),
        ("} ]", 1, 1),
        ("{01", 1, 1),
        ("{}", 1, 1),
        ("{2}", 1, 1),
        ("c1", 1, 1),
        ("A0*2000000", 1, 1),
        ("[ A0 ]\nlost\nA0 c1", 3, 4),
    ],
)
def test_texts_that_are_none(text, line, column):
    device = Device()
    before = device.image
    with pytest.raises(ScriptError) as raised:
        script(text, device)
    assert (raised.value.line, raised.value.column) == (line, column)
    assert device.image == before


def test_a_protected_byte_is_told():
    played = script("[ D0 0E 08 ] [ A0 07 FF 11 ]")
    assert not played.all_acknowledged
    assert "  write 11h  NACK  memory 07FFh: protected, not stored" in str(played).splitlines()


def test_a_bad_date_is_told():
    played = script("[ D0 00 02 ] [ D0 06 31 04 ] [ D0 00 00 ]")
    assert "  write 00h  NACK  00h RTC/Alarm Control: refused, not loaded" in str(played).splitlines()


def test_nine_clocks_inside_a_byte_are_no_acknowledge():
    """The device is one clock behind, so that no ninth clock here is its acknowledge."""
    played = script("[ {1} A0 ]")
    assert [one.acknowledged for one in played.happenings] == [None, None, False, None]
    assert not played.all_acknowledged


def test_a_byte_without_a_start_is_not_acknowledged():
    for text in ("A0", "r+", "[ ] A0"):
        played = script(text)
        assert (played.all_acknowledged, played.read) == (False, b"")
    assert script("{1}").all_acknowledged


def test_a_master_that_holds_the_ninth_bit_low():
    assert script("[ {101000000} ]").happenings[1].acknowledged is True
    assert script("[ {111000000} ]").happenings[1].acknowledged is False


def test_ticks_are_slept():
    device = Device()
    device.set_calendar(datetime.datetime(2024, 2, 28))
    played = script("t*86_400", device)
    assert str(played) == "t*86400 86400 ticks: 2024-02-28 00:00:00 -> 2024-02-29 00:00:00"
    assert "stands still" in str(script("t"))


def test_power_is_off():
    played = script("lost [ A0 ] power")
    assert "  line  A0h  NACK  the power is off" in str(played).splitlines()


def test_edges_of_a_part():
    part = Fm3164()
    played = script("c1*7 [ D0 0C 08 ] c1 [ D0 0D [ D1 r:4 ] t", part)
    assert (played.read, part.counters) == (b"\x07\x00\x00\x00", (8, 0))
    assert played.happenings[0].words == "7 edges on CNT1"


def test_an_edge_is_not_on_the_bus():
    """So the read before it is the last, and is not acknowledged."""
    assert script("[ D1 r c1 ]", Fm3164()).happenings[2].acknowledged is False


def test_edges_of_a_set():
    both = Set([(0, Fm31256()), (2, Fm3164())])
    played = script("[ A4 00 10 5A ] c1@2*3 [ A2 ]", both)
    assert both.device(2).counters == (3, 0)
    assert [one.acknowledged for one in played.happenings if one.byte is not None] == [True] * 4 + [False]
    for text in ("c1", "c1@1"):
        with pytest.raises(ScriptError):
            script(text, both)


def test_every_script_of_the_tree_is_played_without_a_refusal():
    assert len(SCRIPTS) >= 8
    for path in SCRIPTS:
        device = Fm3164() if path.name == "counting.bus" else Device()
        assert script(path.read_text(), device).happenings


def command(*arguments):
    """What the command fm3130 prints. `make tests` has built it before; elsewhere it may be missing."""
    built = TOP / "build/cargo/release/fm3130"
    if not built.exists():
        pytest.skip("the command fm3130 is not built")
    return subprocess.run([built, *arguments], check=True, capture_output=True, text=True).stdout


def bytes_in(listing):
    """Direction, value and acknowledge of the bytes in a listing."""
    rows = [line.split()[:3] for line in listing.splitlines()]
    return [row for row in rows if row and row[0] in ("write", "read", "line")]


SCRIPTS = sorted((TOP / "scripts").glob("*.bus"))
OF_THE_FM3130 = [path for path in SCRIPTS if path.name != "counting.bus"]


@pytest.mark.parametrize("path", OF_THE_FM3130, ids=lambda path: path.name)
def test_the_events_are_those_of_the_command(path, tmp_path):
    command("events", path, "-o", tmp_path / "events")
    device = Noting()
    script(path.read_text(), device)
    assert device.noted == (tmp_path / "events").read_bytes()


# Scripts without single clocks, which the command puts together to bytes; the last ones have masters that do odd things.
WHOLE_BYTES = [path.read_text() for path in OF_THE_FM3130 if "{" not in path.read_text()] + [
    "[ A0 r:3 ] [ A0 01 r+ R 55 ]",
    "[ A1 55 00 FF [ D1 00 ] r 12",
    "[ D0 0F 00 ] [ 42 00 ] lost [ A0 ] power [ A0 00 00 gone 11 ]",
]


@pytest.mark.parametrize("text", WHOLE_BYTES)
def test_the_acknowledges_are_those_of_the_command(text, tmp_path):
    (tmp_path / "script").write_text(text)
    told = bytes_in(command("run", tmp_path / "script"))
    assert len(told) > 3
    assert bytes_in(str(script(text))) == told


def test_the_clocks_of_a_byte():
    assert event.written_byte(0xA0).hex(" ") == "03 02 03 02 02 02 02 02 03"
    with pytest.raises(ValueError):
        event.written_byte(256)
    assert not event.is_acknowledged(b"\x00" * 8)


def test_expectations_that_are_met():
    text = "[ A0+ 01+ 23+ 5A+ ] [ A0 01 23 [ A1 r=5A R=00 ] [ A2- ] pin=square [ D0 00 04 ] pin=calibration gone pin=released"
    assert script(text).read == b"\x5a\x00"
    assert script("[ D0 0D [ D1 r=00:3 ]", Fm3164()).read == bytes(3)


@pytest.mark.parametrize(
    "text, place, words",
    [
        ("[ A0 00 00 [ A1 r=5A ]", (1, 17), "expected 5Ah, seen 00h"),
        ("[ A2\n r=FF ]", (2, 2), "nobody sends"),
        ("[ A0 00 [ A1 {1} r=FF ]", (1, 18), "nobody sends"),
        ("[ A2+ ]", (1, 3), "expected an acknowledge, seen none"),
        ("[ A0- ]", (1, 3), "expected no acknowledge, seen one"),
        ("[ A2 {111111110} ] A0+", (1, 20), "expected an acknowledge, seen none"),
        ("t pin=low", (1, 3), "expected pin=low, seen pin=square"),
    ],
)
def test_expectations_that_are_not_met(text, place, words):
    with pytest.raises(Unmet, match=words) as caught:
        script(text)
    assert caught.value.places == [place]
    assert caught.value.played.happenings


def test_a_repeated_expectation_is_told_once():
    with pytest.raises(Unmet) as caught:
        script("[ A1 r=01:20 r=02 ]")
    assert caught.value.places == [(1, 6), (1, 14)]


@pytest.mark.parametrize("text", ["r=5", "A0=5A", "pin=up", "pin=low:2", "t+", "c1+", "A0++"])
def test_expectations_that_are_none(text):
    with pytest.raises(ScriptError):
        script(text)
    with pytest.raises(ScriptError):
        script("pin=low", Fm3164())
