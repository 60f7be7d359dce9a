# SPDX-License-Identifier: Apache-2.0
"""The declarations of this package, the headers for C and the library speak of the same functions, numbers and version."""

import ctypes
import os
import pathlib
import re
import shutil
import subprocess
import sys

import pytest

import fm3130
from fm3130 import _library, _refused, capture, device, event, family, lamps

TOP = pathlib.Path(__file__).resolve().parents[2]
HEADERS = [TOP / "include" / name for name in ("fm3130.h", "fm31.h")]
RETURNED = {
    "uint64_t": ctypes.c_uint64,
    "int32_t": ctypes.c_int32,
    "struct fm3130_ran": _library.Ran,
    "struct fm3130_shown": _library.Shown,
    "struct fm3130_mended": _library.Mended,
    "struct fm3130_filled": _library.Filled,
    "struct fm3130_judgement": _library.Judgement,
}


def bare():
    """The headers without their comments and the lines that begin with #, in one line."""
    text = "\n".join(header.read_text() for header in HEADERS)
    text = re.sub(r"/\*.*?\*/", " ", text, flags=re.DOTALL)
    text = re.sub(r"^#(.*\\\n)*.*$", " ", text, flags=re.MULTILINE)
    return " ".join(text.split())


def kind_of(argument):
    """The kind of an argument of C's; the length behind a pointer is a part of its bytes."""
    kinds = {r"uint64_t \w+_length": "", r"const uint8_t \*\w+": "r", r"uint8_t \*\w+": "w"}
    kinds.update({r"uint64_t \w+": "n", r"int32_t \w+": "i"})
    return next(kind for pattern, kind in kinds.items() if re.fullmatch(pattern, argument))


def functions_of_the_headers():
    """Those that end in ; and not in a body."""
    declared = re.findall(r"((?:struct )?\w+) (fm31\w+)\(([^)]*)\);", bare())
    found = {}
    for returned, name, arguments in declared:
        if returned not in RETURNED:
            continue  # a call in a body
        kinds = "".join(kind_of(one.strip()) for one in arguments.split(","))
        found[name] = _library.Entry(kinds, RETURNED[returned])
    return found


def numbers_of(enum):
    """The names and numbers of an enum of the headers."""
    body = re.search(rf"enum {enum} {{([^}}]*)}}", bare()).group(1)
    return {name: int(number, 0) for name, number in re.findall(r"(\w+) = (\w+)", body)}


def defined(name):
    text = "".join(header.read_text() for header in HEADERS)
    return re.search(rf"^#define {name} (\S+)", text, flags=re.MULTILINE).group(1)


def test_the_table_is_that_of_the_headers():
    found = functions_of_the_headers()
    assert len(found) >= 28
    assert _library.ENTRIES == found


def test_every_function_is_declared_as_the_table_says():
    loaded = _library.library()
    for name, entry in _library.ENTRIES.items():
        lengths = sum(2 if kind in "rw" else 1 for kind in entry.kinds)
        assert len(getattr(loaded, name).argtypes) == lengths
        assert getattr(loaded, name).restype is entry.returned


@pytest.mark.parametrize("struct", ["ran", "shown", "mended", "filled", "judgement"])
def test_the_structs(struct):
    body = re.search(rf"struct fm3130_{struct} {{([^}}]*)}}", bare()).group(1)
    fields = [(name, ctypes.c_uint64) for name in re.findall(r"uint64_t (\w+);", body)]
    assert RETURNED[f"struct fm3130_{struct}"]._fields_ == fields


def test_the_events():
    for prefix, enum in (("FM3130_", "fm3130_event"), ("FM31_", "fm31_event")):
        for name, number in numbers_of(enum).items():
            assert getattr(event, name[len(prefix) :]) == number


def test_the_numbers_have_words():
    numbers = {*numbers_of("fm3130_number").values(), *numbers_of("fm31_number").values()}
    assert set(_refused.WORDS) == numbers - {0}
    assert set(_refused.MASTER_WORDS) == set(numbers_of("fm3130_master_number").values()) - {0}


def test_the_verdicts():
    prefix = "FM3130_CAPTURE_"
    for name, number in numbers_of("fm3130_verdict").items():
        assert getattr(capture, name[len(prefix) :]) == number


@pytest.mark.parametrize(
    "name, number",
    [
        ("FM3130_IMAGE_BYTES", device.IMAGE_BYTES),
        ("FM3130_MEMORY_BYTES", device.MEMORY_BYTES),
        ("FM3130_REGISTER_BYTES", device.REGISTER_BYTES),
        ("FM3130_RECORD_BYTES", lamps.RECORD_BYTES),
        ("FM3130_MOST_TICKS", device.MOST_TICKS),
        ("FM3130_MASTER_MOST", device.MASTER_MOST),
        ("FM3130_LAMPS", lamps.LAMPS),
        ("FM31_IMAGE_BYTES", family.IMAGE_BYTES),
        ("FM31_REGISTER_BYTES", family.REGISTER_BYTES),
        ("FM3164_MEMORY_BYTES", family.Fm3164.MEMORY_BYTES),
        ("FM31256_MEMORY_BYTES", family.Fm31256.MEMORY_BYTES),
        ("FM31_SET_MOST", family.SET_MOST),
    ],
)
def test_the_sizes(name, number):
    assert int(defined(name)) == number


def test_the_version():
    version = defined("FM3130_VERSION").strip('"')
    assert fm3130.__version__ == version
    assert f'version = "{version}"' in (TOP / "python/pyproject.toml").read_text().splitlines()


def library_path():
    return pathlib.Path(_library.library()._name)


def test_the_library_shows_the_headers_functions_and_nothing_else():
    if shutil.which("nm") is None:
        pytest.skip("nm is not there")
    listed = subprocess.run(["nm", "-D", "--defined-only", library_path()], check=True, capture_output=True, text=True)
    assert {line.split()[-1] for line in listed.stdout.splitlines()} == set(functions_of_the_headers())


def test_the_soname_has_the_major_version():
    if shutil.which("readelf") is None:
        pytest.skip("readelf is not there")
    shown = subprocess.run(["readelf", "-d", library_path()], check=True, capture_output=True, text=True).stdout
    assert f"[libfm3130.so.{defined('FM3130_VERSION_MAJOR')}]" in shown


def test_duties_of_the_caller_are_kept():
    same = bytearray(64)
    with pytest.raises(ValueError):
        _library.call("fm3130_mend", same, same)
    with pytest.raises(TypeError):
        _library.call("fm3130_fresh", None)
    with pytest.raises(TypeError):
        _library.call("fm3130_fresh", bytes(64))
    with pytest.raises(TypeError):
        _library.call("fm3130_judge", bytearray(64))
    with pytest.raises(TypeError):
        _library.call("fm3130_fresh")
    with pytest.raises(ValueError):
        _library.call("fm3130_trim_propose", 2**31)
    assert type(_library.library()) is ctypes.PyDLL  # no other thread writes to a buffer during a call
    assert _library.call("fm3130_fresh", bytearray()) == 2
    assert _library.call("fm3130_trim_residue", -600, 1, 1) == -88


def test_a_library_that_is_not_there_is_told():
    environment = {**os.environ, "FM3130_LIBRARY": "/nowhere/libfm3130.so", "PYTHONPATH": str(TOP / "python")}
    program = [sys.executable, "-B", "-c", "import fm3130; fm3130.Device()"]
    told = subprocess.run(program, env=environment, capture_output=True, text=True)
    assert told.returncode != 0
    assert "ImportError: fm3130: no library: /nowhere/libfm3130.so" in told.stderr
    assert "make library" in told.stderr


def test_every_file_names_its_licence():
    files = [*(TOP / "python").rglob("*.py"), TOP / "python/pyproject.toml"]
    assert len(files) > 15
    for file in files:
        assert file.read_text().startswith("# SPDX-License-Identifier: Apache-2.0\n"), file
