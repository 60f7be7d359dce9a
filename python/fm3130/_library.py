# SPDX-License-Identifier: Apache-2.0
"""The functions of include/fm3130.h and include/fm31.h, declared once, and the one way to call them.

The caller's duties of those headers are kept here, for everything above: no pointer is null, no two buffers overlap, each
buffer has the length that is said. The library is loaded with PyDLL, which keeps the interpreter's lock during a call: so no
other thread of Python writes to a buffer while a call runs.
"""

import ctypes
import functools
import os
import pathlib
import platform
from typing import Any, Dict, List, NamedTuple, Tuple, Union


class Ran(ctypes.Structure):
    """struct fm3130_ran"""

    _fields_ = [("number", ctypes.c_uint64), ("count", ctypes.c_uint64)]


class Shown(ctypes.Structure):
    """struct fm3130_shown"""

    _fields_ = [("number", ctypes.c_uint64), ("report", ctypes.c_uint64)]


class Mended(ctypes.Structure):
    """struct fm3130_mended"""

    _fields_ = [("number", ctypes.c_uint64), ("count", ctypes.c_uint64)]


class Filled(ctypes.Structure):
    """struct fm3130_filled"""

    _fields_ = [("number", ctypes.c_uint64), ("count", ctypes.c_uint64)]


class Judgement(ctypes.Structure):
    """struct fm3130_judgement"""

    _fields_ = [("number", ctypes.c_uint64), ("place", ctypes.c_uint64)]


class Entry(NamedTuple):
    """The kinds of a function's arguments in order, and what it returns."""

    kinds: str
    returned: Any


NUMBER = ctypes.c_uint64
SIGNED = ctypes.c_int32

# r: bytes that are read, w: bytes that are written, each with its length behind it; n: a number of 64 bits; i: one of 32 with
# a sign. A test holds this table to the headers.
ENTRIES: Dict[str, Entry] = {
    "fm3130_fresh": Entry("w", NUMBER),
    "fm3130_run": Entry("wwrw", Ran),
    "fm3130_run_number": Entry("wwrw", NUMBER),
    "fm3130_step": Entry("wwnw", NUMBER),
    "fm3130_line": Entry("rr", NUMBER),
    "fm3130_pins_begin": Entry("rrn", NUMBER),
    "fm3130_pins_look": Entry("nn", NUMBER),
    "fm3130_pins_driven": Entry("nnn", NUMBER),
    "fm3130_pins_settle": Entry("wwn", NUMBER),
    "fm3130_pins_hand": Entry("rnn", NUMBER),
    "fm3130_catch_up": Entry("wn", NUMBER),
    "fm3130_lamps": Entry("wwrww", Shown),
    "fm3130_view_number": Entry("rrnnn", NUMBER),
    "fm3130_mend": Entry("ww", Mended),
    "fm3130_write_events": Entry("nrw", Filled),
    "fm3130_read_events": Entry("nnw", Filled),
    "fm3130_write_told": Entry("nrw", Filled),
    "fm3130_read_told": Entry("nrw", Filled),
    "fm3130_judge": Entry("r", Judgement),
    "fm3130_ask": Entry("wn", NUMBER),
    "fm3130_call": Entry("wnwwrw", Ran),
    "fm3130_trim_check": Entry("inn", NUMBER),
    "fm3130_trim_residue": Entry("inn", SIGNED),
    "fm3130_trim_propose": Entry("i", NUMBER),
    "fm31_fresh": Entry("w", NUMBER),
    "fm3164_run": Entry("wwrw", NUMBER),
    "fm3164_step": Entry("wwnw", NUMBER),
    "fm3164_view_number": Entry("rrnnn", NUMBER),
    "fm31256_run": Entry("wwrw", NUMBER),
    "fm31256_step": Entry("wwnw", NUMBER),
    "fm31256_view_number": Entry("rrnnn", NUMBER),
    "fm31_set_check": Entry("rrrrrr", NUMBER),
    "fm31_set_run": Entry("rwwwwwrw", NUMBER),
}

_BYTES = ctypes.POINTER(ctypes.c_uint8)
_TYPES: Dict[str, Tuple[Any, ...]] = {
    "r": (_BYTES, ctypes.c_uint64),
    "w": (_BYTES, ctypes.c_uint64),
    "n": (NUMBER,),
    "i": (SIGNED,),
}
# ctypes cuts a number that does not fit; here it is an error.
_LIMITS = {"n": (0, 2**64 - 1), "i": (-(2**31), 2**31 - 1)}
_MACHINES = ("x86_64", "aarch64", "arm64")
_NAME = "libfm3130.so"


def _places() -> List[str]:
    """Where the library is looked for: the environment's word alone, or beside the package, in a built tree, on the system."""
    named = os.environ.get("FM3130_LIBRARY")
    if named:
        return [named]
    package = pathlib.Path(__file__).resolve().parent
    beside = [package / _NAME, package.parents[1] / "build" / "lib" / _NAME]
    return [str(path) for path in beside if path.exists()] + [_NAME + ".0"]


def _declare(loaded: ctypes.CDLL) -> ctypes.CDLL:
    """Gives every function its arguments and its result; a library without one of them is another version's."""
    for name, entry in ENTRIES.items():
        function = getattr(loaded, name)
        function.argtypes = [one for kind in entry.kinds for one in _TYPES[kind]]
        function.restype = entry.returned
    return loaded


@functools.lru_cache(maxsize=None)
def library() -> ctypes.CDLL:
    """The library, loaded at the first call."""
    if platform.machine() not in _MACHINES or ctypes.sizeof(ctypes.c_void_p) != 8:
        raise ImportError(f"fm3130: {_NAME} is for 64-bit x86-64 and arm64, and this is {platform.machine()}")
    said = []
    for place in _places():
        try:
            return _declare(ctypes.PyDLL(place))
        except (OSError, AttributeError) as error:
            said.append(str(error))
    advice = "`make library` makes build/lib/libfm3130.so; the variable FM3130_LIBRARY names another place"
    raise ImportError("fm3130: no library: " + "; ".join(said) + ". " + advice)


def _pointer(kind: str, value: Union[bytes, bytearray]) -> Any:
    """The address of a buffer, which is never null: an empty one is a spare byte that nobody reads."""
    wanted = bytes if kind == "r" else bytearray
    if not isinstance(value, wanted):
        raise TypeError(f"{wanted.__name__} are wanted, and not {type(value).__name__}")
    if not value:
        return (ctypes.c_uint8 * 1)()
    if isinstance(value, bytearray):
        return (ctypes.c_uint8 * len(value)).from_buffer(value)
    return ctypes.cast(ctypes.c_char_p(value), _BYTES)


def _number(kind: str, value: int) -> int:
    least, greatest = _LIMITS[kind]
    if not least <= value <= greatest:
        raise ValueError(f"{value} is not from {least} to {greatest}")
    return value


def call(name: str, *arguments: Any) -> Any:
    """Calls a function: bytes where it reads, a bytearray where it writes, a number where it takes one; lengths are added."""
    kinds = ENTRIES[name].kinds
    if len(arguments) != len(kinds):
        raise TypeError(f"{name} takes {len(kinds)} arguments, and not {len(arguments)}")
    written = [id(value) for kind, value in zip(kinds, arguments) if kind == "w"]
    if len(set(written)) != len(written):
        raise ValueError(f"{name}: two buffers that are written are the same one")
    passed: List[Any] = []
    for kind, value in zip(kinds, arguments):
        if kind in "rw":
            passed += [_pointer(kind, value), len(value)]
        else:
            passed.append(_number(kind, value))
    return getattr(library(), name)(*passed)
