# SPDX-License-Identifier: Apache-2.0
"""The proved device, by libfm3130.so, if that is at hand."""

import ctypes
import os

START, STOP, CLOCK_LOW, CLOCK_HIGH = 0, 1, 2, 3
IMAGE_BYTES, MEMORY_BYTES = 64, 8192
# What is in the answer's place before the device has answered: a line that nobody pulls.
UNANSWERED = 1


class Refused(Exception):
    """The device refuses, or there is no library: nothing can be judged."""


def _library(name):
    """The library that is named, or the one of the environment, or the system's; None where there is none."""
    named = name or os.environ.get("FM3130_LIBRARY", "")
    try:
        return ctypes.CDLL(named or "libfm3130.so.0")
    except OSError as error:
        if named:
            raise Refused(f"{named} cannot be loaded: {error}") from error
        return None


def _bytes_of(path, length, otherwise):
    if not path:
        return otherwise
    try:
        with open(path, "rb") as file:
            content = file.read(length + 1)
    except OSError as error:
        raise Refused(f"{path}: {error.strerror}") from error
    if len(content) != length:
        raise Refused(f"{path}: it has not {length} bytes")
    return content


class Device:
    """A device that does events one by one."""

    @classmethod
    def at_hand(cls, library, image, memory):
        """A device of files, or fresh; None without a library."""
        loaded = _library(library)
        return None if loaded is None else cls(loaded, image, memory)

    def __init__(self, library, image, memory):
        number = ctypes.c_uint64
        self._step = library.fm3130_step
        self._step.restype = number
        self._step.argtypes = [ctypes.c_char_p, number, ctypes.c_char_p, number, number, ctypes.c_char_p, number]
        fresh = ctypes.create_string_buffer(IMAGE_BYTES)
        library.fm3130_fresh.restype = number
        library.fm3130_fresh.argtypes = [ctypes.c_char_p, number]
        if library.fm3130_fresh(fresh, IMAGE_BYTES) != 0:
            raise Refused("no fresh device")
        self._image = ctypes.create_string_buffer(_bytes_of(image, IMAGE_BYTES, fresh.raw), IMAGE_BYTES)
        self._memory = ctypes.create_string_buffer(_bytes_of(memory, MEMORY_BYTES, bytes(MEMORY_BYTES)), MEMORY_BYTES)

    def do(self, event):
        """Does an event; whether the line is high at it."""
        told = ctypes.create_string_buffer(bytes([UNANSWERED, 0]), 2)
        number = self._step(self._image, IMAGE_BYTES, self._memory, MEMORY_BYTES, event, told, 2)
        if number != 0:
            raise Refused(f"the device refuses, by number {number}")
        return told.raw[0] & 1 == 1
