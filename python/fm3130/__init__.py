# SPDX-License-Identifier: Apache-2.0
"""A verified stand-in for the FM3130, a clock-and-memory chip on a two-wire bus, for tests in Python.

All that a device does is done by the proved library, libfm3130.so; this package lends it buffers and says what came back.
Every refusal is raised as `Refused`, and every byte that was not acknowledged is told, or raised as `NotAcknowledged`.

>>> import fm3130
>>> with fm3130.SMBus(fm3130.Device()) as bus:
...     bus.write_i2c_block_data(0x50, 0x01, [0x23, 0x5A])  # memory address 0123h, one byte
...     bus.write_byte_data(0x50, 0x01, 0x23)
...     hex(bus.read_byte(0x50))
'0x5a'
"""

from . import event
from ._bus import COMPANION_ADDRESS, MEMORY_ADDRESS
from ._notation import ScriptError
from ._refused import NotAcknowledged, Refused
from ._script import Happening, Played, Unmet, script
from .capture import Verdict, capture_file, judge
from .device import Change, Device, mend
from .family import Fm3164, Fm31256, Set
from .lamps import Lamps
from .smbus import SMBus, i2c_msg

__version__ = "0.4.0"

__all__ = [
    "COMPANION_ADDRESS",
    "Change",
    "Device",
    "Fm31256",
    "Fm3164",
    "Happening",
    "Lamps",
    "MEMORY_ADDRESS",
    "NotAcknowledged",
    "Played",
    "Refused",
    "SMBus",
    "ScriptError",
    "Set",
    "Unmet",
    "Verdict",
    "capture_file",
    "event",
    "i2c_msg",
    "judge",
    "mend",
    "script",
]
