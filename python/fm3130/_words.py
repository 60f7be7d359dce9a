# SPDX-License-Identifier: Apache-2.0
"""What a byte on the bus means, by the images before its first clock and after its eighth. None of the device's rules is here."""

from . import _image

CLOCK_REGISTERS = (
    "RTC/Alarm Control",
    "CAL/Control",
    "RTC Seconds",
    "RTC Minutes",
    "RTC Hours",
    "RTC Day",
    "RTC Date",
    "RTC Month",
    "RTC Years",
    "Alarm Seconds",
    "Alarm Minutes",
    "Alarm Hours",
    "Alarm Date",
    "Alarm Month",
    "Alarm & WP Control",
)
FAMILY_REGISTERS = (
    "Watchdog Restart/Flags",
    "Watchdog Control",
    "Companion Control",
    "Event Count Control",
    "Event Counter 1 LSB",
    "Event Counter 1 MSB",
    "Event Counter 2 LSB",
    "Event Counter 2 MSB",
    *(f"Serial Number {place}" for place in range(8)),
)
FIRST_FAMILY_REGISTER = 0x09
_CLOCK_MARK = bytes([0x31, 0x30, 0x01])
_NAMED = {0xA0: "memory, write", 0xA1: "memory, read", 0xD0: "companion, write", 0xD1: "companion, read"}
_SELECT_BITS = 0x06


def has_clock(image: bytes) -> bool:
    """Whether an image is an FM3130's, by its mark."""
    return image[61:64] == _CLOCK_MARK


def register_name(image: bytes, address: int) -> str:
    """The name of the register at an address; empty where there is none."""
    names, first = (CLOCK_REGISTERS, 0) if has_clock(image) else (FAMILY_REGISTERS, FIRST_FAMILY_REGISTER)
    place = address - first
    return names[place] if 0 <= place < len(names) else ""


def _held(image: bytes, address: int) -> int:
    return image[address if has_clock(image) else address - FIRST_FAMILY_REGISTER]


def of_byte(first: bytes, eighth: bytes, byte: int) -> str:
    """The meaning of a byte whose eight bits are through."""
    phase = first[_image.PHASE]
    address = _image.memory_address(first)
    if phase == _image.IDLE:
        return "nobody listens" if first[_image.SUPPLIES] == 0 else "the power is off"
    if phase == _image.SLAVE_BYTE:
        return "slave byte: " + _slave(first, byte)
    if phase == _image.FIRST_ADDRESS_BYTE:
        return "memory address, first byte"
    if phase == _image.SECOND_ADDRESS_BYTE:
        return f"memory address {_image.memory_address(eighth):04X}h"
    if phase == _image.COMPANION_ADDRESS_BYTE:
        return f"register address {byte:02X}h" + (_behind(register_name(first, byte)) or ": there is none")
    if phase == _image.WRITE_MEMORY:
        return f"memory {address:04X}h: " + ("stored" if eighth[_image.PHASE] else "protected, not stored")
    if phase == _image.READ_MEMORY:
        return f"memory {address:04X}h"
    return _register(first, eighth, byte)


def _slave(first: bytes, byte: int) -> str:
    named = _NAMED.get(byte)
    if named is None and not has_clock(first):
        named = _NAMED.get(byte & ~_SELECT_BITS)
        named = named and f"{named}, select bits {(byte & _SELECT_BITS) >> 1}"
    return named or "another part"


def _behind(name: str) -> str:
    return f", {name}" if name else ""


def _register(first: bytes, eighth: bytes, byte: int) -> str:
    """A data byte to or from a register; what the register does not take of it is said."""
    address = first[_image.COMPANION_ADDRESS]
    words = f"{address:02X}h {register_name(first, address)}"
    if first[_image.PHASE] == _image.READ_COMPANION:
        return words
    if eighth[_image.PHASE] == _image.IDLE:
        return words + ": refused, not loaded"
    held = _held(eighth, address)
    return words + ("" if held == byte else f": the register holds {held:02X}h")
