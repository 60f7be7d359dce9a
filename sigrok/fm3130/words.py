# SPDX-License-Identifier: Apache-2.0
"""Registers and calendar of the FM3130 in words."""

REGISTERS = (
    "RTC/Alarm Control",
    "CAL/Control",
    "RTC Seconds",
    "RTC Minutes",
    "RTC Hours",
    "RTC Day",
    "RTC Date",
    "RTC Month",
    "RTC Years",
    "Alarm Seconds",
    "Alarm Minutes",
    "Alarm Hours",
    "Alarm Date",
    "Alarm Month",
    "Alarm & WP Control",
)
FIRST_CALENDAR, LAST_CALENDAR = 0x02, 0x08

_CONTROL_BITS = ("LB", "AF", "CF", "POR", "AEN", "CAL", "W", "R")
_FIELDS = ("seconds", "minutes", "hours", "day", "date", "month", "year")
_ALARM_FIELDS = ("seconds", "minutes", "hours", "date", "month")
_PROTECTED = ("writes allowed everywhere", "writes refused at 0000h to 07FFh", "writes refused at 0000h to 0FFFh")


def of_register(address, byte):
    """What a byte means in the register at an address."""
    if address == 0x00:
        return " ".join(f"{name}={byte >> 7 - place & 1}" for place, name in enumerate(_CONTROL_BITS))
    if address == 0x01:
        return "oscillator halted" if byte & 0x80 else "oscillator runs"
    if FIRST_CALENDAR <= address <= LAST_CALENDAR:
        return f"{_FIELDS[address - FIRST_CALENDAR]} {byte:02X}"
    if address < 0x0E:
        field = _ALARM_FIELDS[address - 0x09]
        return f"{field} not compared" if byte & 0x80 else f"{field} {byte & 0x7F:02X}"
    pin = "alarm" if byte & 0x80 else "square wave"
    return f"ACS pin: {pin}; {(*_PROTECTED, 'writes refused everywhere')[byte >> 3 & 3]}"


def of_calendar(fields):
    """Seven bytes as a moment, digits as they are."""
    seconds, minutes, hours, day, date, month, year = fields
    return f"{hours:02X}:{minutes:02X}:{seconds:02X}, {date:02X}/{month:02X}/{year:02X}, day {day}"
