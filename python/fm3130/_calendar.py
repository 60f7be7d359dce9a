# SPDX-License-Identifier: Apache-2.0
"""Seven calendar bytes as a datetime, and back.

The device's years 00 to 99 are taken as 2000 to 2099: these have its leap years.
"""

import datetime
from typing import Optional

CENTURY = 2000


def _number(byte: int) -> int:
    """The number that two decimal digits stand for."""
    tens, units = byte >> 4, byte & 0x0F
    if tens > 9 or units > 9:
        raise ValueError(f"{byte:02X}h is no decimal number of two digits")
    return 10 * tens + units


def _digits(number: int) -> int:
    return number // 10 << 4 | number % 10


def moment_of(calendar: bytes) -> datetime.datetime:
    """The moment that seven bytes in the order of registers 02h to 08h say; ValueError where there is none."""
    second, minute, hour, day, date, month, year = calendar
    if not 1 <= day <= 7:
        raise ValueError(f"{day} is no day of the week")
    return datetime.datetime(
        CENTURY + _number(year), _number(month), _number(date), _number(hour), _number(minute), _number(second)
    )


def bytes_of(moment: datetime.datetime, day: Optional[int] = None) -> bytes:
    """The seven bytes of a moment. The day of the week counts from Monday, 1, unless another is given."""
    if not CENTURY <= moment.year < CENTURY + 100:
        raise ValueError(f"{moment.year} is not from {CENTURY} to {CENTURY + 99}")
    day = moment.isoweekday() if day is None else day
    if not 1 <= day <= 7:
        raise ValueError(f"{day} is no day of the week")
    fields = [_digits(one) for one in (moment.second, moment.minute, moment.hour)]
    return bytes([*fields, day, *(_digits(one) for one in (moment.day, moment.month, moment.year % 100))])
