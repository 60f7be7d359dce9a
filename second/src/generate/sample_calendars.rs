// SPDX-License-Identifier: Apache-2.0
//! Calendars with every kind of fault, and valid ones beside them.

use crate::calendar::{calendar_from_numbers, Calendar};

/// A valid calendar that many others differ from in one field: 29/02/96.
pub fn leap_day() -> Calendar {
    calendar_from_numbers((23, 59, 59), 7, (29, 2, 96))
}

/// Register of 02h to 08h and a byte that is out of range there; the bits that
/// are not stored are 0.
const BYTES_OUT_OF_RANGE: [(u8, u8); 19] = [
    (0x02, 0x60),
    (0x02, 0x0A),
    (0x02, 0x7F),
    (0x03, 0x60),
    (0x03, 0x5A),
    (0x03, 0x7F),
    (0x04, 0x24),
    (0x04, 0x1F),
    (0x04, 0x3F),
    (0x05, 0x00),
    (0x06, 0x00),
    (0x06, 0x32),
    (0x06, 0x2B),
    (0x07, 0x00),
    (0x07, 0x13),
    (0x07, 0x0C),
    (0x08, 0x9A),
    (0x08, 0xA9),
    (0x08, 0xFF),
];

/// Date, month and year where the date is beyond the month's end.
const BEYOND_THE_END: [(u8, u8, u8); 8] = [
    (30, 2, 96),
    (31, 2, 96),
    (29, 2, 99),
    (30, 2, 99),
    (31, 4, 0),
    (31, 6, 21),
    (31, 9, 99),
    (31, 11, 50),
];

/// Invalid calendars: each kind of fault by itself, and all fields at fault.
pub fn invalid_calendars() -> Vec<Calendar> {
    let mut calendars = Vec::new();
    for (register, byte) in BYTES_OUT_OF_RANGE {
        let mut bytes = leap_day().to_bytes();
        bytes[usize::from(register) - 2] = byte;
        calendars.push(Calendar::from_bytes(bytes));
    }
    for date in BEYOND_THE_END {
        calendars.push(calendar_from_numbers((12, 34, 56), 4, date));
    }
    calendars.push(Calendar::from_bytes([
        0x7F, 0x7F, 0x3F, 0x00, 0x3F, 0x1F, 0xFF,
    ]));
    calendars
}

/// Valid calendars, some of them just inside a limit.
pub fn valid_calendars() -> Vec<Calendar> {
    vec![
        leap_day(),
        calendar_from_numbers((0, 0, 0), 1, (1, 1, 0)),
        calendar_from_numbers((23, 59, 59), 7, (31, 12, 99)),
        calendar_from_numbers((12, 34, 56), 4, (30, 4, 21)),
        calendar_from_numbers((9, 9, 9), 2, (28, 2, 1)),
    ]
}
