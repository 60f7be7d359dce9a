// SPDX-License-Identifier: Apache-2.0
//! The seven bytes of a calendar, in words.

use std::fmt;

/// Seven bytes: six in BCD, and the day of the week plain.
///
/// ```
/// use fm3130::Calendar;
///
/// let calendar = Calendar::from_bytes([0x59, 0x59, 0x23, 0x07, 0x31, 0x12, 0x99]);
/// assert_eq!(calendar.to_string(), "23:59:59, 31/12/99, day 7");
/// assert!(calendar.is_valid());
/// ```
#[derive(Clone, Copy, Debug, PartialEq, Eq, Hash)]
pub struct Calendar {
    /// Seconds, 00h to 59h.
    pub seconds: u8,
    /// Minutes, 00h to 59h.
    pub minutes: u8,
    /// Hours, 00h to 23h.
    pub hours: u8,
    /// Day of the week, 1 to 7.
    pub day: u8,
    /// Date, 01h to the month's length.
    pub date: u8,
    /// Month, 01h to 12h.
    pub month: u8,
    /// Year, 00h to 99h.
    pub year: u8,
}

impl Calendar {
    /// The calendar of seven bytes in the order of registers 02h to 08h.
    pub fn from_bytes(bytes: [u8; 7]) -> Calendar {
        let [seconds, minutes, hours, day, date, month, year] = bytes;
        Calendar {
            seconds,
            minutes,
            hours,
            day,
            date,
            month,
            year,
        }
    }

    /// The seven bytes in the order of registers 02h to 08h.
    ///
    /// ```
    /// let bytes = [0x00, 0x30, 0x12, 0x03, 0x29, 0x02, 0x08];
    /// assert_eq!(fm3130::Calendar::from_bytes(bytes).to_bytes(), bytes);
    /// ```
    pub fn to_bytes(self) -> [u8; 7] {
        [
            self.seconds,
            self.minutes,
            self.hours,
            self.day,
            self.date,
            self.month,
            self.year,
        ]
    }

    /// True for a valid core (01, "A valid core"): a tick moves it on. Another is left unchanged.
    ///
    /// ```
    /// use fm3130::Calendar;
    ///
    /// let date = |date, month, year| Calendar::from_bytes([0, 0, 0, 1, date, month, year]);
    /// assert!(date(0x29, 0x02, 0x08).is_valid());
    /// assert!(!date(0x29, 0x02, 0x09).is_valid());
    /// assert!(!date(0x31, 0x04, 0x08).is_valid());
    /// ```
    pub fn is_valid(self) -> bool {
        let (Some(month), Some(year)) = (number_of_bcd(self.month), number_of_bcd(self.year))
        else {
            return false;
        };
        is_between(self.seconds, 0, 59)
            && is_between(self.minutes, 0, 59)
            && is_between(self.hours, 0, 23)
            && (1..=7).contains(&self.day)
            && (1..=12).contains(&month)
            && is_between(self.date, 1, length_of_month(month, year))
    }
}

/// 01's notation: time, date, day. Digits that are not decimal show as A to F.
impl fmt::Display for Calendar {
    fn fmt(&self, formatter: &mut fmt::Formatter<'_>) -> fmt::Result {
        write!(
            formatter,
            "{:02X}:{:02X}:{:02X}, {:02X}/{:02X}/{:02X}, day {}",
            self.hours, self.minutes, self.seconds, self.date, self.month, self.year, self.day
        )
    }
}

/// The number that a byte of two decimal digits stands for.
fn number_of_bcd(byte: u8) -> Option<u8> {
    let (tens, units) = (byte >> 4, byte & 0x0F);
    (tens <= 9 && units <= 9).then_some(tens * 10 + units)
}

/// True for a byte of two decimal digits that stands for a number within the limits.
fn is_between(byte: u8, least: u8, greatest: u8) -> bool {
    number_of_bcd(byte).is_some_and(|number| (least..=greatest).contains(&number))
}

/// The number of days of a month, 1 to 12.
fn length_of_month(month: u8, year: u8) -> u8 {
    match month {
        2 if year % 4 == 0 => 29,
        2 => 28,
        4 | 6 | 9 | 11 => 30,
        _ => 31,
    }
}
