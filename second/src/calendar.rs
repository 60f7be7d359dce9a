// SPDX-License-Identifier: Apache-2.0
//! The calendar: seven bytes, which of them are valid, and the next second.

/// Seven bytes: seconds, minutes, hours, day, date, month, year.
///
/// "02h to 08h: seconds, minutes, hours, day, date, month, year, in BCD (day
/// plain)."
#[derive(Clone, Copy, Debug, PartialEq, Eq)]
pub struct Calendar {
    pub seconds: u8,
    pub minutes: u8,
    pub hours: u8,
    pub day: u8,
    pub date: u8,
    pub month: u8,
    pub year: u8,
}

/// Two decimal digits, each 0 to 9.
pub fn has_decimal_digits(byte: u8) -> bool {
    (byte >> 4) <= 9 && (byte & 0x0F) <= 9
}

/// The number that a BCD byte stands for.
pub fn number_from_bcd(byte: u8) -> u8 {
    (byte >> 4) * 10 + (byte & 0x0F)
}

/// The BCD byte of a number from 0 to 99.
pub fn bcd_from_number(number: u8) -> u8 {
    assert!(number <= 99, "two decimal digits hold 0 to 99");
    (number / 10) * 16 + number % 10
}

/// "February has 29 days when the year divides by 4."
fn february_length(year: u8) -> u8 {
    match year % 4 {
        0 => 29,
        _ => 28,
    }
}

/// The number of days of a month (1 to 12) of a year (0 to 99).
pub fn month_length(month: u8, year: u8) -> u8 {
    match month {
        1 | 3 | 5 | 7 | 8 | 10 | 12 => 31,
        4 | 6 | 9 | 11 => 30,
        2 => february_length(year),
        _ => panic!("months are 1 to 12"),
    }
}

impl Calendar {
    /// The seven bytes in the order of the registers 02h to 08h.
    pub fn to_bytes(&self) -> [u8; 7] {
        [
            self.seconds,
            self.minutes,
            self.hours,
            self.day,
            self.date,
            self.month,
            self.year,
        ]
    }

    /// The calendar made of seven bytes in the order of 02h to 08h.
    pub fn from_bytes(bytes: [u8; 7]) -> Calendar {
        Calendar {
            seconds: bytes[0],
            minutes: bytes[1],
            hours: bytes[2],
            day: bytes[3],
            date: bytes[4],
            month: bytes[5],
            year: bytes[6],
        }
    }

    /// "A valid core: BCD digits; ..."; the day of the week is plain.
    fn has_decimal_digits_everywhere(&self) -> bool {
        has_decimal_digits(self.seconds)
            && has_decimal_digits(self.minutes)
            && has_decimal_digits(self.hours)
            && has_decimal_digits(self.date)
            && has_decimal_digits(self.month)
            && has_decimal_digits(self.year)
    }

    /// "A valid core: BCD digits; seconds and minutes to 59, hours to 23, day 1
    /// to 7, month 1 to 12, year 00 to 99, date 1 to the month's length".
    pub fn is_valid(&self) -> bool {
        if !self.has_decimal_digits_everywhere() {
            return false;
        }
        let month = number_from_bcd(self.month);
        let year = number_from_bcd(self.year);
        let date = number_from_bcd(self.date);
        number_from_bcd(self.seconds) <= 59
            && number_from_bcd(self.minutes) <= 59
            && number_from_bcd(self.hours) <= 23
            && (1..=7).contains(&self.day)
            && (1..=12).contains(&month)
            && date >= 1
            && date <= month_length(month, year)
    }

    /// The next second, and whether year 99 went to 00.
    ///
    /// "A valid core goes to the next second". "An invalid core is left
    /// unchanged and raises nothing (ruling)."
    pub fn next_second(&self) -> (Calendar, bool) {
        if !self.is_valid() {
            return (*self, false);
        }
        let mut next = *self;
        let seconds = number_from_bcd(self.seconds);
        if seconds < 59 {
            next.seconds = bcd_from_number(seconds + 1);
            return (next, false);
        }
        next.seconds = bcd_from_number(0);
        let minutes = number_from_bcd(self.minutes);
        if minutes < 59 {
            next.minutes = bcd_from_number(minutes + 1);
            return (next, false);
        }
        next.minutes = bcd_from_number(0);
        let hours = number_from_bcd(self.hours);
        if hours < 23 {
            next.hours = bcd_from_number(hours + 1);
            return (next, false);
        }
        next.hours = bcd_from_number(0);
        next.next_day()
    }

    /// The same time on the next day, and whether year 99 went to 00.
    fn next_day(&self) -> (Calendar, bool) {
        let mut next = *self;
        // "at midnight the day goes 7 to 1 or one up"
        next.day = if self.day == 7 { 1 } else { self.day + 1 };
        let date = number_from_bcd(self.date);
        let month = number_from_bcd(self.month);
        let year = number_from_bcd(self.year);
        if date < month_length(month, year) {
            next.date = bcd_from_number(date + 1);
            return (next, false);
        }
        next.date = bcd_from_number(1);
        if month < 12 {
            next.month = bcd_from_number(month + 1);
            return (next, false);
        }
        next.month = bcd_from_number(1);
        if year < 99 {
            next.year = bcd_from_number(year + 1);
            return (next, false);
        }
        next.year = bcd_from_number(0);
        // "Year 99 to 00 sets CF."
        (next, true)
    }
}

/// Every date of the century in order, as (date, month, year) numbers.
fn dates_of_the_century() -> Vec<(u8, u8, u8)> {
    let mut dates = Vec::new();
    for year in 0..=99 {
        for month in 1..=12 {
            for date in 1..=month_length(month, year) {
                dates.push((date, month, year));
            }
        }
    }
    dates
}

/// The calendar with BCD bytes for a time and a date given as plain numbers.
pub fn calendar_from_numbers(time: (u8, u8, u8), day: u8, date: (u8, u8, u8)) -> Calendar {
    Calendar {
        hours: bcd_from_number(time.0),
        minutes: bcd_from_number(time.1),
        seconds: bcd_from_number(time.2),
        day,
        date: bcd_from_number(date.0),
        month: bcd_from_number(date.1),
        year: bcd_from_number(date.2),
    }
}

/// Every midnight of the century: the last second of the day, what follows it,
/// and the century flag. There are 36,525; the first day has day of week 1.
///
/// This walks a list of dates and does not use [`Calendar::next_second`], so
/// that the two can be compared.
pub fn midnights() -> impl Iterator<Item = (Calendar, Calendar, bool)> {
    let dates = dates_of_the_century();
    let count = dates.len();
    (0..count).map(move |index| {
        let day = (index % 7) as u8 + 1;
        let day_after = ((index + 1) % 7) as u8 + 1;
        let date_after = dates[(index + 1) % count];
        (
            calendar_from_numbers((23, 59, 59), day, dates[index]),
            calendar_from_numbers((0, 0, 0), day_after, date_after),
            index + 1 == count,
        )
    })
}
