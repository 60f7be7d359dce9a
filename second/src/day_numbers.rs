// SPDX-License-Identifier: Apache-2.0
//! A catch-up program that stands by itself: it counts days by numbers and uses
//! no other part of this program (02, number 7: "a plain Rust program of your
//! own").
//!
//! The first of January of year 00 is day 0. Four years, the first of them with
//! a 29th of February, have 1,461 days; a century has 36,525.

const SECONDS_A_MINUTE: u32 = 60;
const SECONDS_AN_HOUR: u32 = 3_600;
const SECONDS_A_DAY: u32 = 86_400;
const DAYS_A_CENTURY: u32 = 36_525;
const DAYS_IN_FOUR_YEARS: u32 = 1_461;

/// Days of a year before each month, and all of them, without a 29th of
/// February.
const DAYS_BEFORE: [u32; 13] = [0, 31, 59, 90, 120, 151, 181, 212, 243, 273, 304, 334, 365];

/// The same with a 29th of February.
const DAYS_BEFORE_IN_LEAP_YEAR: [u32; 13] =
    [0, 31, 60, 91, 121, 152, 182, 213, 244, 274, 305, 335, 366];

// Bits of 00h and 01h that matter here, and Match.
const ALARM_FLAG: u8 = 0x40;
const CENTURY_FLAG: u8 = 0x20;
const WRITE_OR_READ: u8 = 0x03;
const OSCILLATOR_HALTED: u8 = 0x80;
const MATCH: u8 = 0x80;

/// So many ticks, at most 31,622,400, on the registers 00h to 0Eh and the seven
/// bytes of the core. `supplied`: "power or backup is present".
pub fn catch_up(registers: &mut [u8; 15], core: &mut [u8; 7], supplied: bool, ticks: u32) {
    // "A tick that does not count changes nothing."
    if ticks == 0 || !supplied || registers[0x01] & OSCILLATOR_HALTED != 0 {
        return;
    }
    if let Some(start) = Moment::from_core(core) {
        advance(registers, core, start, ticks);
    }
    // "02h to 08h take the core if R and W are 0"
    if registers[0x00] & WRITE_OR_READ == 0 {
        registers[0x02..=0x08].copy_from_slice(core);
    }
}

/// The ticks of a valid core: the core, CF and AF.
fn advance(registers: &mut [u8; 15], core: &mut [u8; 7], start: Moment, ticks: u32) {
    let end = start.after(ticks);
    if registers[0x00] & ALARM_FLAG == 0 && rings(registers, &start, &end) {
        registers[0x00] |= ALARM_FLAG;
    }
    // "Year 99 to 00 sets CF."
    if end.day >= DAYS_A_CENTURY {
        registers[0x00] |= CENTURY_FLAG;
    }
    *core = end.to_core();
}

// ----- dates as numbers -----

/// A date with its day number; beyond the century the day number goes on while
/// the year is the one of the next century, 00 to 99.
#[derive(Clone, Copy)]
struct Moment {
    day: u32,
    date: Date,
    /// Day of the week, 0 to 6.
    weekday: u32,
    /// Second of the day.
    second: u32,
}

/// Year 0 to 99, month 0 to 11, date 1 to 31.
#[derive(Clone, Copy)]
struct Date {
    year: u32,
    month: u32,
    date: u32,
}

impl Moment {
    /// The moment that a valid core shows.
    fn from_core(core: &[u8; 7]) -> Option<Moment> {
        let second = figure(core[0], 0, 59)?
            + figure(core[1], 0, 59)? * SECONDS_A_MINUTE
            + figure(core[2], 0, 23)? * SECONDS_AN_HOUR;
        if core[3] < 1 || core[3] > 7 {
            return None;
        }
        let date = Date {
            year: figure(core[6], 0, 99)?,
            month: figure(core[5], 1, 12)? - 1,
            date: figure(core[4], 1, 31)?,
        };
        if date.date > month_length(date.year, date.month) {
            return None;
        }
        Some(Moment {
            day: month_start(date.year, date.month) + date.date - 1,
            date,
            weekday: u32::from(core[3]) - 1,
            second,
        })
    }

    /// The moment so many seconds later.
    fn after(&self, ticks: u32) -> Moment {
        let seconds = self.second + ticks;
        let days = seconds / SECONDS_A_DAY;
        let day = self.day + days;
        Moment {
            day,
            date: if days == 0 {
                self.date
            } else {
                Date::from_day(day)
            },
            weekday: (self.weekday + days) % 7,
            second: seconds % SECONDS_A_DAY,
        }
    }

    /// The seven bytes.
    fn to_core(self) -> [u8; 7] {
        [
            bcd(self.second % SECONDS_A_MINUTE),
            bcd(self.second / SECONDS_A_MINUTE % 60),
            bcd(self.second / SECONDS_AN_HOUR),
            self.weekday as u8 + 1,
            bcd(self.date.date),
            bcd(self.date.month + 1),
            bcd(self.date.year),
        ]
    }
}

impl Date {
    /// The date of a day, of this century or of the next.
    fn from_day(day: u32) -> Date {
        let day = day % DAYS_A_CENTURY;
        let four_years = day / DAYS_IN_FOUR_YEARS * 4;
        let day = day % DAYS_IN_FOUR_YEARS;
        if day < 366 {
            Date::from_day_of_year(four_years, day, &DAYS_BEFORE_IN_LEAP_YEAR)
        } else {
            let day = day - 366;
            Date::from_day_of_year(four_years + 1 + day / 365, day % 365, &DAYS_BEFORE)
        }
    }

    fn from_day_of_year(year: u32, day: u32, days_before: &[u32; 13]) -> Date {
        // the month is this or the next one
        let guess = (day / 32) as usize;
        let month = guess + usize::from(day >= days_before[guess + 1]);
        Date {
            year,
            month: month as u32,
            date: day - days_before[month] + 1,
        }
    }
}

fn days_before(year: u32) -> &'static [u32; 13] {
    if year.is_multiple_of(4) {
        &DAYS_BEFORE_IN_LEAP_YEAR
    } else {
        &DAYS_BEFORE
    }
}

fn month_length(year: u32, month: u32) -> u32 {
    let days_before = days_before(year);
    days_before[month as usize + 1] - days_before[month as usize]
}

/// The day number of the first of a month; the year may be of the next century.
fn month_start(year: u32, month: u32) -> u32 {
    year * 365 + year.div_ceil(4) + days_before(year)[month as usize]
}

/// The number of a BCD byte within limits.
fn figure(byte: u8, lowest: u32, highest: u32) -> Option<u32> {
    let (tens, ones) = (u32::from(byte >> 4), u32::from(byte & 0x0F));
    let number = tens * 10 + ones;
    let legal = tens <= 9 && ones <= 9 && number >= lowest && number <= highest;
    legal.then_some(number)
}

fn bcd(number: u32) -> u8 {
    (number + number / 10 * 6) as u8
}

// ----- the alarm -----

/// An alarm field: any figure, or one.
#[derive(Clone, Copy)]
enum Wanted {
    Any,
    One(u32),
}

impl Wanted {
    /// "each alarm field with Match 0 equals the core's field"; none if no valid
    /// core has the field.
    fn from_register(register: u8, lowest: u32, highest: u32) -> Option<Wanted> {
        if register & MATCH != 0 {
            Some(Wanted::Any)
        } else {
            figure(register, lowest, highest).map(Wanted::One)
        }
    }

    fn admits(self, number: u32) -> bool {
        match self {
            Wanted::Any => true,
            Wanted::One(one) => one == number,
        }
    }

    fn one_or(self, otherwise: u32) -> u32 {
        match self {
            Wanted::Any => otherwise,
            Wanted::One(one) => one,
        }
    }

    /// The least figure admitted from a figure on up to the highest one.
    fn at_or_after(self, from: u32, highest: u32) -> Option<u32> {
        let figure = self.one_or(from);
        (from <= figure && figure <= highest).then_some(figure)
    }
}

/// The alarm's fields; the month is 0 to 11.
struct Alarm {
    seconds: Wanted,
    minutes: Wanted,
    hours: Wanted,
    date: Wanted,
    month: Wanted,
}

/// Whether the alarm agrees with some moment after `start` and up to `end`.
fn rings(registers: &[u8; 15], start: &Moment, end: &Moment) -> bool {
    match Alarm::from_registers(registers) {
        Some(alarm) => alarm.rings_between(start, end),
        None => false,
    }
}

impl Alarm {
    /// None if the alarm agrees with no valid core.
    fn from_registers(registers: &[u8; 15]) -> Option<Alarm> {
        let month = match Wanted::from_register(registers[0x0D], 1, 12)? {
            Wanted::Any => Wanted::Any,
            Wanted::One(month) => Wanted::One(month - 1),
        };
        Some(Alarm {
            seconds: Wanted::from_register(registers[0x09], 0, 59)?,
            minutes: Wanted::from_register(registers[0x0A], 0, 59)?,
            hours: Wanted::from_register(registers[0x0B], 0, 23)?,
            date: Wanted::from_register(registers[0x0C], 1, 31)?,
            month,
        })
    }

    fn rings_between(&self, start: &Moment, end: &Moment) -> bool {
        if start.day == end.day {
            return self.admits_date(&start.date)
                && self
                    .time_at_or_after(start.second + 1)
                    .is_some_and(|time| time <= end.second);
        }
        // the rest of the first day, the beginning of the last, the days between
        (self.last_time() > start.second && self.admits_date(&start.date))
            || (self.first_time() <= end.second && self.admits_date(&end.date))
            || self.admits_some_day(start.day + 1, end.day)
    }

    fn admits_date(&self, date: &Date) -> bool {
        self.date.admits(date.date) && self.month.admits(date.month)
    }

    /// The first second of a day that agrees.
    fn first_time(&self) -> u32 {
        self.hours.one_or(0) * SECONDS_AN_HOUR
            + self.minutes.one_or(0) * SECONDS_A_MINUTE
            + self.seconds.one_or(0)
    }

    /// The last second of a day that agrees.
    fn last_time(&self) -> u32 {
        self.hours.one_or(23) * SECONDS_AN_HOUR
            + self.minutes.one_or(59) * SECONDS_A_MINUTE
            + self.seconds.one_or(59)
    }

    /// The first second of a day, from one on, that agrees.
    fn time_at_or_after(&self, from: u32) -> Option<u32> {
        let hour = from / SECONDS_AN_HOUR;
        if self.hours.admits(hour) {
            if let Some(time) = self.time_in_hour(from % SECONDS_AN_HOUR) {
                return Some(hour * SECONDS_AN_HOUR + time);
            }
        }
        let later = self.hours.at_or_after(hour + 1, 23)?;
        let in_hour = self.first_time() % SECONDS_AN_HOUR;
        Some(later * SECONDS_AN_HOUR + in_hour)
    }

    /// The first second of an hour, from one on, that agrees.
    fn time_in_hour(&self, from: u32) -> Option<u32> {
        let minute = from / SECONDS_A_MINUTE;
        if self.minutes.admits(minute) {
            if let Some(second) = self.seconds.at_or_after(from % SECONDS_A_MINUTE, 59) {
                return Some(minute * SECONDS_A_MINUTE + second);
            }
        }
        let later = self.minutes.at_or_after(minute + 1, 59)?;
        Some(later * SECONDS_A_MINUTE + self.seconds.one_or(0))
    }

    /// Whether the date and month agree on some day from `from` up to but
    /// without `end`.
    fn admits_some_day(&self, from: u32, end: u32) -> bool {
        if from >= end {
            return false;
        }
        if let (Wanted::Any, Wanted::Any) = (self.date, self.month) {
            return true;
        }
        let first = Date::from_day(from);
        let mut year = first.year + from / DAYS_A_CENTURY * 100;
        let mut month = first.month;
        while month_start(year, month) < end {
            if self.month.admits(month) && self.admits_day_of_month(year, month, from, end) {
                return true;
            }
            month += 1;
            if month == 12 {
                (year, month) = (year + 1, 0);
            }
        }
        false
    }

    /// The same of the days in one month, of which some are in question.
    fn admits_day_of_month(&self, year: u32, month: u32, from: u32, end: u32) -> bool {
        match self.date {
            Wanted::Any => true,
            Wanted::One(date) => {
                let day = month_start(year, month) + date - 1;
                date <= month_length(year, month) && from <= day && day < end
            }
        }
    }
}
