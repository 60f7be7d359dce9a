// SPDX-License-Identifier: Apache-2.0
//! What one event tells: its answer, and the field of the calendar that it changed.

use std::fmt;

use crate::answer::Answer;

/// The highest field of the calendar that an event changed; the day of the week is none of them.
///
/// Fields are ordered, so the highest of several events is their maximum.
///
/// ```
/// use fm3130::Rolled;
///
/// assert!(Rolled::Year > Rolled::Seconds);
/// assert_eq!(Rolled::Hours.number(), 3);
/// assert_eq!(Rolled::Hours.to_string(), "an hour passed");
/// ```
#[derive(Clone, Copy, Debug, PartialEq, Eq, PartialOrd, Ord, Hash)]
pub enum Rolled {
    /// No tick, one that does not count, or an invalid calendar.
    Nothing,
    /// Seconds alone.
    Seconds,
    /// Minutes, and the seconds below them.
    Minutes,
    /// Hours, and all below them.
    Hours,
    /// The date, and all below it.
    Date,
    /// The month, and all below it.
    Month,
    /// The year, and all below it.
    Year,
}

impl Rolled {
    /// All fields, at their numbers.
    const ALL: [Rolled; 7] = [
        Rolled::Nothing,
        Rolled::Seconds,
        Rolled::Minutes,
        Rolled::Hours,
        Rolled::Date,
        Rolled::Month,
        Rolled::Year,
    ];

    /// The field of a number, 0 to 6; the archive gives no other.
    pub(crate) fn of_number(number: u8) -> Rolled {
        Rolled::ALL
            .get(usize::from(number))
            .copied()
            .unwrap_or(Rolled::Nothing)
    }

    /// The number of the field, 0 to 6.
    pub fn number(self) -> u8 {
        self as u8
    }
}

impl fmt::Display for Rolled {
    fn fmt(&self, formatter: &mut fmt::Formatter<'_>) -> fmt::Result {
        formatter.write_str(match self {
            Rolled::Nothing => "nothing passed",
            Rolled::Seconds => "a second passed",
            Rolled::Minutes => "a minute passed",
            Rolled::Hours => "an hour passed",
            Rolled::Date => "a date passed",
            Rolled::Month => "a month passed",
            Rolled::Year => "a year passed",
        })
    }
}

/// What one event tells.
#[derive(Clone, Copy, Debug, PartialEq, Eq, Hash)]
pub struct Told {
    /// The answer byte.
    pub answer: Answer,
    /// The highest field of the calendar that the event changed.
    pub rolled: Rolled,
}
