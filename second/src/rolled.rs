// SPDX-License-Identifier: Apache-2.0
//! What a tick says about itself (02, number 4).

use crate::calendar::Calendar;

/// "Let the tick itself say the highest field that changed: nothing, seconds,
/// minutes, hours, date, month or year." The day of the week is not among the
/// cases. "Whoever calls the tick must pass this on or drop it knowingly".
#[must_use = "pass on what rolled over, or drop it knowingly"]
#[derive(Clone, Copy, Debug, PartialEq, Eq, PartialOrd, Ord)]
pub enum Rolled {
    Nothing,
    Seconds,
    Minutes,
    Hours,
    Date,
    Month,
    Year,
}

impl Rolled {
    /// The number of the case, in the order of the request.
    pub fn number(self) -> u8 {
        match self {
            Rolled::Nothing => 0,
            Rolled::Seconds => 1,
            Rolled::Minutes => 2,
            Rolled::Hours => 3,
            Rolled::Date => 4,
            Rolled::Month => 5,
            Rolled::Year => 6,
        }
    }

    /// "the highest field that changed"
    pub fn between(before: &Calendar, after: &Calendar) -> Rolled {
        if before.year != after.year {
            return Rolled::Year;
        }
        if before.month != after.month {
            return Rolled::Month;
        }
        if before.date != after.date {
            return Rolled::Date;
        }
        if before.hours != after.hours {
            return Rolled::Hours;
        }
        if before.minutes != after.minutes {
            return Rolled::Minutes;
        }
        if before.seconds != after.seconds {
            return Rolled::Seconds;
        }
        Rolled::Nothing
    }
}
