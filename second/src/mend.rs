// SPDX-License-Identifier: Apache-2.0
//! Mending a calendar (02, number 14).

use crate::calendar::{
    bcd_from_number, has_decimal_digits, month_length, number_from_bcd, Calendar,
};
use crate::refusal;
use crate::registers::{FIRST_CALENDAR, LAST_CALENDAR};
use crate::state::State;

/// "It lists each register changed with the old and the new byte".
#[derive(Clone, Copy, Debug, PartialEq, Eq)]
pub struct Change {
    pub register: u8,
    pub old: u8,
    pub new: u8,
}

/// A state that was put right, and the registers changed "in register order".
#[derive(Clone, Debug, PartialEq, Eq)]
pub struct Mended {
    pub state: State,
    pub changes: Vec<Change>,
}

/// "A tool refuses an image by number 2, unchanged and with an empty list, and
/// else puts right registers 02h to 08h and, by itself but by the same rule, the
/// core". "Everything else in the image stays."
pub fn mend(state: State) -> Result<Mended, u8> {
    if !state.is_well_formed() {
        return Err(refusal::WRONG_STATE);
    }
    let shown = mend_calendar(state.shown_calendar());
    let mut mended = state;
    mended.registers[FIRST_CALENDAR..=LAST_CALENDAR].copy_from_slice(&shown.to_bytes());
    mended.core = mend_calendar(state.core);
    Ok(Mended {
        state: mended,
        changes: changes_between(&state, &mended),
    })
}

/// The registers whose bytes differ, "in register order".
fn changes_between(before: &State, after: &State) -> Vec<Change> {
    let mut changes = Vec::new();
    for register in FIRST_CALENDAR..=LAST_CALENDAR {
        let (old, new) = (before.registers[register], after.registers[register]);
        if old != new {
            let register = register as u8;
            changes.push(Change { register, old, new });
        }
    }
    changes
}

/// "each field that is out of range on its own goes to its lowest legal figure,
/// then a date beyond its month's end goes to the last day"
pub fn mend_calendar(calendar: Calendar) -> Calendar {
    date_within_its_month(fields_in_range(calendar))
}

/// "each field that is out of range on its own goes to its lowest legal figure";
/// on its own a date may be 1 to 31.
fn fields_in_range(calendar: Calendar) -> Calendar {
    Calendar {
        seconds: bcd_in_range(calendar.seconds, 0, 59),
        minutes: bcd_in_range(calendar.minutes, 0, 59),
        hours: bcd_in_range(calendar.hours, 0, 23),
        day: plain_in_range(calendar.day, 1, 7),
        date: bcd_in_range(calendar.date, 1, 31),
        month: bcd_in_range(calendar.month, 1, 12),
        year: bcd_in_range(calendar.year, 0, 99),
    }
}

/// A BCD byte, or the lowest figure if it is none or out of range.
fn bcd_in_range(byte: u8, lowest: u8, highest: u8) -> u8 {
    let legal = has_decimal_digits(byte) && (lowest..=highest).contains(&number_from_bcd(byte));
    if legal {
        byte
    } else {
        bcd_from_number(lowest)
    }
}

/// A plain byte, or the lowest figure if it is out of range.
fn plain_in_range(byte: u8, lowest: u8, highest: u8) -> u8 {
    if (lowest..=highest).contains(&byte) {
        byte
    } else {
        lowest
    }
}

/// "then a date beyond its month's end goes to the last day"; all fields are
/// already in range on their own.
fn date_within_its_month(calendar: Calendar) -> Calendar {
    let last = month_length(
        number_from_bcd(calendar.month),
        number_from_bcd(calendar.year),
    );
    let date = number_from_bcd(calendar.date).min(last);
    Calendar {
        date: bcd_from_number(date),
        ..calendar
    }
}
