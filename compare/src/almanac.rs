// SPDX-License-Identifier: Apache-2.0
//! What the proved program `main_almanac` has to print, by the second program's calendar.

use second::calendar::{midnights, Calendar};
use std::fmt::Write;

/// The calendars of K1 to K7, as calendar/specs/Cases has them: each is printed with the second after it.
const CASES: [(&str, Calendar); 7] = [
    ("K1", last_of(7, 0x31, 0x12, 0x99)),
    ("K2", last_of(4, 0x28, 0x02, 0x08)),
    ("K3", last_of(6, 0x28, 0x02, 0x09)),
    ("K4", last_of(2, 0x29, 0x02, 0x00)),
    ("K5", at(0x12, 0x34, 0x09, 6, 0x15, 0x06, 0x24)),
    ("K6", at(0x19, 0x59, 0x59, 6, 0x15, 0x06, 0x24)),
    ("K7", at(0x12, 0x00, 0x00, 3, 0x31, 0x04, 0x24)),
];

const fn at(
    hours: u8,
    minutes: u8,
    seconds: u8,
    day: u8,
    date: u8,
    month: u8,
    year: u8,
) -> Calendar {
    Calendar {
        seconds,
        minutes,
        hours,
        day,
        date,
        month,
        year,
    }
}

const fn last_of(day: u8, date: u8, month: u8, year: u8) -> Calendar {
    at(0x23, 0x59, 0x59, day, date, month, year)
}

fn text_of(calendar: &Calendar) -> String {
    format!(
        "{:02x}:{:02x}:{:02x} {:02x}/{:02x}/{:02x} day {}",
        calendar.hours,
        calendar.minutes,
        calendar.seconds,
        calendar.date,
        calendar.month,
        calendar.year,
        calendar.day
    )
}

fn with_byte(sum: u32, byte: u8) -> u32 {
    (sum * 31 + u32::from(byte)) % 1_000_003
}

/// The sum with one more midnight: the seven bytes after it, and whether the century ended.
fn with_midnight(sum: u32, after: &Calendar, century: bool) -> u32 {
    [
        after.seconds,
        after.minutes,
        after.hours,
        after.day,
        after.date,
        after.month,
        after.year,
        u8::from(century),
    ]
    .iter()
    .fold(sum, |sum, byte| with_byte(sum, *byte))
}

/// The whole text: the seven cases, then a sum at the end of each year over all midnights so far.
pub fn expected() -> String {
    let mut text = String::new();
    for (name, from) in &CASES {
        let (after, century) = from.next_second();
        let flag = if century { " CF" } else { "" };
        writeln!(
            text,
            "{name} {} -> {}{flag}",
            text_of(from),
            text_of(&after)
        )
        .unwrap();
    }
    let mut sum = 0;
    for (before, after, century) in midnights() {
        sum = with_midnight(sum, &after, century);
        if after.year != before.year {
            writeln!(text, "year {:02x} sum {sum}", before.year).unwrap();
        }
    }
    text
}
