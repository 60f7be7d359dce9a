// SPDX-License-Identifier: Apache-2.0
//! Exhaustive families about the calendar and the alarm.

use super::script::Script;
use super::List;
use crate::calendar::{calendar_from_numbers, month_length, Calendar};

/// Loads a calendar, ticks once and reads 00h to 08h back.
fn load_tick_read(script: &mut Script, calendar: Calendar) {
    script.load_calendar(calendar, 0x00).tick();
    script.companion_read(0x00, 9);
}

/// The last second of the last day and of the day before it, for each of the
/// 1,200 months of the century.
pub fn month_ends() -> Vec<List> {
    let mut lists = Vec::new();
    for year in 0..100_u8 {
        let mut script = Script::new();
        for month in 1..=12 {
            let last = month_length(month, year);
            for date in [last - 1, last] {
                let day = (year + month + date) % 7 + 1;
                let calendar = calendar_from_numbers((23, 59, 59), day, (date, month, year));
                load_tick_read(&mut script, calendar);
            }
        }
        let name = format!("months of year {year:02}");
        lists.push(List::from_script("month-ends", name, 0, script));
    }
    lists
}

/// Every second, the last second of every minute, of every hour, of every day
/// of the week, of every date, of every month and of every year.
pub fn rollovers() -> Vec<List> {
    let ordinary = (15, 6, 21);
    let mut calendars = Vec::new();
    for number in 0..60 {
        calendars.push(calendar_from_numbers((12, 34, number), 3, ordinary));
        calendars.push(calendar_from_numbers((12, number, 59), 3, ordinary));
    }
    for hour in 0..24 {
        calendars.push(calendar_from_numbers((hour, 59, 59), 3, ordinary));
    }
    for day in 1..=7 {
        calendars.push(calendar_from_numbers((23, 59, 59), day, ordinary));
    }
    for date in 1..=31 {
        calendars.push(calendar_from_numbers((23, 59, 59), 3, (date, 7, 21)));
    }
    for year in 0..100 {
        calendars.push(calendar_from_numbers((23, 59, 59), 3, (31, 12, year)));
    }
    let mut lists = Vec::new();
    for (number, part) in calendars.chunks(20).enumerate() {
        let mut script = Script::new();
        for calendar in part {
            load_tick_read(&mut script, *calendar);
        }
        let name = format!("part {number}");
        lists.push(List::from_script("rollovers", name, 0, script));
    }
    lists
}

/// All 86,400 seconds of one day; the time is read at the end of each minute.
pub fn whole_day() -> Vec<List> {
    let mut script = Script::new();
    let midnight = calendar_from_numbers((0, 0, 0), 7, (28, 2, 0));
    script.load_calendar(midnight, 0x00);
    for _ in 0..24 * 60 {
        script.ticks(60).companion_read(0x02, 3);
    }
    let name = "28/02/00".to_string();
    vec![List::from_script("whole-day", name, 0, script)]
}

/// All 256 values of each of the seven calendar bytes; the others are valid.
pub fn field_values() -> Vec<List> {
    let mut lists = Vec::new();
    let base = calendar_from_numbers((23, 59, 59), 7, (28, 2, 96)).to_bytes();
    for field in 0..7 {
        for part in 0..4_usize {
            let mut script = Script::new();
            for value in 64 * part..64 * part + 64 {
                let mut bytes = base;
                bytes[field] = value as u8;
                load_tick_read(&mut script, Calendar::from_bytes(bytes));
            }
            let name = format!("register {:02X}h, part {part}", field + 2);
            lists.push(List::from_script("calendar-field-values", name, 0, script));
        }
    }
    lists
}

/// All 256 values of each alarm register; the other four have Match 1. A tick
/// and a read of 00h follow each.
pub fn alarm_field_values() -> Vec<List> {
    let mut lists = Vec::new();
    for field in 0..5_u8 {
        let mut script = Script::new();
        let calendar = calendar_from_numbers((12, 9, 59), 3, (15, 6, 21));
        script.load_calendar(calendar, 0x08);
        script.companion_write(0x09, &[0x80, 0x80, 0x80, 0x80, 0x80, 0x80]);
        for value in 0..=255_u8 {
            script.companion_write(0x09 + field, &[value]).tick();
            script.companion_read(0x00, 1);
        }
        let name = format!("register {:02X}h", field + 9);
        lists.push(List::from_script("alarm-field-values", name, 0, script));
    }
    lists
}

/// Every combination of the five Match bits with every combination of fields
/// that agree or differ.
pub fn alarm_match_combinations() -> Vec<List> {
    let mut lists = Vec::new();
    for not_selected in 0..32_u8 {
        let mut script = Script::new();
        let mut now = calendar_from_numbers((23, 59, 45), 3, (30, 11, 21));
        script.load_calendar(now, 0x08);
        script.companion_write(0x0E, &[0x80]);
        for differing in 0..32_u8 {
            now = now.next_second().0;
            let alarm = alarm_near(now, not_selected, differing);
            script.companion_write(0x09, &alarm).tick();
            script.companion_read(0x00, 1);
        }
        let name = format!("Match bits {not_selected:05b}");
        lists.push(List::from_script("alarm-matches", name, 0, script));
    }
    lists
}

/// Alarm registers for a calendar, with some Match bits 1 and some fields off
/// by one bit.
fn alarm_near(calendar: Calendar, not_selected: u8, differing: u8) -> [u8; 5] {
    let mut alarm = [
        calendar.seconds,
        calendar.minutes,
        calendar.hours,
        calendar.date,
        calendar.month,
    ];
    for (place, register) in alarm.iter_mut().enumerate() {
        *register ^= differing >> place & 1;
        *register |= (not_selected >> place & 1) * 0x80;
    }
    alarm
}
