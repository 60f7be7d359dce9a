// SPDX-License-Identifier: Apache-2.0
//! Structured families about the calendar, the alarm and ticks.

use super::random_source::RandomSource;
use super::script::Script;
use super::structured_lists::structured_list;
use super::transactions::{doubtful_calendar, plausible_alarm, plausible_calendar};
use super::List;
use crate::calendar::calendar_from_numbers;

/// Valid and doubtful dates to be loaded into the core, with ticks and reads
/// after.
pub fn dates_loaded(source: &mut RandomSource) -> Vec<List> {
    let mut lists = Vec::new();
    for number in 0..6 {
        let mut script = Script::new();
        script.companion_write(0x09, &[0x80; 5]);
        for _ in 0..8 {
            let calendar = if source.chance(30) {
                plausible_calendar(source)
            } else {
                doubtful_calendar(source)
            };
            script.load_calendar(calendar, source.byte() & 0x1D);
            script.ticks(source.between(1, 3));
            script.companion_read(0x00, 9);
        }
        let name = format!("list {number}");
        lists.push(structured_list(source, "dates-loaded", name, script));
    }
    lists
}

/// All 32 combinations of Match bits near the next second.
pub fn alarms(source: &mut RandomSource) -> Vec<List> {
    let mut lists = Vec::new();
    for part in 0..4_u8 {
        let mut script = Script::new();
        script.companion_write(0x0E, &[source.byte() | 0x80]);
        for combination in 8 * part..8 * part + 8 {
            let calendar = plausible_calendar(source);
            let mut alarm = plausible_alarm(source, calendar);
            for (place, register) in alarm.iter_mut().enumerate() {
                let match_bit = ((combination >> place) & 1) * 0x80;
                *register = (*register & 0x7F) | match_bit;
            }
            script.load_calendar(calendar, source.byte() & 0x08);
            script.companion_write(0x09, &alarm);
            script.ticks(source.between(1, 2));
            if source.chance(80) {
                script.companion_read(0x00, 1);
            }
        }
        let name = format!("Match combinations, part {part}");
        lists.push(structured_list(source, "alarms", name, script));
    }
    lists
}

/// The last seconds before each field rolls over, several ticks each.
pub fn calendar_rollovers(source: &mut RandomSource) -> Vec<List> {
    let mut script = Script::new();
    let year = source.below(100) as u8;
    let day = source.between(1, 7) as u8;
    let cases = [
        ((11, 22, 8), (3, 4, year)),
        ((11, 22, 58), (3, 4, year)),
        ((11, 59, 58), (3, 4, year)),
        ((9, 59, 58), (3, 4, year)),
        ((19, 59, 58), (3, 4, year)),
        ((23, 59, 58), (9, 4, year)),
        ((23, 59, 58), (30, 4, year)),
        ((23, 59, 58), (28, 2, year)),
        ((23, 59, 58), (28, 2, year / 4 * 4)),
        ((23, 59, 58), (29, 2, year / 4 * 4)),
        ((23, 59, 58), (30, 9, year)),
        ((23, 59, 58), (31, 12, year)),
        ((23, 59, 58), (31, 12, 99)),
    ];
    for (time, date) in cases {
        script.load_calendar(calendar_from_numbers(time, day, date), 0x00);
        script.ticks(3).companion_read(0x00, 9);
    }
    let name = format!("year {year:02}");
    vec![structured_list(source, "calendar-rollovers", name, script)]
}

/// The oscillator is stopped and started between ticks.
pub fn oscillator_stopped(source: &mut RandomSource) -> Vec<List> {
    let mut lists = Vec::new();
    for number in 0..2 {
        let mut script = Script::new();
        let calendar = if number == 0 {
            plausible_calendar(source)
        } else {
            calendar_from_numbers((23, 59, 59), 1, (30, 2, source.below(100) as u8))
        };
        script.load_calendar(calendar, 0x00);
        script.companion_write(0x09, &[0x80; 5]);
        for _ in 0..8 {
            script.companion_write(0x01, &[source.byte()]);
            script.ticks(source.between(1, 3));
            if source.chance(30) {
                script.power_lost_with_backup().tick().power_returned();
            }
            script.companion_read(0x00, 4);
        }
        let name = format!("list {number}");
        lists.push(structured_list(source, "oscillator-stopped", name, script));
    }
    lists
}

/// Ticks on backup, with both supplies gone, and after power is back.
pub fn ticks_without_main_power(source: &mut RandomSource) -> Vec<List> {
    let mut lists = Vec::new();
    for number in 0..4 {
        let mut script = Script::new();
        for _ in 0..4 {
            let calendar = if source.chance(75) {
                plausible_calendar(source)
            } else {
                doubtful_calendar(source)
            };
            let alarm = plausible_alarm(source, calendar);
            script.companion_write(0x09, &alarm);
            script.companion_write(0x0E, &[0x80]);
            script.load_calendar(calendar, source.byte() & 0x0D);
            script.power_lost_with_backup().ticks(source.between(1, 4));
            if source.chance(25) {
                script.power_lost_without_backup().ticks(source.below(3));
            }
            script.power_returned().ticks(source.below(2));
            script.companion_read(0x00, 9);
        }
        let name = format!("list {number}");
        lists.push(structured_list(source, "ticks-without-main", name, script));
    }
    lists
}
