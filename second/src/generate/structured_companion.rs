// SPDX-License-Identifier: Apache-2.0
//! Structured families about the registers, the flags and the pin.

use super::random_source::RandomSource;
use super::script::Script;
use super::structured_lists::{plausible_settings, structured_list};
use super::transactions::plausible_calendar;
use super::List;
use crate::calendar::calendar_from_numbers;

/// Sequences of writes of 00h with any W, R and CAL, and writes of 01h to 08h
/// and ticks between them; the registers are read now and then.
pub fn control_sequences(source: &mut RandomSource) -> Vec<List> {
    let mut lists = Vec::new();
    for number in 0..6 {
        let mut script = Script::new();
        script.companion_write(0x01, &[0x00]);
        for _ in 0..12 {
            let control = source.pick(&[0x00, 0x01, 0x02, 0x03]);
            script.companion_write(0x00, &[control | source.byte() & 0xFC]);
            script.ticks(source.below(3));
            if source.chance(60) {
                let calendar = plausible_calendar(source).to_bytes();
                let place = source.below(7);
                let count = source.between(1, 7 - place);
                script.companion_write(0x02 + place as u8, &calendar[place..place + count]);
            }
            if source.chance(40) {
                script.companion_write(0x01, &[source.byte() & 0x7F]);
            }
            if source.chance(50) {
                script.companion_read(0x00, 9);
            }
        }
        script.read_all_registers();
        let name = format!("list {number}");
        lists.push(structured_list(source, "control-sequences", name, script));
    }
    lists
}

/// A tick between two clocks of a read of 00h: the flag is raised there, or was
/// shown already and is raised again.
pub fn flag_races(source: &mut RandomSource) -> Vec<List> {
    let mut lists = Vec::new();
    for place in 0..=9 {
        for shown in [false, true] {
            let mut script = Script::new();
            script.companion_write(0x0E, &[0x80 | source.byte()]);
            flag_race(source, &mut script, place, shown);
            let name = format!("tick before clock {place}, shown before {shown}");
            lists.push(structured_list(
                source,
                "flag-races-structured",
                name,
                script,
            ));
        }
    }
    lists
}

/// Three such reads: one with an ordinary alarm, one with the century, one with
/// the alarm shut off before.
fn flag_race(source: &mut RandomSource, script: &mut Script, place: usize, shown: bool) {
    for kind in 0..3 {
        let calendar = match kind {
            0 => plausible_calendar(source),
            _ => calendar_from_numbers((23, 59, 58), 7, (31, 12, 99)),
        };
        script.companion_write(0x09, &[0x80; 5]);
        script.load_calendar(calendar, 0x08).tick();
        if !shown {
            script.companion_read(0x00, 1);
        }
        if kind == 2 {
            script.companion_write(0x09, &[0x61]);
        }
        script.begin_companion_write(0x00).begin_companion_read();
        for clock in 0..9 {
            if clock == place {
                script.ticks(source.between(1, 2));
            }
            script.clock(true);
        }
        script.stop().companion_write(0x00, &[source.byte() & 0xFC]);
        script.companion_read(0x00, 1);
    }
}

/// Reads and writes that go on from 0Eh to 00h.
pub fn companion_wraps(source: &mut RandomSource) -> Vec<List> {
    let mut lists = Vec::new();
    for number in 0..3 {
        let mut script = Script::new();
        plausible_settings(source, &mut script);
        for _ in 0..4 {
            let address = source.between(0x0A, 0x0E) as u8;
            script.companion_read(address, source.between(5, 18)).tick();
            let count = source.between(5, 18);
            let mut data = source.bytes(count);
            if let Some(oscillator) = data.get_mut(usize::from(16 - address)) {
                *oscillator &= 0x7F;
            }
            script.companion_write(address, &data);
            script.companion_read_current(2);
        }
        let name = format!("list {number}");
        lists.push(structured_list(source, "companion-wraps", name, script));
    }
    lists
}

/// AEN, CAL and AL/SW in every combination and any order, with alarms coming
/// and being read.
pub fn pin_combinations(source: &mut RandomSource) -> Vec<List> {
    let mut lists = Vec::new();
    for number in 0..3 {
        let mut script = Script::new();
        script.companion_write(0x01, &[0x00]);
        script.companion_write(0x09, &[0x80; 5]);
        let first = source.below(8) as u8;
        for step in 0..16_u8 {
            let settings = (first + 3 * step) % 8;
            script.companion_write(0x0E, &[(settings & 4) << 5 | source.byte() & 0x67]);
            script.companion_write(0x00, &[(settings & 3) << 2]);
            script.ticks(source.below(2));
            if source.chance(40) {
                script.companion_read(0x00, 1);
            }
            if source.chance(20) {
                script.power_lost_with_backup().tick().power_returned();
            }
        }
        let name = format!("list {number}");
        lists.push(structured_list(source, "pin-combinations", name, script));
    }
    lists
}

/// Both supplies are lost, at once or one after the other, and power returns.
pub fn both_supplies_lost(source: &mut RandomSource) -> Vec<List> {
    let mut lists = Vec::new();
    for number in 0..4 {
        let mut script = Script::new();
        for _ in 0..3 {
            plausible_settings(source, &mut script);
            if source.chance(50) {
                script.power_lost_with_backup().ticks(source.below(4));
            }
            script.power_lost_without_backup();
            for _ in 0..source.below(5) {
                script.event(source.below(7) as u8);
            }
            script.power_returned().ticks(source.below(2));
            script.read_all_registers().memory_read_current(1);
        }
        let name = format!("list {number}");
        lists.push(structured_list(source, "both-supplies-lost", name, script));
    }
    lists
}
