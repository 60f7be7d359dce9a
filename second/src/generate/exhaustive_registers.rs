// SPDX-License-Identifier: Apache-2.0
//! Exhaustive families about the registers.

use super::script::Script;
use super::transactions::lively_settings;
use super::List;
use crate::calendar::calendar_from_numbers;

/// Every register with every byte under every combination of W and CAL; each
/// write is followed by reading the register back. The control byte is written
/// anew before each write of 00h.
pub fn register_values() -> Vec<List> {
    let mut lists = Vec::new();
    for address in 0..15_u8 {
        for control in [0x00, 0x02, 0x04, 0x06] {
            let mut script = Script::new();
            script.companion_write(0x00, &[control]);
            for value in 0..=255_u8 {
                if address == 0 {
                    script.companion_write(0x00, &[control]);
                }
                script.begin_companion_write(address);
                script.byte_and_acknowledge(value);
                script.companion_read(address, 1);
            }
            let name = format!("register {address:02X}h, control {control:02X}h");
            lists.push(List::from_script("register-values", name, 0, script));
        }
    }
    lists
}

/// Every byte written to 00h after every combination of AEN, CAL, W and R, with
/// the core and the calendar registers apart where they can be: a tick after
/// the first write, and a write of the seconds. 00h to 02h are read back.
pub fn control_writes() -> Vec<List> {
    let mut lists = Vec::new();
    for before in 0..16_u8 {
        let mut script = Script::new();
        lively_settings(&mut script);
        for value in 0..=255_u8 {
            script.companion_write(0x00, &[before | 0x90]);
            script.tick().companion_write(0x02, &[0x17]);
            script.companion_write(0x00, &[value]);
            script.companion_read(0x00, 3);
        }
        let name = format!("control {before:X}h before");
        lists.push(List::from_script("control-writes", name, 0, script));
    }
    lists
}

/// Every byte written to 00h with LB and POR both set or both cleared, and with
/// each of AF and CF set or not; 00h is read back twice.
pub fn flags_kept() -> Vec<List> {
    let mut lists = Vec::new();
    for supply_flags in [0x00, 0x90] {
        for raised in 0..4_u8 {
            let mut script = Script::new();
            for value in 0..=255_u8 {
                flags_kept_case(&mut script, supply_flags, raised, value);
            }
            let name = format!("supply flags {supply_flags:02X}h, raised {raised:02b}");
            lists.push(List::from_script("flags-kept", name, 0, script));
        }
    }
    lists
}

/// `raised` says which flags the tick raises: 1 is CF (the last second of a
/// century), 2 is AF (no alarm field selected).
fn flags_kept_case(script: &mut Script, supply_flags: u8, raised: u8, value: u8) {
    let year = if raised & 1 != 0 { 99 } else { 98 };
    let calendar = calendar_from_numbers((23, 59, 59), 7, (31, 12, year));
    script.power_lost_without_backup().power_returned();
    script.load_calendar(calendar, supply_flags);
    if raised & 2 != 0 {
        script.companion_write(0x09, &[0x80; 5]);
    }
    script.tick().companion_write(0x00, &[value]);
    script.begin_companion_write(0x00).companion_read_current(1);
    script.companion_read(0x00, 1);
}

/// A tick before every clock of a read of 00h, with AF and CF raised by it or
/// not, and AF already shown or not; then 00h is read twice more.
pub fn flag_races() -> Vec<List> {
    let mut lists = Vec::new();
    for place in 0..=10 {
        for settings in 0..8_u8 {
            let mut script = Script::new();
            let raises_alarm = settings & 1 != 0;
            let raises_century = settings & 2 != 0;
            let shown_before = settings & 4 != 0;
            flag_race_settings(&mut script, raises_alarm, raises_century, shown_before);
            flag_race_read(&mut script, place);
            let name = format!("tick before clock {place}, settings {settings}");
            lists.push(List::from_script("flag-races", name, 0, script));
        }
    }
    lists
}

fn flag_race_settings(script: &mut Script, alarm: bool, century: bool, shown: bool) {
    let year = if century { 99 } else { 98 };
    let calendar = calendar_from_numbers((23, 59, 58), 7, (31, 12, year));
    let match_bits = if alarm { 0x80 } else { 0x00 };
    script.companion_write(0x0E, &[0x80]);
    script.companion_write(0x09, &[0x80; 5]);
    script.load_calendar(calendar, 0x08);
    script.tick();
    if !shown {
        script.companion_read(0x00, 1);
    }
    script.companion_write(0x09, &[match_bits; 5]);
    script.begin_companion_write(0x00);
}

/// The read itself: the place is the number of clocks of the byte before the
/// tick; 10 puts two ticks in.
fn flag_race_read(script: &mut Script, place: usize) {
    script.begin_companion_read();
    for clock in 0..9 {
        if clock == place || place == 10 && (clock == 2 || clock == 5) {
            script.tick();
        }
        script.clock(true);
    }
    if place == 9 {
        script.tick();
    }
    script
        .stop()
        .companion_read(0x00, 1)
        .companion_read(0x00, 1);
}
