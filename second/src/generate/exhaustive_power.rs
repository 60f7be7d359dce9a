// SPDX-License-Identifier: Apache-2.0
//! Exhaustive families about power and the ACS pin.

use super::script::Script;
use super::transactions::lively_settings;
use super::List;
use crate::calendar::calendar_from_numbers;

/// All sequences of five events out of tick, 5, 6 and 7, with the oscillator
/// running, an alarm every second and both addresses away from 0; then power
/// returns and everything is read.
pub fn power_sequences() -> Vec<List> {
    let mut lists = Vec::new();
    for number in 0..1024_u32 {
        let mut script = Script::new();
        lively_settings(&mut script);
        script
            .begin_memory_write(0x0777)
            .begin_companion_write(0x05);
        for place in 0..5 {
            script.event(4 + (number >> (2 * place) & 3) as u8);
        }
        script.clock(false).clock(true);
        script.memory_read_current(1).companion_read_current(1);
        script.tick().power_returned().read_all_registers();
        let name = format!("sequence {number:05o}");
        lists.push(List::from_script("power-sequences", name, 18, script));
    }
    lists
}

/// Every combination of AEN, CAL, AL/SW and AF, seen with power, on backup,
/// without any supply and after power is back.
pub fn pin_functions() -> Vec<List> {
    let mut lists = Vec::new();
    for settings in 0..32_u8 {
        let mut script = Script::new();
        let control = (settings & 3) << 2;
        let select = (settings & 4) << 5;
        let match_bits = (settings & 8) << 4;
        script.companion_write(0x01, &[0x00]);
        script.companion_write(0x0E, &[select | 0x07]);
        script.companion_write(0x00, &[control]);
        script.companion_write(0x09, &[match_bits; 5]);
        script.ticks(2).start().clock(true).stop();
        if settings & 16 != 0 {
            script.companion_read(0x00, 1);
        }
        script.power_lost_with_backup().tick().clock(false);
        script.power_returned().tick();
        script.power_lost_without_backup().tick().clock(true);
        script.power_returned().tick().clock(false);
        let name = format!("settings {settings:05b}");
        lists.push(List::from_script("pin-functions", name, 0, script));
    }
    lists
}

/// Ticks after a calendar that goes in and one that does not, with the
/// oscillator running and stopped, with every W and R, and with main power, on backup, without any
/// supply and after power is back.
pub fn ticks_everywhere() -> Vec<List> {
    let mut lists = Vec::new();
    for settings in 0..16_u8 {
        for lost in [5, 6, 7] {
            let date = if settings & 1 != 0 { 31 } else { 30 };
            let calendar = calendar_from_numbers((23, 59, 59), 7, (date, 4, 99));
            let oscillator = (settings & 2) << 6;
            let mut script = Script::new();
            lively_settings(&mut script);
            script.load_calendar(calendar, 0x08);
            script.companion_write(0x00, &[0x08 | settings >> 2, oscillator]);
            script.ticks(2).event(lost).ticks(2);
            script.power_returned().ticks(2).read_all_registers();
            script
                .companion_write(0x00, &[0x01])
                .companion_read(0x01, 8);
            let name = format!("settings {settings:04b}, event {lost}");
            lists.push(List::from_script("ticks-everywhere", name, 0, script));
        }
    }
    lists
}
