// SPDX-License-Identifier: Apache-2.0
//! Exhaustive families about writes of 00h that would let W fall while 02h to
//! 08h hold something; what follows shows the registers, the companion address
//! and the core.

use super::sample_calendars::{invalid_calendars, leap_day, valid_calendars};
use super::script::Script;
use super::List;
use crate::calendar::{calendar_from_numbers, Calendar};

fn all_samples() -> Vec<Calendar> {
    let mut calendars = invalid_calendars();
    calendars.extend(valid_calendars());
    calendars
}

/// The seven bytes in hexadecimal, for names.
fn text(calendar: &Calendar) -> String {
    let bytes = calendar.to_bytes();
    bytes.iter().map(|byte| format!("{byte:02X}")).collect()
}

/// Reads all fifteen registers without setting an address; if it is 01h, 00h
/// comes last.
fn read_on(script: &mut Script) {
    script.companion_read_current(15);
}

/// R rises, so that 02h to 08h show the core; W is 1 at the end.
fn show_core(script: &mut Script) {
    script.companion_write(0x00, &[0x02]);
    script.companion_write(0x00, &[0x03]);
    script.companion_read(0x02, 7);
}

/// All 256 bytes written to each of 02h to 08h under W = 1, the others being
/// those of 29/02/96; then W is to fall.
pub fn every_byte() -> Vec<List> {
    let mut lists = Vec::new();
    for place in 0..7_usize {
        for part in 0..4_usize {
            let mut script = Script::new();
            for value in 64 * part..64 * part + 64 {
                let mut bytes = leap_day().to_bytes();
                bytes[place] = value as u8;
                script.companion_write(0x00, &[0x02]);
                script.companion_write(0x02, &bytes);
                script.companion_write(0x00, &[0x00]);
                read_on(&mut script);
                script.companion_write(0x00, &[0x03]);
                script.companion_read(0x02, 7);
            }
            let name = format!("register {:02X}h, part {part}", place + 2);
            lists.push(List::from_script("bad-date-bytes", name, 0, script));
        }
    }
    lists
}

/// W = 1 and R as given, LB, POR and AF set, the oscillator running, the core
/// two seconds on, and the calendar in 02h to 08h.
fn prepared(calendar: &Calendar, read_bit: u8) -> Script {
    let mut script = Script::new();
    script.companion_write(0x01, &[0x00]);
    script.companion_write(0x09, &[0x80; 5]).tick();
    script.companion_write(0x00, &[0x92 | read_bit]);
    script.companion_write(0x02, &calendar.to_bytes()).tick();
    script
}

/// Every sample with R 0 or 1 before, and every AEN, CAL, W and R written.
pub fn every_control() -> Vec<List> {
    let mut lists = Vec::new();
    for calendar in all_samples() {
        for read_bit in 0..2_u8 {
            for written in 0..16_u8 {
                let mut script = prepared(&calendar, read_bit);
                script.companion_write(0x00, &[written]);
                read_on(&mut script);
                script.tick();
                show_core(&mut script);
                let name = format!("{}, R {read_bit}, {written:X}h written", text(&calendar));
                lists.push(List::from_script("bad-date-controls", name, 0, script));
            }
        }
    }
    lists
}

/// One transaction that begins at some register and rolls over from 0Eh to 00h,
/// where W is to fall or not; two more bytes follow.
pub fn rolled_over() -> Vec<List> {
    let mut lists = Vec::new();
    for calendar in all_samples() {
        for first in [0x02, 0x09, 0x0D, 0x0E, 0x00] {
            for written in 0..4_u8 {
                let mut script = prepared(&calendar, 0);
                let mut bytes = vec![0x00; 2];
                bytes.extend(calendar.to_bytes());
                bytes.extend([0x81, 0x82, 0x83, 0x84, 0x85, 0x86]);
                let mut data = bytes[first..].to_vec();
                if first == 0 {
                    data.clear();
                }
                data.extend([written, 0x00, 0x11]);
                script.companion_write(first as u8, &data);
                read_on(&mut script);
                show_core(&mut script);
                let name = format!("{}, from {first:02X}h, {written}", text(&calendar));
                lists.push(List::from_script("bad-date-rollovers", name, 0, script));
            }
        }
    }
    lists
}

/// The byte of 00h that would let W fall, cut after each of its clocks by
/// Start, Stop, event 5 and event 6, and with either ninth bit.
pub fn cuts() -> Vec<List> {
    let mut lists = Vec::new();
    let last_of_april = calendar_from_numbers((12, 34, 56), 4, (31, 4, 21));
    for calendar in [last_of_april, leap_day()] {
        for clocks in 0..=10_u8 {
            for cut in [0, 1, 5, 6] {
                let mut script = prepared(&calendar, 0);
                script.begin_companion_write(0x00);
                script.first_bits(0x0C, clocks.min(8));
                if clocks > 8 {
                    script.acknowledge_clock(clocks == 9);
                }
                script.event(cut).power_returned();
                read_on(&mut script);
                show_core(&mut script);
                let name = format!("{}, {clocks} clocks, event {cut}", text(&calendar));
                lists.push(List::from_script("bad-date-cuts", name, 0, script));
            }
        }
    }
    lists
}
