// SPDX-License-Identifier: Apache-2.0
//! Exhaustive families about the counters: their tops, edges at every clock,
//! frozen reads.

use super::fixed::{read_registers, settings, transactions, ABOUT_TO_CARRY, CC, RC};
use super::{FamilyList, Lists};
use crate::family::Size;
use crate::generate::script::Script;

/// Counts at and around the places where a byte carries.
const COUNTS: [u16; 9] = [
    0x0000, 0x00FE, 0x00FF, 0x0100, 0x7FFF, 0xFEFF, 0xFF00, 0xFFFE, 0xFFFF,
];

/// The four counter bytes, "low byte first".
fn counter_bytes(first: u16, second: u16) -> [u8; 4] {
    let (first, second) = (first.to_le_bytes(), second.to_le_bytes());
    [first[0], first[1], second[0], second[1]]
}

/// Every pair of such counts with CC off and on: edges on either input and on
/// both, the counters read after each.
pub fn counter_tops(size: Size) -> Vec<FamilyList> {
    let mut lists = Lists::new(size, "family-counter-tops", 0);
    for first in COUNTS {
        for second in COUNTS {
            for control in [0x00, CC, 0x03, CC | 0x03] {
                let mut script = Script::new();
                settings(&mut script, control, counter_bytes(first, second));
                for edges in [&[8][..], &[9], &[8, 8], &[9, 9], &[9, 8], &[8, 9]] {
                    script.events(edges).companion_read(0x0D, 4);
                }
                let name = format!("{first:04X}h {second:04X}h, 0Ch {control:X}h");
                lists.add(name, script);
            }
        }
    }
    lists.lists
}

/// Over 65,536 edges from 0: on CNT1, on CNT2, on both in turn; CC off and on.
/// The counters are read now and then.
pub fn long_counts(size: Size) -> Vec<FamilyList> {
    let mut lists = Lists::new(size, "family-long-counts", 0);
    for control in [0x00, CC] {
        for edges in [&[8][..], &[9], &[8, 9]] {
            let mut script = Script::new();
            script.companion_write(0x0C, &[control]);
            for count in 0..65_540_u32 {
                script.events(edges);
                if count % 4096 == 4095 || count > 65_530 {
                    script.companion_read(0x0D, 4);
                }
            }
            let name = format!("0Ch {control:X}h, edges {edges:?}");
            lists.add(name, script);
        }
    }
    lists.lists
}

/// Every kind of transaction with an edge after each of its events, and with one
/// after every one of them; CC off and on, frozen or not.
pub fn edges_everywhere(size: Size) -> Vec<FamilyList> {
    let mut lists = Lists::new(size, "family-edges-everywhere", 41);
    for (kind, transaction) in transactions(size) {
        for control in [0x00, CC, RC, RC | CC] {
            for edge in [8, 9] {
                let events = &transaction.events;
                for place in 0..=events.len() {
                    let mut script = Script::new();
                    settings(&mut script, control, ABOUT_TO_CARRY);
                    script.events(&events[..place]).event(edge);
                    script.events(&events[place..]).stop();
                    script.memory_read_current(1).companion_read(0x0C, 5);
                    script.companion_read(0x0D, 4);
                    let name = format!("{kind}, 0Ch {control:X}h, {edge} at {place}");
                    lists.add(name, script);
                }
                let mut script = Script::new();
                settings(&mut script, control, ABOUT_TO_CARRY);
                for event in events {
                    script.event(*event).event(edge);
                }
                script.stop();
                read_registers(&mut script);
                let name = format!("{kind}, 0Ch {control:X}h, {edge} everywhere");
                lists.add(name, script);
            }
        }
    }
    lists.lists
}

/// A byte written to each counter register from counts about to carry, with an
/// edge before each of its clocks and after them; CC off and on.
pub fn edges_in_counter_writes(size: Size) -> Vec<FamilyList> {
    let mut lists = Lists::new(size, "family-edges-in-counter-writes", 0);
    for address in 0x0D..=0x10_u8 {
        for (first, second) in [(0x00FF, 0xFFFF), (0xFFFF, 0x00FF), (0xFFFF, 0xFFFF)] {
            for value in [0x00, 0x5A, 0xFF] {
                for control in [0x00, CC] {
                    for place in 0..=10_u8 {
                        for edge in [8, 9] {
                            let mut script = Script::new();
                            settings(&mut script, control, counter_bytes(first, second));
                            script.begin_companion_write(address);
                            counter_write_with_edge(&mut script, value, place, edge);
                            script.stop().companion_read(0x0D, 4);
                            let name = format!(
                                "{value:02X}h to {address:02X}h over {first:04X}h {second:04X}h, \
                                 0Ch {control:X}h, {edge} at {place}"
                            );
                            lists.add(name, script);
                        }
                    }
                }
            }
        }
    }
    lists.lists
}

/// The nine clocks of a byte; the edge comes before clock `place`, or after all
/// of them; 10 puts edges before and after the eighth.
fn counter_write_with_edge(script: &mut Script, value: u8, place: u8, edge: u8) {
    for clock in 0..9 {
        if clock == place || place == 10 && (clock == 7 || clock == 8) {
            script.event(edge);
        }
        script.clock(clock == 8 || (value >> (7 - clock.min(7))) & 1 == 1);
    }
    if place == 9 {
        script.event(edge);
    }
}

/// Every byte of 0Ch's four bits after every other, with edges before, between
/// and after; the counters are read after each write.
pub fn count_controls(size: Size) -> Vec<FamilyList> {
    let mut lists = Lists::new(size, "family-count-controls", 0);
    for first in 0..16_u8 {
        for second in 0..16_u8 {
            for stopped_early in [false, true] {
                let mut script = Script::new();
                settings(&mut script, 0x00, ABOUT_TO_CARRY);
                script.event(8).companion_write(0x0C, &[first]);
                script.events(&[8, 9]);
                // the last byte, 10h, is read or not, so RC clears itself or not
                script.companion_read(0x0C, if stopped_early { 4 } else { 5 });
                script.companion_write(0x0C, &[second | 0xF0]);
                script.events(&[9, 8]).companion_read(0x0C, 5);
                script.event(8).companion_read(0x0C, 5);
                let name = format!("{first:X}h then {second:X}h, early {stopped_early}");
                lists.add(name, script);
            }
        }
    }
    lists.lists
}

/// Frozen reads from each address of 0Bh to 10h, cut after each clock by Start,
/// Stop, event 5 and event 6, with edges between; then the counters are read.
pub fn frozen_reads(size: Size) -> Vec<FamilyList> {
    let mut lists = Lists::new(size, "family-frozen-reads", 0);
    for address in 0x0B..=0x10_u8 {
        let bytes = usize::from(0x11 - address);
        for clocks in 0..=9 * bytes {
            for cut in [0, 1, 5, 6] {
                let mut script = Script::new();
                settings(&mut script, RC, ABOUT_TO_CARRY);
                script.events(&[8, 9]).begin_companion_write(address);
                script.begin_companion_read();
                for clock in 0..clocks {
                    script.clock(clock % 9 != 8);
                    if clock % 4 == 3 {
                        script.event(8);
                    }
                }
                script.event(cut).edge_on_cnt2().power_returned();
                script.companion_read(0x0C, 5).companion_read(0x0D, 4);
                let name = format!("from {address:02X}h, {clocks} clocks, cut by {cut}");
                lists.add(name, script);
            }
        }
    }
    lists.lists
}

/// Each counter register written while RC is 1, with edges before and after, then
/// read frozen and, RC cleared by the read or by a write, once more.
pub fn writes_while_frozen(size: Size) -> Vec<FamilyList> {
    let mut lists = Lists::new(size, "family-writes-while-frozen", 0);
    for address in 0x0D..=0x10_u8 {
        for value in [0x00, 0x5A, 0xFE, 0xFF] {
            for control in [RC, RC | CC] {
                for again in [None, Some(0x00), Some(RC), Some(RC | CC)] {
                    let mut script = Script::new();
                    settings(&mut script, control, ABOUT_TO_CARRY);
                    script.event(8).companion_write(address, &[value]);
                    script.events(&[8, 9]).companion_read(0x0C, 3);
                    if let Some(byte) = again {
                        script.companion_write(0x0C, &[byte]);
                    }
                    script.events(&[9, 8]).companion_read(0x0C, 5);
                    script.companion_read(0x0C, 5);
                    let name =
                        format!("{value:02X}h to {address:02X}h, 0Ch {control:X}h, then {again:?}");
                    lists.add(name, script);
                }
            }
        }
    }
    lists.lists
}
