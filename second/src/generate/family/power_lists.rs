// SPDX-License-Identifier: Apache-2.0
//! Exhaustive families about supplies, ticks and edges.

use super::fixed::{
    read_current_bytes, read_registers, settings, transactions, ABOUT_TO_CARRY, CC, RC,
};
use super::{FamilyList, Lists};
use crate::bus::Power;
use crate::family::{Size, State};
use crate::generate::script::Script;

/// All sequences of four events out of tick, 5, 6, 7 and the two edges, with both
/// addresses set; then power returns and everything is read.
pub fn power_sequences(size: Size) -> Vec<FamilyList> {
    let mut lists = Lists::new(size, "family-power-sequences", 44);
    for number in 0..1296_u32 {
        for control in [0x00, RC | CC] {
            let mut script = Script::new();
            settings(&mut script, control, ABOUT_TO_CARRY);
            script
                .begin_memory_write(0x0777)
                .begin_companion_write(0x0D);
            for place in [1, 6, 36, 216] {
                script.event(4 + (number / place % 6) as u8);
            }
            script.clock(false).clock(true);
            script.memory_read_current(1).companion_read_current(1);
            script.power_returned();
            read_registers(&mut script);
            lists.add(format!("sequence {number}, 0Ch {control:X}h"), script);
        }
    }
    lists.lists
}

/// Every kind of transaction with each power event after each of its events, an
/// edge on either input and power back; it goes on after that.
pub fn power_everywhere(size: Size) -> Vec<FamilyList> {
    let mut lists = Lists::new(size, "family-power-everywhere", 45);
    for (kind, transaction) in transactions(size) {
        let events = transaction.events;
        for place in 0..=events.len() {
            for lost in [&[5][..], &[6], &[5, 6]] {
                let mut script = Script::new();
                settings(&mut script, RC, ABOUT_TO_CARRY);
                script.events(&events[..place]).events(lost);
                script.events(&[8, 9, 7]).events(&events[place..]);
                script.stop().companion_read_current(2);
                script.companion_read(0x09, 8);
                lists.add(format!("{kind}, {lost:?} at {place}"), script);
            }
        }
    }
    lists.lists
}

/// Every supply with addresses that no loss of power leaves, every two events out
/// of 4 to 9; then power returns, and what is read shows both addresses.
pub fn handed_in_addresses(size: Size) -> Vec<FamilyList> {
    let mut lists = Lists::new(size, "family-handed-in-addresses", 47);
    for (power, memory_address, companion_address) in supplies_with_addresses(size) {
        for pair in 0..36_u8 {
            let mut state = State::fresh();
            state.power = power;
            state.memory_address = memory_address;
            state.companion_address = companion_address;
            state.registers[4..8].copy_from_slice(&ABOUT_TO_CARRY);
            let mut script = Script::new();
            script.event(4 + pair / 6).event(4 + pair % 6);
            script.power_returned();
            read_current_bytes(&mut script);
            let place = format!("{memory_address:04X}h, {companion_address:02X}h");
            lists.add_in(state, format!("{power:?}, {place}, pair {pair}"), script);
        }
    }
    lists.lists
}

fn supplies_with_addresses(size: Size) -> Vec<(Power, u16, u8)> {
    let mut all = Vec::new();
    for power in [Power::On, Power::Backup, Power::Gone] {
        for memory_address in [0x0000, 0x0332, size.last_address()] {
            for companion_address in [0x09, 0x0E, 0x18] {
                all.push((power, memory_address, companion_address));
            }
        }
    }
    all
}

/// States handed in with every supply and every byte of 0Ch: edges, power back,
/// edges, everything read. With both supplies gone no events reach a 0Ch that is
/// not 0.
pub fn handed_in(size: Size) -> Vec<FamilyList> {
    let mut lists = Lists::new(size, "family-handed-in", 46);
    for power in [Power::On, Power::Backup, Power::Gone] {
        for control in 0..16_u8 {
            for counters in [ABOUT_TO_CARRY, [0xFF; 4]] {
                let mut state = State::fresh();
                state.power = power;
                state.registers[3] = control;
                state.registers[4..8].copy_from_slice(&counters);
                state.snapshot = [0x1A, 0x2B, 0x3C, 0x4D];
                let mut script = Script::new();
                script.events(&[8, 9]).companion_read(0x0C, 3);
                script.power_returned().events(&[9, 8, 4]);
                script.companion_read(0x0C, 5).companion_read(0x0C, 5);
                script.event(6).events(&[8, 9]).power_returned();
                read_registers(&mut script);
                let name = format!("{power:?}, 0Ch {control:X}h, counters {counters:02X?}");
                lists.add_in(state, name, script);
            }
        }
    }
    lists.lists
}
