// SPDX-License-Identifier: Apache-2.0
//! Exhaustive families about the bus and the memory.

use super::fixed::{
    border_addresses, protection_borders, read_current_bytes, read_registers, settings,
    transactions, ABOUT_TO_CARRY,
};
use super::{FamilyList, Lists};
use crate::family::Size;
use crate::generate::script::Script;

/// All 256 slave bytes, each followed by three bytes, with the master's ninth
/// bits high and low.
pub fn slave_bytes(size: Size) -> Vec<FamilyList> {
    let mut lists = Lists::new(size, "family-slave-bytes", 31);
    for byte in 0..=255_u8 {
        for ninth in [true, false] {
            let mut script = Script::new();
            script
                .begin_memory_write(0x0123)
                .begin_companion_write(0x12);
            script.start();
            for sent in [byte, 0x0D, 0x04, 0x5A] {
                script.byte(sent).acknowledge_clock(ninth);
            }
            script.stop();
            read_current_bytes(&mut script);
            let name = format!("slave byte {byte:02X}h, ninth bit {}", u8::from(ninth));
            lists.add(name, script);
        }
    }
    lists.lists
}

/// All 256 companion address bytes, each followed by a data byte and a read
/// from the current address.
pub fn companion_addresses(size: Size) -> Vec<FamilyList> {
    let mut lists = Lists::new(size, "family-companion-addresses", 0);
    for byte in 0..=255_u8 {
        let mut script = Script::new();
        script.companion_write(0x11, &[0x21, 0x22, 0x23]);
        script.begin_companion_write(0x12);
        script.companion_write(byte, &[0x96]);
        script.companion_read_current(2);
        read_registers(&mut script);
        lists.add(format!("companion address {byte:02X}h"), script);
    }
    lists.lists
}

/// Every first address byte with two second bytes, and every second address
/// byte; each is written to, by its whole bits and without those above the size,
/// and read back.
pub fn memory_address_bytes(size: Size) -> Vec<FamilyList> {
    let mut lists = Lists::new(size, "family-memory-address-bytes", 32);
    let last_page = size.last_address() & 0xFF00;
    for byte in 0..=255_u8 {
        let mut script = Script::new();
        let high = u16::from(byte) * 256;
        for address in [high, high + 0x00FF, last_page + u16::from(byte)] {
            script.memory_write(address, &[byte ^ 0x3C]);
            script.memory_read(address & size.last_address(), 1);
            script.memory_write(address & size.last_address(), &[byte ^ 0xA5]);
            script.memory_read(address, 1);
        }
        lists.add(format!("address byte {byte:02X}h"), script);
    }
    lists.lists
}

/// Every byte of 0Bh, so every WP setting with all other bits, and addresses
/// around each border: two bytes written, one read at the current address.
pub fn write_protection(size: Size) -> Vec<FamilyList> {
    let mut lists = Lists::new(size, "family-write-protection", 33);
    for byte in 0..=255_u8 {
        let mut script = Script::new();
        script.companion_write(0x0B, &[byte]);
        for address in border_addresses(size) {
            script.memory_write(address, &[byte ^ 0x69, byte ^ 0x96]);
            script.memory_read_current(1);
        }
        lists.add(format!("0Bh holds {byte:02X}h"), script);
    }
    lists.lists
}

/// Every protection with every border, the data byte cut after each of its
/// clocks by Start, Stop, event 5 and event 6; then two bytes are read.
pub fn data_byte_cuts(size: Size) -> Vec<FamilyList> {
    let mut lists = Lists::new(size, "family-data-byte-cuts", 34);
    for protection in 0..4_u8 {
        for address in protection_borders(size) {
            for clocks in 0..=9_u8 {
                for cut in [0, 1, 5, 6] {
                    let mut script = Script::new();
                    script.companion_write(0x0B, &[protection << 3]);
                    script.begin_memory_write(address);
                    script.first_bits(0xC3, clocks.min(8));
                    if clocks == 9 {
                        script.acknowledge_clock(true);
                    }
                    script.event(cut).power_returned().memory_read_current(2);
                    script.memory_read(address, 1);
                    let name =
                        format!("WP {protection:02b}, {address:04X}h, {clocks} clocks, {cut}");
                    lists.add(name, script);
                }
            }
        }
    }
    lists.lists
}

/// Seventeen registers written and read from every companion address on, and
/// nine memory bytes from every address near the end.
pub fn address_wraps(size: Size) -> Vec<FamilyList> {
    let mut lists = Lists::new(size, "family-address-wraps", 35);
    for address in 0x09..=0x18_u8 {
        for pattern in [0x00, 0x35, 0x7F] {
            let mut script = Script::new();
            let data: Vec<u8> = (0..17).map(|index| pattern ^ (index * 7)).collect();
            script.companion_write(address, &data);
            script.companion_read(address, 17).companion_read_current(3);
            read_registers(&mut script);
            let name = format!("companion from {address:02X}h, pattern {pattern:02X}h");
            lists.add(name, script);
        }
    }
    for address in size.last_address() - 5..=size.last_address() {
        let mut script = Script::new();
        script.memory_read(address, 9);
        script.memory_write(address, &[1, 2, 3, 4, 5, 6, 7, 8, 9]);
        script.memory_read(address, 9).memory_read_current(1);
        lists.add(format!("memory from {address:04X}h"), script);
    }
    lists.lists
}

/// What follows a cut, so that its effects are seen.
fn after_cut(script: &mut Script, cut: Option<u8>) {
    match cut {
        None => {}
        Some(0) => {
            script.byte_and_acknowledge(0xA1).read_bytes(1).stop();
            script.companion_read_current(2);
        }
        Some(1) => {
            script.clock(false).clock(true);
            script.memory_read_current(1).companion_read_current(2);
        }
        Some(_) => {
            // a Start while off must not be known when power is back
            script.clock(false).clock(true).tick().start();
            script.edge_on_cnt1().edge_on_cnt2();
            script.power_returned().byte_and_acknowledge(0xA1);
            script.memory_read_current(1);
            read_registers(script);
        }
    }
}

/// The settings, then the first part of a transaction.
fn begun_transaction(events: &[u8]) -> Script {
    let mut script = Script::new();
    settings(&mut script, 0x00, ABOUT_TO_CARRY);
    script.events(events);
    script
}

/// Every kind of transaction, cut after each of its events by Start, Stop,
/// event 5, event 6, and the end of the list.
pub fn cuts(size: Size) -> Vec<FamilyList> {
    let mut lists = Lists::new(size, "family-cuts", 36);
    for (kind, transaction) in transactions(size) {
        let events = transaction.events;
        for length in 0..=events.len() {
            for cut in [None, Some(0), Some(1), Some(5), Some(6)] {
                let mut script = begun_transaction(&events[..length]);
                if let Some(event) = cut {
                    script.event(event);
                }
                after_cut(&mut script, cut);
                lists.add(format!("{kind} after {length} by {cut:?}"), script);
            }
        }
    }
    lists.lists
}

/// Every kind of transaction with a tick or event 7 put in after each of its
/// events; it goes on after that.
pub fn insertions(size: Size) -> Vec<FamilyList> {
    let mut lists = Lists::new(size, "family-insertions", 37);
    for (kind, transaction) in transactions(size) {
        let events = transaction.events;
        for length in 0..=events.len() {
            for inserted in [4, 7] {
                let mut script = begun_transaction(&events[..length]);
                script.event(inserted).events(&events[length..]).stop();
                script.memory_read_current(1).companion_read_current(2);
                lists.add(format!("{kind} at {length} event {inserted}"), script);
            }
        }
    }
    lists.lists
}

/// Where pairs of events are tried: so many events into each transaction.
const PAIR_PLACES: [usize; 4] = [5, 9, 10, 18];

/// All 100 pairs of events at some places of every kind of transaction.
pub fn pairs_of_events(size: Size) -> Vec<FamilyList> {
    let mut lists = Lists::new(size, "family-pairs-of-events", 38);
    for (kind, transaction) in transactions(size) {
        let events = transaction.events;
        for length in PAIR_PLACES {
            for pair in 0..100_u8 {
                let mut script = begun_transaction(&events[..length]);
                script.event(pair / 10).event(pair % 10);
                script.events(&events[length..]);
                lists.add(format!("{kind} at {length} pair {pair:02}"), script);
            }
        }
    }
    lists.lists
}
