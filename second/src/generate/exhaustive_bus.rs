// SPDX-License-Identifier: Apache-2.0
//! Exhaustive families about the bus and the memory.

use super::script::Script;
use super::transactions::{fixed_transactions, lively_settings, BORDER_ADDRESSES};
use super::List;

/// Shows both current addresses by what is read there.
fn read_current_bytes(script: &mut Script) {
    script.memory_read_current(2).companion_read_current(2);
}

/// All 256 slave bytes, each followed by three bytes, with the master's ninth
/// bits high and low.
pub fn slave_bytes() -> Vec<List> {
    let mut lists = Vec::new();
    for byte in 0..=255_u8 {
        for ninth in [true, false] {
            let mut script = Script::new();
            script
                .begin_memory_write(0x0123)
                .begin_companion_write(0x05);
            script.start();
            for sent in [byte, 0x03, 0x04, 0x5A] {
                script.byte(sent).acknowledge_clock(ninth);
            }
            script.stop();
            read_current_bytes(&mut script);
            let name = format!("slave byte {byte:02X}h, ninth bit {}", u8::from(ninth));
            lists.push(List::from_script("slave-bytes", name, 11, script));
        }
    }
    lists
}

/// All 256 companion address bytes, each followed by a data byte and a read
/// from the current address.
pub fn companion_addresses() -> Vec<List> {
    let mut lists = Vec::new();
    for byte in 0..=255_u8 {
        let mut script = Script::new();
        script.begin_companion_write(0x05);
        script.companion_write(byte, &[0x96]);
        script.companion_read_current(2);
        let name = format!("companion address {byte:02X}h");
        lists.push(List::from_script("companion-addresses", name, 0, script));
    }
    lists
}

/// Every first address byte with two second bytes, and every second address
/// byte; each is written to and read back.
pub fn memory_address_bytes() -> Vec<List> {
    let mut lists = Vec::new();
    for byte in 0..=255_u8 {
        let mut script = Script::new();
        let high = u16::from(byte) * 256;
        for address in [high, high + 0x00FF, 0x1E00 + u16::from(byte)] {
            script.memory_write(address, &[byte ^ 0x3C]);
            script.memory_read(address, 1);
        }
        let name = format!("address byte {byte:02X}h");
        lists.push(List::from_script("memory-address-bytes", name, 12, script));
    }
    lists
}

/// Every byte of 0Eh, so every WP setting with all other bits, and addresses
/// around each border: two bytes written, one read at the current address.
pub fn write_protection() -> Vec<List> {
    let mut lists = Vec::new();
    for byte in 0..=255_u8 {
        let mut script = Script::new();
        script.companion_write(0x0E, &[byte]);
        for address in BORDER_ADDRESSES {
            script.memory_write(address, &[byte ^ 0x69, byte ^ 0x96]);
            script.memory_read_current(1);
        }
        let name = format!("0Eh holds {byte:02X}h");
        lists.push(List::from_script("write-protection", name, 13, script));
    }
    lists
}

/// Sixteen registers read and written from every companion address on, and
/// four memory bytes from every address near the end.
pub fn address_wraps() -> Vec<List> {
    let mut lists = Vec::new();
    for address in 0..15_u8 {
        for control in 0..16_u8 {
            let mut script = Script::new();
            lively_settings(&mut script);
            script.tick().companion_write(0x00, &[control]);
            script.companion_read(address, 16);
            let data: Vec<u8> = (0..16).map(|index| control ^ (index * 17)).collect();
            script.companion_write(address, &data);
            script.companion_read_current(16);
            let name = format!("companion from {address:02X}h, control {control:X}h");
            lists.push(List::from_script("address-wraps", name, 0, script));
        }
    }
    for address in 0x1FFA..=0x1FFF_u16 {
        let mut script = Script::new();
        script.memory_read(address, 9);
        script.memory_write(address, &[1, 2, 3, 4, 5, 6, 7, 8, 9]);
        script.memory_read(address, 9).memory_read_current(1);
        let name = format!("memory from {address:04X}h");
        lists.push(List::from_script("address-wraps", name, 14, script));
    }
    lists
}

/// What follows a cut, so that its effects are seen.
fn after_cut(script: &mut Script, cut: Option<u8>) {
    match cut {
        None => {}
        Some(0) => {
            script.byte_and_acknowledge(0xA1).read_bytes(1).stop();
            script.companion_read_current(2);
        }
        Some(1) => {
            script.clock(false).clock(true);
            script.memory_read_current(1).companion_read_current(2);
        }
        Some(_) => {
            // a Start while off must not be known when power is back
            script.clock(false).clock(true).tick().start();
            script.power_returned().byte_and_acknowledge(0xA1);
            script.memory_read_current(1).read_all_registers();
        }
    }
}

/// The lively settings with AF raised, then the first part of a transaction.
fn begun_transaction(events: &[u8]) -> Script {
    let mut script = Script::new();
    lively_settings(&mut script);
    script.tick().events(events);
    script
}

/// Every kind of transaction, cut after each of its events by Start, Stop,
/// event 5, event 6, and the end of the list.
pub fn cuts() -> Vec<List> {
    let mut lists = Vec::new();
    for transaction in fixed_transactions() {
        let events = transaction.script.events;
        for length in 0..=events.len() {
            for cut in [None, Some(0), Some(1), Some(5), Some(6)] {
                let mut script = begun_transaction(&events[..length]);
                if let Some(event) = cut {
                    script.event(event);
                }
                after_cut(&mut script, cut);
                let name = format!("{} after {length} by {cut:?}", transaction.name);
                lists.push(List::from_script("cuts", name, 15, script));
            }
        }
    }
    lists
}

/// Every kind of transaction with a tick or event 7 put in after each of its
/// events; it goes on after that.
pub fn insertions() -> Vec<List> {
    let mut lists = Vec::new();
    for transaction in fixed_transactions() {
        let events = transaction.script.events;
        for length in 0..=events.len() {
            for inserted in [4, 7] {
                let mut script = begun_transaction(&events[..length]);
                script.event(inserted).events(&events[length..]).stop();
                script.memory_read_current(1).companion_read(0x00, 3);
                let name = format!("{} at {length} event {inserted}", transaction.name);
                lists.push(List::from_script("insertions", name, 16, script));
            }
        }
    }
    lists
}

/// Where pairs of events are tried: so many events into each transaction.
const PAIR_PLACES: [usize; 5] = [5, 8, 9, 10, 18];

/// All 64 pairs of events at some places of every kind of transaction.
pub fn pairs_of_events() -> Vec<List> {
    let mut lists = Vec::new();
    for transaction in fixed_transactions() {
        let events = transaction.script.events;
        for length in PAIR_PLACES {
            for pair in 0..64_u8 {
                let mut script = begun_transaction(&events[..length]);
                script.event(pair / 8).event(pair % 8);
                script.events(&events[length..]);
                let name = format!("{} at {length} pair {pair:02o}", transaction.name);
                lists.push(List::from_script("pairs-of-events", name, 17, script));
            }
        }
    }
    lists
}
