// SPDX-License-Identifier: Apache-2.0
//! Structured families about the bus and the memory.

use super::random_source::RandomSource;
use super::script::Script;
use super::structured_lists::{plausible_settings, structured_list};
use super::transactions::{
    plausible_memory_address, random_transactions, unknown_slave_byte, BORDER_ADDRESSES,
};
use super::List;

/// Several transactions of every kind, one after the other, ended by Stop or by
/// the next Start.
pub fn transactions(source: &mut RandomSource) -> Vec<List> {
    let mut lists = Vec::new();
    for number in 0..4 {
        let mut script = Script::new();
        plausible_settings(source, &mut script);
        for _ in 0..3 {
            for transaction in random_transactions(source) {
                script.events(&transaction.script.events);
                if source.chance(60) {
                    script.stop();
                }
            }
        }
        let name = format!("list {number}");
        lists.push(structured_list(source, "transactions", name, script));
    }
    lists
}

/// Adds what shows the effects of a cut.
fn look_around(script: &mut Script, cut: u8) {
    if cut >= 5 {
        // a Start while off must not be known when power is back
        script.clock(false).tick().start();
        script.power_returned().byte_and_acknowledge(0xD1);
    }
    if cut == 0 {
        script.byte_and_acknowledge(0xD1).read_bytes(1);
    }
    script.memory_read_current(1).companion_read_current(2);
}

/// One transaction of every kind, cut at every clock by Stop, by Start, by
/// events 5 and 6, and by the end of the list.
pub fn cut_transactions(source: &mut RandomSource) -> Vec<List> {
    let mut lists = Vec::new();
    for transaction in random_transactions(source) {
        let mut settings = Script::new();
        plausible_settings(source, &mut settings);
        let events = transaction.script.events;
        for length in 1..=events.len() {
            for cut in [0, 1, 5, 6, 255] {
                let mut script = settings.clone();
                script.events(&events[..length]);
                if cut != 255 {
                    script.event(cut);
                    look_around(&mut script, cut);
                }
                let name = format!("{} after {length} by {cut}", transaction.name);
                lists.push(structured_list(source, "cut-transactions", name, script));
            }
        }
    }
    lists
}

/// Starts in the middle of bytes, several Starts in a row, and reads after them.
pub fn repeated_starts(source: &mut RandomSource) -> Vec<List> {
    let mut lists = Vec::new();
    for number in 0..3 {
        let mut script = Script::new();
        plausible_settings(source, &mut script);
        for _ in 0..12 {
            for _ in 0..source.between(1, 3) {
                script.start();
            }
            let slave = source.pick(&[0xA0, 0xA1, 0xD0, 0xD1]);
            script.byte_and_acknowledge(slave);
            for _ in 0..source.below(3) {
                let byte = source.byte() & 0x1F;
                script.byte(byte).acknowledge_clock(source.chance(50));
            }
            let (byte, count) = (source.byte(), source.below(9) as u8);
            script.first_bits(byte, count);
        }
        script.stop();
        let name = format!("list {number}");
        lists.push(structured_list(source, "repeated-starts", name, script));
    }
    lists
}

/// Data bytes to protected addresses for every WP, companion addresses above
/// 0Eh, and unknown slave bytes; traffic goes on after each.
pub fn refused_bytes(source: &mut RandomSource) -> Vec<List> {
    let mut lists = Vec::new();
    for protection in 0..4_u8 {
        let mut script = Script::new();
        let other_bits = source.byte() & 0xE7;
        script.companion_write(0x0E, &[other_bits | protection << 3]);
        for address in BORDER_ADDRESSES {
            let data = source.bytes(3);
            script.memory_write(address, &data).memory_read_current(1);
        }
        for _ in 0..6 {
            let refused = source.between(0x0F, 0xFF) as u8;
            script.companion_write(refused, &source.bytes(2));
            script.companion_read_current(1);
            let unknown = unknown_slave_byte(source);
            script.start().byte_and_acknowledge(unknown);
            script
                .bytes_and_acknowledges(&[0xA0, 0x01, 0x02, 0x03])
                .stop();
            script.memory_read_current(1);
        }
        let name = format!("WP {protection:02b}");
        lists.push(structured_list(source, "refused-bytes", name, script));
    }
    lists
}

/// The master pulls the line low while the device sends.
pub fn master_low_while_device_sends(source: &mut RandomSource) -> Vec<List> {
    let mut lists = Vec::new();
    for number in 0..3 {
        let mut script = Script::new();
        plausible_settings(source, &mut script);
        for _ in 0..6 {
            let slave = source.pick(&[0xA1, 0xD1]);
            script.start().byte_and_acknowledge(slave);
            for _ in 0..source.between(1, 5) {
                let driven = source.pick(&[0x00, 0x0F, 0xF0, 0x7F, 0xFE, 0x55]);
                script.byte(driven & source.byte());
                script.acknowledge_clock(source.chance(20));
            }
            script.stop();
        }
        let name = format!("list {number}");
        lists.push(structured_list(source, "master-low", name, script));
    }
    lists
}

/// Every combination of the master's ninth bits for four bytes of each kind of
/// transfer.
pub fn ninth_bits(source: &mut RandomSource) -> Vec<List> {
    let mut lists = Vec::new();
    for slave in [0xA0, 0xA1, 0xD0, 0xD1] {
        let mut script = Script::new();
        plausible_settings(source, &mut script);
        for combination in 0..16_u8 {
            script.start();
            let bytes = [slave, source.byte() & 0x0F, source.byte(), source.byte()];
            for (place, byte) in bytes.iter().enumerate() {
                script.byte(*byte);
                script.acknowledge_clock(combination >> place & 1 == 1);
            }
            if source.chance(50) {
                script.stop();
            }
        }
        let name = format!("slave byte {slave:02X}h");
        lists.push(structured_list(source, "ninth-bits", name, script));
    }
    lists
}

/// Reads and writes over the end of the memory.
pub fn memory_wraps(source: &mut RandomSource) -> Vec<List> {
    let mut lists = Vec::new();
    for number in 0..3 {
        let mut script = Script::new();
        if source.chance(40) {
            script.companion_write(0x0E, &[source.byte()]);
        }
        for _ in 0..4 {
            let address = 0x1FFF - source.below(4) as u16;
            let count = source.between(2, 6);
            let data = source.bytes(count);
            script.memory_write(address, &data);
            script.memory_read(address, count).memory_read_current(1);
        }
        let name = format!("list {number}");
        lists.push(structured_list(source, "memory-wraps", name, script));
    }
    lists
}

/// Loss and return of power at every place of some traffic, the traffic going
/// on over it.
pub fn power_events_inside(source: &mut RandomSource) -> Vec<List> {
    let mut lists = Vec::new();
    let mut traffic = Script::new();
    traffic.memory_write(plausible_memory_address(source), &source.bytes(2));
    traffic.companion_read(source.below(15) as u8, 2);
    for place in 0..=traffic.events.len() {
        let mut script = Script::new();
        plausible_settings(source, &mut script);
        script.events(&traffic.events[..place]);
        for _ in 0..source.between(1, 4) {
            script.event(source.between(5, 7) as u8);
            script.ticks(source.below(2));
        }
        script.events(&traffic.events[place..]);
        script.power_returned().memory_read_current(1);
        script.read_all_registers();
        let name = format!("place {place}");
        lists.push(structured_list(source, "power-inside", name, script));
    }
    lists
}

/// Ticks inside transactions of every kind: after every event, or after some.
pub fn ticks_inside(source: &mut RandomSource) -> Vec<List> {
    let mut lists = Vec::new();
    for percent in [100, 50, 25] {
        let mut script = Script::new();
        plausible_settings(source, &mut script);
        for transaction in random_transactions(source) {
            for event in transaction.script.events {
                script.event(event);
                if source.chance(percent) {
                    script.tick();
                }
            }
            script.stop();
        }
        script.read_all_registers();
        let name = format!("{percent} of a hundred");
        lists.push(structured_list(source, "ticks-inside", name, script));
    }
    lists
}
