// SPDX-License-Identifier: Apache-2.0
//! Structured families: transactions of every kind with chosen contents and
//! disturbances.

use super::fixed::{border_addresses, read_registers, CC, RC};
use super::random_parts::{
    any_counters, any_edges, any_register, any_settings, any_transactions, refused_register,
};
use super::{list_by_chance, FamilyList};
use crate::family::{Size, State};
use crate::generate::random_source::RandomSource;
use crate::generate::script::Script;
use crate::generate::transactions::unknown_slave_byte;

/// Structured lists for a size with about so many events in all; the families
/// take turns.
pub fn family_structured(size: Size, seed: u64, approximate_events: usize) -> Vec<FamilyList> {
    let mut source = RandomSource::new(seed);
    let mut lists: Vec<FamilyList> = Vec::new();
    let mut events = 0;
    while events < approximate_events {
        let number = lists.len();
        let (family, script) = one_list(&mut source, size, number);
        let name = format!("seed {seed}, list {number}");
        events += script.events.len();
        let list = list_by_chance(&mut source, size, family, name, State::fresh(), script);
        lists.push(list);
    }
    lists
}

fn one_list(source: &mut RandomSource, size: Size, number: usize) -> (&'static str, Script) {
    match number % 10 {
        0 => ("family-transactions", transactions(source, size)),
        1 => ("family-cut-transactions", cut_transactions(source, size)),
        2 => ("family-repeated-starts", repeated_starts(source, size)),
        3 => ("family-refused-bytes", refused_bytes(source, size)),
        4 => ("family-ninth-bits", ninth_bits(source, size)),
        5 => ("family-memory-wraps", memory_wraps(source, size)),
        6 => ("family-edges-inside", edges_inside(source, size)),
        7 => ("family-power-inside", power_inside(source, size)),
        8 => ("family-frozen", frozen(source)),
        _ => ("family-locks", locks(source)),
    }
}

/// Transactions of every kind, ended by Stop or by the next Start.
fn transactions(source: &mut RandomSource, size: Size) -> Script {
    let mut script = Script::new();
    any_settings(source, size, &mut script);
    for _ in 0..2 {
        for (_, transaction) in any_transactions(source, size) {
            script.events(&transaction.events);
            if source.chance(60) {
                script.stop();
            }
            any_edges(source, &mut script, 2);
        }
    }
    read_registers(&mut script);
    script
}

/// Transactions of every kind, each cut at some clock by Stop, Start, 5 or 6.
fn cut_transactions(source: &mut RandomSource, size: Size) -> Script {
    let mut script = Script::new();
    any_settings(source, size, &mut script);
    for (_, transaction) in any_transactions(source, size) {
        let length = source.between(1, transaction.events.len());
        script.events(&transaction.events[..length]);
        let cut = source.pick(&[0, 1, 5, 6]);
        script.event(cut);
        if cut >= 5 {
            // a Start while off must not be known when power is back
            script.clock(false).start();
            any_edges(source, &mut script, 2);
            script.power_returned().byte_and_acknowledge(0xD1);
        }
        if cut == 0 {
            script.byte_and_acknowledge(0xD1).read_bytes(1);
        }
        script.memory_read_current(1).companion_read_current(2);
    }
    read_registers(&mut script);
    script
}

/// Starts in the middle of bytes, several Starts in a row, and reads after them.
fn repeated_starts(source: &mut RandomSource, size: Size) -> Script {
    let mut script = Script::new();
    any_settings(source, size, &mut script);
    for _ in 0..12 {
        for _ in 0..source.between(1, 3) {
            script.start();
        }
        let slave = source.pick(&[0xA0, 0xA1, 0xD0, 0xD1]);
        script.byte_and_acknowledge(slave);
        for _ in 0..source.below(4) {
            let byte = source.byte() & 0x1F;
            script.byte(byte).acknowledge_clock(source.chance(50));
        }
        let (byte, count) = (source.byte(), source.below(9) as u8);
        script.first_bits(byte, count);
    }
    script.stop();
    script
}

/// Data bytes around the borders of a protection, companion addresses outside
/// 09h to 18h, and unknown slave bytes; traffic goes on after each.
fn refused_bytes(source: &mut RandomSource, size: Size) -> Script {
    let mut script = Script::new();
    let protection = source.below(4) as u8;
    script.companion_write(0x0B, &[source.byte() & 0x67 | protection << 3]);
    for address in border_addresses(size) {
        let count = source.between(1, 3);
        script.memory_write(address, &source.bytes(count));
        script.memory_read_current(1);
    }
    for _ in 0..4 {
        script.companion_write(refused_register(source), &source.bytes(2));
        script.companion_read_current(1);
        let unknown = unknown_slave_byte(source);
        script.start().byte_and_acknowledge(unknown);
        script
            .bytes_and_acknowledges(&[0xA0, 0x01, 0x02, 0x03])
            .stop();
        script.memory_read_current(1);
    }
    script
}

/// The master's ninth bits and its line while the device sends, by chance.
fn ninth_bits(source: &mut RandomSource, size: Size) -> Script {
    let mut script = Script::new();
    any_settings(source, size, &mut script);
    for _ in 0..12 {
        script.start();
        let slave = source.pick(&[0xA0, 0xA1, 0xD0, 0xD1]);
        let first = any_register(source);
        for byte in [slave, first, source.byte(), source.byte()] {
            script.byte(byte).acknowledge_clock(source.chance(40));
        }
        if source.chance(50) {
            script.stop();
        }
    }
    script
}

/// Reads and writes over the end of the memory.
fn memory_wraps(source: &mut RandomSource, size: Size) -> Script {
    let mut script = Script::new();
    if source.chance(40) {
        script.companion_write(0x0B, &[source.byte()]);
    }
    for _ in 0..4 {
        let address = size.last_address() - source.below(4) as u16;
        let count = source.between(2, 6);
        script.memory_write(address, &source.bytes(count));
        script.memory_read(address, count).memory_read_current(1);
    }
    script
}

/// Edges inside transactions of every kind: after every event, or after some.
fn edges_inside(source: &mut RandomSource, size: Size) -> Script {
    let mut script = Script::new();
    any_settings(source, size, &mut script);
    let percent = source.pick(&[100, 50, 10]);
    for (_, transaction) in any_transactions(source, size) {
        for event in transaction.events {
            script.event(event);
            if source.chance(percent) {
                script.event(source.pick(&[8, 9]));
            }
        }
        script.stop();
    }
    read_registers(&mut script);
    script
}

/// Loss and return of power at some place of each kind of transaction, which
/// goes on.
fn power_inside(source: &mut RandomSource, size: Size) -> Script {
    let mut script = Script::new();
    any_settings(source, size, &mut script);
    for (_, transaction) in any_transactions(source, size) {
        let events = transaction.events;
        let place = source.below(events.len());
        script.events(&events[..place]);
        for _ in 0..source.between(1, 3) {
            script.event(source.pick(&[5, 6, 7, 7]));
            any_edges(source, &mut script, 2);
        }
        script.events(&events[place..]);
        script.power_returned().memory_read_current(1);
    }
    read_registers(&mut script);
    script
}

/// Counters loaded, frozen and read, with edges, writes and power between.
fn frozen(source: &mut RandomSource) -> Script {
    let mut script = Script::new();
    for _ in 0..6 {
        let control = source.pick(&[RC, RC | CC, RC, 0x00, CC]);
        script.companion_write(0x0D, &any_counters(source));
        any_edges(source, &mut script, 2);
        script.companion_write(0x0C, &[control | source.byte() & 0xF3]);
        any_edges(source, &mut script, 3);
        match source.below(6) {
            0 => {
                let address = source.between(0x0D, 0x10) as u8;
                script.companion_write(address, &[source.byte()]);
            }
            1 => {
                script.power_lost_with_backup();
                any_edges(source, &mut script, 2);
                script.power_returned();
            }
            2 => {
                script.power_lost_without_backup().power_returned();
            }
            _ => {}
        }
        let address = source.between(0x0C, 0x10) as u8;
        script.companion_read(address, source.between(1, 6));
        any_edges(source, &mut script, 3);
        script.companion_read(0x0C, 5);
    }
    script
}

/// Long writes over 0Bh and the serial number, loss of supplies, reads.
fn locks(source: &mut RandomSource) -> Script {
    let mut script = Script::new();
    script.companion_write(0x11, &source.bytes(8));
    for _ in 0..3 {
        let count = source.between(1, 20);
        let mut data = source.bytes(count);
        if source.chance(50) {
            // fewer locks, so that some serial numbers still change
            for byte in &mut data {
                *byte &= 0x7F;
            }
        }
        script.companion_write(any_register(source), &data);
        if source.chance(50) {
            let lost = source.pick(&[5, 6, 6]);
            script.event(lost);
            any_edges(source, &mut script, 2);
            script.power_returned();
        }
        read_registers(&mut script);
    }
    script
}
