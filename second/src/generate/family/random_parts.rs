// SPDX-License-Identifier: Apache-2.0
//! Parts of lists by chance: states, addresses, settings, transactions.

use super::fixed::{border_addresses, CC, RC};
use crate::bus::Power;
use crate::family::registers::{place, COUNT_CONTROL, SERIAL_LOCK, STORED_BITS};
use crate::family::{Size, State};
use crate::generate::random_source::RandomSource;
use crate::generate::script::Script;
use crate::generate::transactions::unknown_slave_byte;

/// Any state within the limits and between transfers; most often powered, and
/// more often unlocked than not. Both addresses may be any under every supply;
/// without main power they are sometimes those that a loss of power leaves.
pub fn any_family_state(source: &mut RandomSource, size: Size) -> State {
    let mut state = State::fresh();
    for (register, stored) in state.registers.iter_mut().zip(STORED_BITS) {
        *register = source.byte() & stored;
    }
    state.registers[place(0x0D)..=place(0x10)].copy_from_slice(&any_counters(source));
    if source.chance(70) {
        state.registers[place(0x0B)] &= !SERIAL_LOCK;
    }
    if source.chance(50) {
        state.registers[place(COUNT_CONTROL)] &= !RC;
    }
    state.snapshot.copy_from_slice(&source.bytes(4));
    state.power = source.pick(&[Power::On, Power::On, Power::On, Power::Backup, Power::Gone]);
    if state.power == Power::On || source.chance(70) {
        state.memory_address = any_memory_address(source, size) & size.last_address();
        state.companion_address = any_register(source);
    }
    state
}

/// 09h to 18h.
pub fn any_register(source: &mut RandomSource) -> u8 {
    source.between(0x09, 0x18) as u8
}

/// An address byte outside 09h to 18h; often close to them.
pub fn refused_register(source: &mut RandomSource) -> u8 {
    match source.below(4) {
        0 => source.pick(&[0x08, 0x19]),
        1 => any_register(source) + 0x20,
        2 => source.below(9) as u8,
        _ => source.between(0x19, 0xFF) as u8,
    }
}

/// A memory address, often near a border, sometimes with bits above the size.
pub fn any_memory_address(source: &mut RandomSource, size: Size) -> u16 {
    let near_border = source.pick(&border_addresses(size));
    match source.below(4) {
        0 => source.next_number() as u16,
        1 => near_border | !size.last_address(),
        _ => near_border,
    }
}

/// Four counter bytes, most often about to carry.
pub fn any_counters(source: &mut RandomSource) -> [u8; 4] {
    let mut bytes = [0; 4];
    for byte in &mut bytes {
        *byte = if source.chance(70) {
            source.pick(&[0xFF, 0xFF, 0xFE, 0xFD, 0x00])
        } else {
            source.byte()
        };
    }
    bytes
}

/// Any settings: protection, counters, 0Ch, both addresses, some edges.
pub fn any_settings(source: &mut RandomSource, size: Size, script: &mut Script) {
    let protection = source.pick(&[0x00, 0x00, 0x08, 0x10, 0x18]);
    let lock = source.pick(&[0x00, 0x00, 0x00, 0x80]);
    script.companion_write(0x11, &source.bytes(8));
    script.companion_write(0x0B, &[source.byte() & 0x67 | protection | lock]);
    script.companion_write(0x0D, &any_counters(source));
    script.companion_write(0x0C, &[source.byte()]);
    any_edges(source, script, 3);
    script.begin_memory_write(any_memory_address(source, size));
    script.begin_companion_write(any_register(source)).stop();
}

/// Up to so many edges on either input, and ticks, which do nothing.
pub fn any_edges(source: &mut RandomSource, script: &mut Script, most: usize) {
    for _ in 0..source.below(most + 1) {
        script.event(source.pick(&[8, 8, 8, 9, 9, 9, 4]));
    }
}

/// One transaction of every kind with chosen contents, without its Stop.
pub fn any_transactions(source: &mut RandomSource, size: Size) -> Vec<(&'static str, Script)> {
    let mut all = memory_transactions(source, size);
    all.extend(companion_transactions(source));
    all.extend(refused_transactions(source));
    all
}

fn built(name: &'static str, build: impl FnOnce(&mut Script)) -> (&'static str, Script) {
    let mut script = Script::new();
    build(&mut script);
    (name, script)
}

fn memory_transactions(source: &mut RandomSource, size: Size) -> Vec<(&'static str, Script)> {
    let address = any_memory_address(source, size);
    let read_address = any_memory_address(source, size);
    let count = source.between(1, 3);
    let data = source.bytes(count);
    vec![
        built("memory write", |script| {
            script
                .begin_memory_write(address)
                .bytes_and_acknowledges(&data);
        }),
        built("memory read", |script| {
            script.begin_memory_read().read_bytes(count);
        }),
        built("memory read at an address", |script| {
            script.begin_memory_write(read_address);
            script.begin_memory_read().read_bytes(count);
        }),
    ]
}

fn companion_transactions(source: &mut RandomSource) -> Vec<(&'static str, Script)> {
    let address = any_register(source);
    let read_address = any_register(source);
    let count = source.between(1, 8);
    let data = source.bytes(count);
    let counters = any_counters(source);
    let control = source.byte();
    vec![
        built("companion write", |script| {
            script
                .begin_companion_write(address)
                .bytes_and_acknowledges(&data);
        }),
        built("companion write of 0Ch on", |script| {
            script.begin_companion_write(0x0C);
            script.byte_and_acknowledge(control);
            script.bytes_and_acknowledges(&counters);
        }),
        built("companion read", |script| {
            script.begin_companion_read().read_bytes(count);
        }),
        built("companion read at an address", |script| {
            script.begin_companion_write(read_address);
            script.begin_companion_read().read_bytes(count);
        }),
        built("frozen read", |script| {
            script.begin_companion_write(0x0C);
            script.byte_and_acknowledge(RC | control & CC);
            script.begin_companion_read().read_bytes(count.min(5));
        }),
    ]
}

fn refused_transactions(source: &mut RandomSource) -> Vec<(&'static str, Script)> {
    let unknown = unknown_slave_byte(source);
    let refused = refused_register(source);
    let data = source.bytes(2);
    vec![
        built("unknown slave byte", |script| {
            script.start().byte_and_acknowledge(unknown);
            script.bytes_and_acknowledges(&data);
        }),
        built("companion address refused", |script| {
            script.begin_companion_write(refused);
            script.bytes_and_acknowledges(&data);
        }),
    ]
}
