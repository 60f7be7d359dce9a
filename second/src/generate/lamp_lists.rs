// SPDX-License-Identifier: Apache-2.0
//! Lists that read the eight lamps of 02, number 11, in every way, with ticks,
//! writes and failures between.

use super::random_source::RandomSource;
use super::script::Script;
use super::transactions::unknown_slave_byte;
use super::List;

/// Lists with about so many events in all. Each begins by writing bytes, most of
/// them 1 or 0, to 1000h to 1007h.
pub fn lamps(seed: u64, approximate_events: usize) -> Vec<List> {
    let mut source = RandomSource::new(seed);
    let mut lists = Vec::new();
    let mut events = 0;
    while events < approximate_events {
        let name = format!("lamps {}", lists.len());
        let script = lamp_script(&mut source);
        events += script.events.len();
        lists.push(List::from_script("lamps", name, 0, script));
    }
    lists
}

fn lamp_script(source: &mut RandomSource) -> Script {
    let mut script = Script::new();
    let bytes = lamp_bytes(source, 8);
    script.memory_write(0x1000, &bytes);
    for _ in 0..source.between(2, 10) {
        let mut part = Script::new();
        add_step(source, &mut part);
        if source.chance(10) {
            let place = source.below(part.events.len() + 1);
            let event = source.pick(&[0, 1, 2, 3, 4, 4, 4, 4, 5, 6, 7]);
            part.events.insert(place, event);
        }
        script.events(&part.events);
    }
    script
}

fn lamp_bytes(source: &mut RandomSource, count: usize) -> Vec<u8> {
    let values = [1, 1, 1, 1, 0, 0, 3, 0x81, 0xFF];
    (0..count).map(|_| source.pick(&values)).collect()
}

/// An address of a lamp or beside them.
fn lamp_address(source: &mut RandomSource) -> u16 {
    let address = 0x0FFE + source.below(11) as u16;
    if source.chance(20) {
        address | 0xE000
    } else {
        address
    }
}

fn add_step(source: &mut RandomSource, script: &mut Script) {
    match source.below(20) {
        0..=8 => add_read(source, script),
        9..=10 => add_long_transaction(source, script),
        11 => {
            let count = source.between(1, 3);
            script.memory_read_current(count);
        }
        12..=13 => {
            let count = source.between(1, 3);
            script.ticks(count);
        }
        14 => {
            let address = lamp_address(source);
            let count = source.between(0, 4);
            script.memory_write(address, &lamp_bytes(source, count));
        }
        15 => add_companion_transaction(source, script),
        16 => add_cut_read(source, script),
        17 => add_refused_byte(source, script),
        18 => add_stray_clocks(source, script),
        _ => {
            script.event(source.pick(&[5, 6, 7]));
            script.power_returned();
        }
    }
}

/// Sets the address and reads some bytes.
fn add_read(source: &mut RandomSource, script: &mut Script) {
    begin_read(source, script);
    add_bytes_read(source, script);
    script.stop();
}

fn begin_read(source: &mut RandomSource, script: &mut Script) {
    let address = lamp_address(source);
    script.begin_memory_write(address).begin_memory_read();
}

/// Bytes read; now and then the master pulls the line low over one, and the last
/// ninth bit may be low.
fn add_bytes_read(source: &mut RandomSource, script: &mut Script) {
    let count = source.between(1, 6);
    for index in 0..count {
        let own = source.pick(&[0xFF, 0xFF, 0xFF, 0xFF, 0xFD, 0x01, 0x00]);
        let is_last = index + 1 == count;
        let ends = is_last && source.chance(80);
        script.byte(own).acknowledge_clock(ends);
    }
}

/// Several reads and writes with Starts between and one Stop.
fn add_long_transaction(source: &mut RandomSource, script: &mut Script) {
    for _ in 0..source.between(2, 3) {
        match source.below(4) {
            0 => {
                script.begin_memory_write(lamp_address(source));
                script.bytes_and_acknowledges(&lamp_bytes(source, 2));
            }
            1 => {
                script.begin_memory_read();
                add_bytes_read(source, script);
            }
            _ => {
                begin_read(source, script);
                add_bytes_read(source, script);
            }
        }
        if source.chance(20) {
            script.tick();
        }
    }
    script.stop();
}

/// The companion: a read, protection of all memory on or off, or the oscillator
/// running or not.
fn add_companion_transaction(source: &mut RandomSource, script: &mut Script) {
    match source.below(3) {
        0 => script.companion_read(source.below(15) as u8, 2),
        1 => script.companion_write(0x0E, &[source.pick(&[0x00, 0x18])]),
        _ => script.companion_write(0x01, &[source.pick(&[0x00, 0x80])]),
    };
}

/// A read that a Start or Stop ends anywhere.
fn add_cut_read(source: &mut RandomSource, script: &mut Script) {
    let mut whole = Script::new();
    add_read(source, &mut whole);
    let length = source.below(whole.events.len());
    script.events(&whole.events[..length]);
    script.event(source.pick(&[0, 1]));
}

/// A byte that is refused, and then a Start, a Stop or its ninth clock.
fn add_refused_byte(source: &mut RandomSource, script: &mut Script) {
    match source.below(3) {
        0 => {
            let byte = unknown_slave_byte(source);
            script.start().byte(byte);
        }
        1 => {
            let address = source.between(0x0F, 0xFF) as u8;
            script.begin_companion_write(0x01).start();
            script.byte_and_acknowledge(0xD0).byte(address);
        }
        _ => {
            script.companion_write(0x0E, &[0x18]);
            script.begin_memory_write(0x1000).byte(0x01);
        }
    }
    script.event(source.pick(&[0, 1, 2, 3, 4]));
    script.event(source.pick(&[1, 1, 2, 3]));
}

/// Clocks outside a transfer, and a Start or a Stop.
fn add_stray_clocks(source: &mut RandomSource, script: &mut Script) {
    for _ in 0..source.below(12) {
        let high = source.chance(50);
        script.clock(high);
    }
    script.event(source.pick(&[0, 1]));
}
