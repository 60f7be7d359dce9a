// SPDX-License-Identifier: Apache-2.0
//! Exhaustive families about refused memory bytes: what is read afterwards
//! without setting an address shows where the address went.

use super::script::Script;
use super::transactions::PROTECTION_BORDERS;
use super::List;

/// The bytes written; they differ from one another.
const DATA: [u8; 3] = [0x5A, 0xC3, 0x96];

/// What is done from the first data byte on, the address being set.
type GoingOn = fn(&mut Script, u16);

/// Ways to end the data byte and to read on; none sets an address before its
/// first read.
const READING_ON: [(&str, GoingOn); 8] = [
    ("one byte read", |script, _| {
        script.byte_and_acknowledge(DATA[0]).stop();
        script.memory_read_current(1);
    }),
    ("three bytes read", |script, _| {
        script.byte_and_acknowledge(DATA[0]).stop();
        script.memory_read_current(3);
    }),
    ("read without a Stop", |script, _| {
        script.byte_and_acknowledge(DATA[0]);
        script.memory_read_current(2);
    }),
    ("read after a Start for the ninth clock", |script, _| {
        script.byte(DATA[0]).memory_read_current(2);
    }),
    ("read after a Stop for the ninth clock", |script, _| {
        script.byte(DATA[0]).stop().memory_read_current(2);
    }),
    ("read after a low ninth bit", |script, _| {
        script.byte(DATA[0]).acknowledge_clock(false);
        script.stop().memory_read_current(2);
    }),
    ("read after more data bytes", |script, _| {
        script.bytes_and_acknowledges(&DATA).stop();
        script.memory_read_current(2);
    }),
    ("two reads", |script, _| {
        script.byte_and_acknowledge(DATA[0]).stop();
        script.memory_read_current(1).memory_read_current(2);
    }),
];

/// Ways that have something else between the data byte and the read.
const READING_ON_LATER: [(&str, GoingOn); 8] = [
    ("read after a tick and event 7", |script, _| {
        script.byte_and_acknowledge(DATA[0]).tick().power_returned();
        script.stop().tick().memory_read_current(2);
    }),
    ("read after a companion read", |script, _| {
        script.byte_and_acknowledge(DATA[0]).stop();
        script.companion_read(0x0D, 3).memory_read_current(2);
    }),
    ("read after a first address byte alone", |script, _| {
        script.byte_and_acknowledge(DATA[0]).start();
        script.bytes_and_acknowledges(&[0xA0, 0x15]).stop();
        script.memory_read_current(2);
    }),
    ("read after an address cut at its last bit", |script, _| {
        script.byte_and_acknowledge(DATA[0]).start();
        script.bytes_and_acknowledges(&[0xA0, 0x15]);
        script.first_bits(0x55, 7).stop().memory_read_current(2);
    }),
    ("read after an unknown slave byte", |script, _| {
        script.byte_and_acknowledge(DATA[0]).start();
        script.bytes_and_acknowledges(&[0xA4, 0x01, 0x02]).stop();
        script.memory_read_current(2);
    }),
    ("read after protection was lifted", |script, _| {
        script.byte_and_acknowledge(DATA[0]).stop();
        script.companion_write(0x0E, &[0x00]).memory_read_current(2);
    }),
    ("read after the same byte again", |script, address| {
        script.byte_and_acknowledge(DATA[0]).stop();
        script.memory_write(address, &DATA[1..2]);
        script.memory_read_current(2);
    }),
    (
        "read, written and read with protection lifted",
        |script, address| {
            script.byte_and_acknowledge(DATA[0]).stop();
            script.memory_read_current(1).companion_write(0x0E, &[0x00]);
            script.memory_write(address, &DATA).memory_read_current(1);
            script.memory_read(address, 4);
        },
    ),
];

/// Every protection with every border, and every way to read on.
pub fn reading_on() -> Vec<List> {
    let mut lists = Vec::new();
    for protection in 0..4_u8 {
        for address in PROTECTION_BORDERS {
            for (way, going_on) in READING_ON.iter().chain(&READING_ON_LATER) {
                let mut script = Script::new();
                script.companion_write(0x0E, &[protection << 3]);
                script.begin_memory_write(address);
                going_on(&mut script, address);
                let name = format!("WP {protection:02b}, {address:04X}h, {way}");
                lists.push(List::from_script("reading-on", name, 18, script));
            }
        }
    }
    lists
}

/// Every protection with every border, the data byte cut after each of its
/// clocks by Start, Stop, event 5 and event 6; then two bytes are read.
pub fn data_byte_cuts() -> Vec<List> {
    let mut lists = Vec::new();
    for protection in 0..4_u8 {
        for address in PROTECTION_BORDERS {
            for clocks in 0..=9_u8 {
                for cut in [0, 1, 5, 6] {
                    let mut script = Script::new();
                    script.companion_write(0x0E, &[protection << 3]);
                    script.begin_memory_write(address);
                    script.first_bits(DATA[1], clocks.min(8));
                    if clocks == 9 {
                        script.acknowledge_clock(true);
                    }
                    script.event(cut).power_returned().memory_read_current(2);
                    let name =
                        format!("WP {protection:02b}, {address:04X}h, {clocks} clocks, {cut}");
                    lists.push(List::from_script("data-byte-cuts", name, 19, script));
                }
            }
        }
    }
    lists
}
