// SPDX-License-Identifier: Apache-2.0
//! The lists of events that are timed. Each is one list, to be run on a fresh device.

use compare::archive;
use second::calendar::calendar_from_numbers;
use second::generate::{self, List, RandomSource, Script};

/// The number of events of each list, about.
const EVENTS: usize = 300_000;

/// The bytes of a block of memory traffic.
const BLOCK: usize = 16;

pub struct Traffic {
    pub name: &'static str,
    pub about: &'static str,
    pub memory_seed: u64,
    pub events: Vec<u8>,
}

/// All lists.
pub fn all() -> Vec<Traffic> {
    vec![
        traffic(
            "memory",
            "blocks of 16 bytes written and read",
            memory_traffic(),
        ),
        traffic(
            "registers",
            "registers written and read, a tick now and then",
            register_traffic(),
        ),
        traffic("ticks", "one-second ticks, oscillator on", tick_run()),
        traffic(
            "random",
            "second::generate::random",
            joined(generate::random(31, EVENTS)),
        ),
        traffic(
            "structured",
            "second::generate::structured",
            joined(generate::structured(30, EVENTS)),
        ),
    ]
}

fn traffic(name: &'static str, about: &'static str, events: Vec<u8>) -> Traffic {
    Traffic {
        name,
        about,
        memory_seed: 3130,
        events,
    }
}

/// Blocks of random bytes written at random addresses, and read from others, as the master's side of
/// the archive writes the events.
fn memory_traffic() -> Vec<u8> {
    let mut source = RandomSource::new(1);
    let mut events = Vec::new();
    let mut block = [0; 39 + 9 * BLOCK];
    while events.len() < EVENTS {
        let address = source.below(0x2000) as u64;
        let written = archive::write_events(address, &source.bytes(BLOCK), &mut block);
        events.extend(&block[..written.count as usize]);
        let read = archive::read_events(source.below(0x2000) as u64, BLOCK as u64, &mut block);
        events.extend(&block[..read.count as usize]);
    }
    events
}

/// Whole sets of registers written and read from random addresses on, a tick after each.
fn register_traffic() -> Vec<u8> {
    let mut source = RandomSource::new(2);
    let mut script = Script::new();
    while script.events.len() < EVENTS {
        let address = source.below(15) as u8;
        script.companion_write(address, &source.bytes(8)).tick();
        script.companion_read(source.below(15) as u8, 8).tick();
    }
    script.events
}

/// A calendar loaded, the oscillator started, and then ticks alone: three and a half days.
fn tick_run() -> Vec<u8> {
    let mut script = Script::new();
    script.companion_write(0x09, &[0x00, 0x30, 0x12, 0x80, 0x80]);
    script.load_calendar(calendar_from_numbers((22, 58, 57), 6, (27, 2, 24)), 0x08);
    script.ticks(EVENTS);
    script.events
}

/// Many lists as one: both supplies lost and power returned make the device fresh again, but for its memory.
fn joined(lists: Vec<List>) -> Vec<u8> {
    let mut script = Script::new();
    for list in lists {
        script.events(&list.events);
        script.power_lost_without_backup().power_returned();
    }
    script.events
}
