// SPDX-License-Identifier: Apache-2.0
//! Random lists: noise of all ten events, noise by weights, and plausible
//! traffic with disturbances; half of them on a device in any state.

use super::fixed::{CC, RC};
use super::random_parts::{
    any_counters, any_edges, any_family_state, any_memory_address, any_register, any_transactions,
};
use super::{list_by_chance, FamilyList};
use crate::bus::{Power, CLOCK_HIGH, CLOCK_LOW, START, STOP};
use crate::family::{Size, State};
use crate::generate::random_source::RandomSource;
use crate::generate::script::Script;
use crate::generate::starting_state::{begin_with, power_back};

/// The number of events of one random list, about.
const EVENTS_OF_A_LIST: usize = 800;

/// Random lists for a size with about so many events in all; the families take
/// turns.
pub fn family_random(size: Size, seed: u64, approximate_events: usize) -> Vec<FamilyList> {
    let mut source = RandomSource::new(seed);
    let mut lists: Vec<FamilyList> = Vec::new();
    let mut events = 0;
    while events < approximate_events {
        let number = lists.len();
        let (family, mut script) = one_list(&mut source, size, number);
        let name = format!("seed {seed}, list {number}");
        events += script.events.len();
        let state = if source.chance(50) {
            State::fresh()
        } else {
            any_family_state(&mut source, size)
        };
        if state.power != Power::On && source.chance(50) {
            begin_with(&power_back(&mut source), &mut script.events);
        }
        lists.push(list_by_chance(
            &mut source,
            size,
            family,
            name,
            state,
            script,
        ));
    }
    lists
}

fn one_list(source: &mut RandomSource, size: Size, number: usize) -> (&'static str, Script) {
    match number % 8 {
        0 => ("family-uniform-noise", uniform_noise(source)),
        1 => ("family-weighted-noise", weighted_noise(source)),
        2 => ("family-plausible-bytes", plausible_bytes(source, size)),
        3 => ("family-plausible-traffic", plausible_traffic(source, size)),
        4 => ("family-counter-traffic", counter_traffic(source)),
        5 => ("family-lock-traffic", lock_traffic(source)),
        6 => ("family-memory-traffic", memory_traffic(source, size)),
        _ => ("family-power-traffic", power_traffic(source, size)),
    }
}

/// Every event as likely as any other.
fn uniform_noise(source: &mut RandomSource) -> Script {
    let mut script = Script::new();
    for _ in 0..EVENTS_OF_A_LIST {
        script.event(source.below(10) as u8);
    }
    script
}

/// Mostly clocks; now and then something else.
fn weighted_noise(source: &mut RandomSource) -> Script {
    let mut script = Script::new();
    for _ in 0..EVENTS_OF_A_LIST {
        let event = match source.below(200) {
            0..=9 => START,
            10..=11 => STOP,
            12..=19 => source.pick(&[4, 8, 8, 9, 9]),
            20 => source.between(5, 7) as u8,
            21..=110 => CLOCK_LOW,
            _ => CLOCK_HIGH,
        };
        script.event(event);
    }
    script
}

/// A byte that is likely to mean something at some place of a transfer.
fn plausible_byte(source: &mut RandomSource, size: Size) -> u8 {
    match source.below(6) {
        0 => source.pick(&[0xA0, 0xA1, 0xD0, 0xD1]),
        1 => any_register(source),
        2 => (any_memory_address(source, size) >> 8) as u8,
        3 => source.pick(&[0x00, 0x08, 0x0C, 0x80, 0x98, 0xFF, 0xFE]),
        _ => source.byte(),
    }
}

/// Starts, then bytes by plausibility whatever the protocol expects.
fn plausible_bytes(source: &mut RandomSource, size: Size) -> Script {
    let mut script = Script::new();
    while script.events.len() < EVENTS_OF_A_LIST {
        let slave = source.pick(&[0xA0, 0xA1, 0xD0, 0xD0, 0xD1]);
        script.start().byte_and_acknowledge(slave);
        for _ in 0..source.between(1, 8) {
            script.byte(plausible_byte(source, size));
            script.acknowledge_clock(source.chance(30));
            any_edges(source, &mut script, 1);
        }
        match source.below(12) {
            0..=7 => script.stop(),
            8 => script.event(source.between(4, 9) as u8),
            _ => &mut script,
        };
    }
    script.power_returned();
    script
}

/// Adds events with rare disturbances between them: ticks, edges, wrong bits,
/// lost events, Starts, Stops and power events, about 20 in `rarity` events.
fn add_disturbed(source: &mut RandomSource, script: &mut Script, rarity: usize, events: &[u8]) {
    for event in events {
        match source.below(rarity) {
            0..=11 => {
                script.event(source.pick(&[4, 8, 9])).event(*event);
            }
            12..=13 => {
                // the other one of Start and Stop, or of the two Clocks
                script.event(if *event <= 3 { *event ^ 1 } else { *event });
            }
            14..=16 => {
                script.event(source.below(2) as u8).event(*event);
            }
            17..=18 => {
                script.event(source.pick(&[5, 6, 7, 7]));
                if source.chance(70) {
                    script.power_returned();
                }
                script.event(*event);
            }
            19 => {}
            _ => {
                script.event(*event);
            }
        }
    }
}

/// Transactions of every kind in any order, disturbed.
fn plausible_traffic(source: &mut RandomSource, size: Size) -> Script {
    let mut script = Script::new();
    let rarity = source.pick(&[40, 100, 300]);
    let protection = source.pick(&[0x00, 0x00, 0x08, 0x10, 0x18]);
    script.companion_write(0x0B, &[protection | source.byte() & 0x07]);
    script.companion_write(0x0C, &[source.pick(&[0x00, CC])]);
    while script.events.len() < EVENTS_OF_A_LIST {
        let mut all = any_transactions(source, size);
        let (_, chosen) = all.remove(source.below(all.len()));
        add_disturbed(source, &mut script, rarity, &chosen.events);
        if source.chance(80) {
            script.stop();
        }
        if source.chance(30) {
            script.power_returned();
        }
    }
    script.power_returned();
    script
}

/// Memory writes and reads around the borders of a protection that changes now
/// and then, with many edges; disturbed.
fn memory_traffic(source: &mut RandomSource, size: Size) -> Script {
    let mut script = Script::new();
    script.companion_write(0x0C, &[source.pick(&[0x00, CC])]);
    while script.events.len() < EVENTS_OF_A_LIST {
        let mut part = Script::new();
        if source.chance(20) {
            let protection = source.pick(&[0x00, 0x08, 0x10, 0x18]);
            part.companion_write(0x0B, &[protection]);
        }
        let count = source.between(1, 4);
        part.memory_write(any_memory_address(source, size), &source.bytes(count));
        part.memory_read_current(source.between(1, 3));
        let rarity = source.pick(&[60, 400]);
        add_disturbed(source, &mut script, rarity, &part.events);
        script.power_returned();
    }
    script
}

/// Counters written, counted, frozen and read; disturbed.
fn counter_traffic(source: &mut RandomSource) -> Script {
    let mut script = Script::new();
    while script.events.len() < EVENTS_OF_A_LIST {
        let mut part = Script::new();
        match source.below(4) {
            0 => {
                part.companion_write(0x0D, &any_counters(source));
            }
            1 => {
                let control = source.pick(&[0x00, CC, RC, RC | CC]);
                part.companion_write(0x0C, &[control]);
            }
            2 => {
                let address = source.between(0x0B, 0x10) as u8;
                part.companion_read(address, source.between(1, 6));
            }
            _ => any_edges(source, &mut part, 6),
        }
        add_disturbed(source, &mut script, 200, &part.events);
        script.power_returned();
    }
    script
}

/// Writes of 0Bh and of the serial number, reads, and losses of supplies.
fn lock_traffic(source: &mut RandomSource) -> Script {
    let mut script = Script::new();
    let lock_comes_at = source.below(EVENTS_OF_A_LIST);
    while script.events.len() < EVENTS_OF_A_LIST {
        let mut part = Script::new();
        let may_lock = script.events.len() >= lock_comes_at;
        let kept = if may_lock { 0xFF } else { 0x7F };
        match source.below(4) {
            0 => {
                part.companion_write(0x0B, &[source.byte() & kept]);
            }
            1 => {
                let address = source.between(0x10, 0x18) as u8;
                let count = source.between(1, 9);
                part.companion_write(address, &source.bytes(count));
            }
            2 => {
                part.companion_read(0x11, 8);
            }
            _ => {
                part.event(source.pick(&[5, 6])).power_returned();
            }
        }
        add_disturbed(source, &mut script, 4000, &part.events);
        script.power_returned();
    }
    script
}

/// Many power events and edges between short transfers.
fn power_traffic(source: &mut RandomSource, size: Size) -> Script {
    let mut script = Script::new();
    while script.events.len() < EVENTS_OF_A_LIST {
        for _ in 0..source.between(1, 4) {
            script.event(source.pick(&[4, 5, 5, 6, 7, 7, 7, 8, 9]));
        }
        let mut part = Script::new();
        match source.below(4) {
            0 => part.companion_write(any_register(source), &source.bytes(2)),
            1 => part.memory_write(any_memory_address(source, size), &source.bytes(2)),
            2 => part.companion_read(any_register(source), 3),
            _ => part.memory_read_current(2),
        };
        add_disturbed(source, &mut script, 300, &part.events);
    }
    script
}
