// SPDX-License-Identifier: Apache-2.0
//! Random lists: pure noise, noise by weights, and plausible traffic with
//! disturbances.

use super::random_source::RandomSource;
use super::script::Script;
use super::structured_refused::{something_between, write_at};
use super::transactions::{
    doubtful_calendar, plausible_alarm, plausible_calendar, plausible_memory_address,
    random_transactions, PROTECTION_BORDERS,
};
use super::List;
use crate::device::{CLOCK_HIGH, CLOCK_LOW, START, STOP, TICK};

/// The number of events of one random list, about.
const EVENTS_OF_A_LIST: usize = 800;

/// Random lists with about so many events in all; the families take turns.
pub fn random(seed: u64, approximate_events: usize) -> Vec<List> {
    let mut source = RandomSource::new(seed);
    let mut lists: Vec<List> = Vec::new();
    let mut events = 0;
    while events < approximate_events {
        let number = lists.len();
        let (family, script) = match number % 7 {
            0 => ("uniform-noise", uniform_noise(&mut source)),
            1 => ("weighted-noise", weighted_noise(&mut source)),
            2 => ("plausible-bytes", plausible_bytes(&mut source)),
            3 => ("plausible-traffic", plausible_traffic(&mut source)),
            4 => ("calendar-traffic", calendar_traffic(&mut source)),
            5 => ("protected-traffic", protected_traffic(&mut source)),
            _ => ("power-traffic", power_traffic(&mut source)),
        };
        let memory_seed = if source.chance(20) {
            0
        } else {
            source.next_number()
        };
        let name = format!("seed {seed}, list {number}");
        events += script.events.len();
        lists.push(List::from_script(family, name, memory_seed, script));
    }
    lists
}

/// Every event as likely as any other.
fn uniform_noise(source: &mut RandomSource) -> Script {
    let mut script = Script::new();
    for _ in 0..EVENTS_OF_A_LIST {
        script.event(source.below(8) as u8);
    }
    script
}

/// Mostly clocks; now and then something else.
fn weighted_noise(source: &mut RandomSource) -> Script {
    let mut script = Script::new();
    for _ in 0..EVENTS_OF_A_LIST {
        let event = match source.below(200) {
            0..=9 => START,
            10..=11 => STOP,
            12..=19 => TICK,
            20 => source.between(5, 7) as u8,
            21..=110 => CLOCK_LOW,
            _ => CLOCK_HIGH,
        };
        script.event(event);
    }
    script
}

/// A byte that is likely to mean something at some place of a transfer.
fn plausible_byte(source: &mut RandomSource) -> u8 {
    match source.below(8) {
        0..=1 => source.pick(&[0xA0, 0xA1, 0xD0, 0xD1]),
        2..=3 => source.below(16) as u8,
        4 => source.pick(&[0x07, 0x08, 0x0F, 0x10, 0x1F, 0xFF, 0xFE, 0x00]),
        5 => source.pick(&[
            0x00, 0x01, 0x02, 0x03, 0x04, 0x09, 0x59, 0x23, 0x12, 0x31, 0x99,
        ]),
        _ => source.byte(),
    }
}

/// Starts, then bytes by plausibility whatever the protocol expects.
fn plausible_bytes(source: &mut RandomSource) -> Script {
    let mut script = Script::new();
    if source.chance(70) {
        script.companion_write(0x01, &[0x00]);
    }
    while script.events.len() < EVENTS_OF_A_LIST {
        let slave = source.pick(&[0xA0, 0xA1, 0xD0, 0xD0, 0xD1]);
        script.start().byte_and_acknowledge(slave);
        for _ in 0..source.between(1, 8) {
            script.byte(plausible_byte(source));
            script.acknowledge_clock(source.chance(30));
            script.ticks(source.below(8) / 7);
        }
        match source.below(12) {
            0..=7 => script.stop(),
            8 => script.event(source.between(4, 7) as u8),
            _ => &mut script,
        };
    }
    script.power_returned();
    script
}

/// Adds events with rare disturbances between them: ticks, wrong bits, lost
/// events, Starts, Stops and power events, about 20 in `rarity` events.
fn add_disturbed(source: &mut RandomSource, script: &mut Script, rarity: usize, events: &[u8]) {
    for event in events {
        match source.below(rarity) {
            0..=11 => script.tick().event(*event),
            12..=13 => script.event(*event ^ 1),
            14..=16 => script.event(source.below(2) as u8).event(*event),
            17..=18 => power_disturbance(source, script).event(*event),
            19 => script,
            _ => script.event(*event),
        };
    }
}

/// Power is lost and most often returns at once.
fn power_disturbance<'a>(source: &mut RandomSource, script: &'a mut Script) -> &'a mut Script {
    script.event(source.pick(&[5, 5, 6, 7]));
    if source.chance(70) {
        script.power_returned();
    }
    script
}

/// Transactions of every kind in any order, disturbed.
fn plausible_traffic(source: &mut RandomSource) -> Script {
    let mut script = Script::new();
    script.companion_write(0x01, &[0x00]);
    let protection = source.pick(&[0x00, 0x00, 0x08, 0x10, 0x18]);
    script.companion_write(0x0E, &[protection | source.byte() & 0xE0]);
    while script.events.len() < EVENTS_OF_A_LIST {
        let mut all = random_transactions(source);
        let chosen = all.remove(source.below(all.len()));
        add_disturbed(source, &mut script, 300, &chosen.script.events);
        if source.chance(80) {
            script.stop();
        }
        if source.chance(30) {
            script.power_returned();
        }
    }
    script.power_returned();
    script
}

/// Writes to and over the borders of protection that changes now and then, and
/// reads that set no address; disturbed.
fn protected_traffic(source: &mut RandomSource) -> Script {
    let mut script = Script::new();
    while script.events.len() < EVENTS_OF_A_LIST {
        let mut part = Script::new();
        if source.chance(40) {
            let protection = source.pick(&[0x00, 0x08, 0x10, 0x18]);
            part.companion_write(0x0E, &[source.byte() & 0xE7 | protection]);
        }
        let border = source.pick(&PROTECTION_BORDERS);
        write_at(source, &mut part, border);
        something_between(source, &mut part);
        part.memory_read_current(source.between(1, 3));
        add_disturbed(source, &mut script, 4000, &part.events);
        script.power_returned();
    }
    script
}

/// Calendars and alarms loaded, ticks, reads; disturbed.
fn calendar_traffic(source: &mut RandomSource) -> Script {
    let mut script = Script::new();
    while script.events.len() < EVENTS_OF_A_LIST {
        let calendar = if source.chance(75) {
            plausible_calendar(source)
        } else {
            doubtful_calendar(source)
        };
        let alarm = plausible_alarm(source, calendar);
        let mut part = Script::new();
        part.companion_write(0x09, &alarm);
        part.companion_write(0x0E, &[0x80 | source.byte()]);
        part.load_calendar(calendar, source.byte() & 0xFD);
        part.ticks(source.between(1, 3));
        if source.chance(40) {
            part.companion_write(0x00, &[source.byte()]).tick();
        }
        if source.chance(15) {
            part.companion_write(0x01, &[source.byte()]).tick();
        }
        if source.chance(60) {
            read_control_with_ticks(source, &mut part);
        } else {
            part.companion_read(source.below(15) as u8, source.between(1, 16));
        }
        script.power_returned();
        add_disturbed(source, &mut script, 4000, &part.events);
    }
    script.power_returned();
    script
}

/// Reads 00h twice with ticks between the clocks.
fn read_control_with_ticks(source: &mut RandomSource, script: &mut Script) {
    for _ in 0..2 {
        script.begin_companion_write(0x00).begin_companion_read();
        for _ in 0..9 {
            if source.chance(10) {
                script.tick();
            }
            script.clock(true);
        }
        if source.chance(50) {
            script.stop();
        }
    }
}

/// Many power events between short transfers.
fn power_traffic(source: &mut RandomSource) -> Script {
    let mut script = Script::new();
    while script.events.len() < EVENTS_OF_A_LIST {
        for _ in 0..source.between(1, 4) {
            script.event(source.pick(&[4, 5, 5, 6, 7, 7, 7]));
        }
        let mut part = Script::new();
        match source.below(4) {
            0 => part.companion_write(0x00, &[source.byte(), source.byte() & 0x7F]),
            1 => part.memory_write(plausible_memory_address(source), &source.bytes(2)),
            2 => part.companion_read(source.below(15) as u8, 3),
            _ => part.memory_read_current(2),
        };
        add_disturbed(source, &mut script, 300, &part.events);
    }
    script
}
