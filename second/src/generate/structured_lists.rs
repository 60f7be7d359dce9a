// SPDX-License-Identifier: Apache-2.0
//! All structured families together.

use super::random_source::RandomSource;
use super::script::Script;
use super::transactions::{plausible_alarm, plausible_calendar, plausible_memory_address};
use super::{
    structured_bad_dates, structured_bus, structured_calendar, structured_companion,
    structured_refused, List,
};

/// Structured lists with about so many events in all. Every round makes lists
/// of each family; within a round the families take turns, so that also a small
/// number of events holds something of each.
pub fn structured(seed: u64, approximate_events: usize) -> Vec<List> {
    let mut source = RandomSource::new(seed);
    let mut lists = Vec::new();
    let mut events = 0;
    while events < approximate_events {
        for list in take_turns(one_round(&mut source)) {
            if events >= approximate_events {
                break;
            }
            events += list.events.len();
            lists.push(list);
        }
    }
    lists
}

/// How often a round repeats the families that have few lists.
const REPEATS_OF_SMALL_FAMILIES: usize = 3;

/// The lists of every family for one round.
fn one_round(source: &mut RandomSource) -> Vec<Vec<List>> {
    let mut families = vec![
        structured_bus::cut_transactions(source),
        structured_bus::power_events_inside(source),
    ];
    for _ in 0..REPEATS_OF_SMALL_FAMILIES {
        families.extend(small_families(source));
    }
    families
}

fn small_families(source: &mut RandomSource) -> Vec<Vec<List>> {
    vec![
        structured_bus::transactions(source),
        structured_bus::repeated_starts(source),
        structured_bus::refused_bytes(source),
        structured_refused::reading_on(source),
        structured_bus::master_low_while_device_sends(source),
        structured_bus::ninth_bits(source),
        structured_bus::memory_wraps(source),
        structured_bus::ticks_inside(source),
        structured_companion::control_sequences(source),
        structured_companion::flag_races(source),
        structured_companion::companion_wraps(source),
        structured_companion::pin_combinations(source),
        structured_companion::both_supplies_lost(source),
        structured_bad_dates::bad_dates(source),
        structured_calendar::dates_loaded(source),
        structured_calendar::alarms(source),
        structured_calendar::calendar_rollovers(source),
        structured_calendar::oscillator_stopped(source),
        structured_calendar::ticks_without_main_power(source),
    ]
}

/// The first list of each family, then the second of each, and so on.
fn take_turns(families: Vec<Vec<List>>) -> Vec<List> {
    let longest = families.iter().map(Vec::len).max().unwrap_or(0);
    let mut turns = Vec::new();
    for index in 0..longest {
        for family in &families {
            if let Some(list) = family.get(index) {
                turns.push(list.clone());
            }
        }
    }
    turns
}

/// Puts a device into some plausible state: a loaded calendar, an alarm near
/// it, any protection, any control bits, some ticks, both addresses set.
pub fn plausible_settings(source: &mut RandomSource, script: &mut Script) {
    let calendar = plausible_calendar(source);
    let alarm = plausible_alarm(source, calendar);
    script.companion_write(0x09, &alarm);
    let protection = source.pick(&[0x00, 0x00, 0x08, 0x10, 0x18]);
    script.companion_write(0x0E, &[source.byte() & 0xE7 | protection]);
    script.load_calendar(calendar, source.byte() & 0x9C);
    if source.chance(50) {
        script.companion_write(0x00, &[source.byte()]);
    }
    script.ticks(source.below(3));
    script.begin_memory_write(plausible_memory_address(source));
    script.begin_companion_write(source.below(15) as u8).stop();
}

/// A list of a structured family; its memory is preset.
pub fn structured_list(
    source: &mut RandomSource,
    family: &'static str,
    name: String,
    script: Script,
) -> List {
    let memory_seed = source.next_number() | 1;
    List::from_script(family, name, memory_seed, script)
}
