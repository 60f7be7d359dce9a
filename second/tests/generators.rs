// SPDX-License-Identifier: Apache-2.0
//! The generators: families, counts, determinism, only real events.

use second::generate::{self, fill_memory, List, RandomSource, Script};
use second::registers::STORED_BITS;
use second::{Device, Power};
use std::collections::{BTreeMap, BTreeSet};

/// Family, number of lists, number of events of `exhaustive()`.
const EXHAUSTIVE_EVENTS: [(&str, usize, usize); 27] = [
    ("address-wraps", 246, 149_820),
    ("alarm-field-values", 5, 89_340),
    ("alarm-matches", 32, 112_608),
    ("bad-date-bytes", 28, 732_928),
    ("bad-date-controls", 1056, 564_960),
    ("bad-date-cuts", 88, 46_720),
    ("bad-date-rollovers", 660, 390_456),
    ("calendar-field-values", 28, 433_664),
    ("companion-addresses", 256, 19_712),
    ("control-writes", 16, 595_392),
    ("cuts", 2325, 500_295),
    ("data-byte-cuts", 960, 88_800),
    ("flag-races", 88, 37_628),
    ("flags-kept", 8, 558_080),
    ("insertions", 930, 200_844),
    ("memory-address-bytes", 256, 66_048),
    ("month-ends", 100, 580_800),
    ("pairs-of-events", 3520, 479_680),
    ("pin-functions", 32, 6000),
    ("power-sequences", 1024, 361_472),
    ("reading-on", 384, 46_584),
    ("register-values", 60, 1_060_556),
    ("rollovers", 15, 68_244),
    ("slave-bytes", 512, 73_216),
    ("ticks-everywhere", 48, 27_072),
    ("whole-day", 1, 168_610),
    ("write-protection", 256, 213_248),
];

const EXHAUSTIVE_TOTAL: usize = 7_672_777;

/// The same for `handed_in()`.
const HANDED_IN_EVENTS: [(&str, usize, usize); 4] = [
    ("core-bytes", 680, 152_320),
    ("core-samples", 792, 237_600),
    ("register-samples", 528, 146_784),
    ("supplies-and-addresses", 432, 22_464),
];

const STRUCTURED_FAMILIES: [&str; 21] = [
    "alarms",
    "bad-dates-structured",
    "both-supplies-lost",
    "calendar-rollovers",
    "companion-wraps",
    "control-sequences",
    "cut-transactions",
    "dates-loaded",
    "flag-races-structured",
    "master-low",
    "memory-wraps",
    "ninth-bits",
    "oscillator-stopped",
    "pin-combinations",
    "power-inside",
    "reading-on-structured",
    "refused-bytes",
    "repeated-starts",
    "ticks-inside",
    "ticks-without-main",
    "transactions",
];

const RANDOM_FAMILIES: [&str; 7] = [
    "calendar-traffic",
    "plausible-bytes",
    "plausible-traffic",
    "power-traffic",
    "protected-traffic",
    "uniform-noise",
    "weighted-noise",
];

fn families(lists: &[List]) -> Vec<&'static str> {
    let set: BTreeSet<&'static str> = lists.iter().map(|list| list.family).collect();
    set.into_iter().collect()
}

fn check_lists(lists: &[List]) {
    let mut names = BTreeSet::new();
    for list in lists {
        assert!(!list.events.is_empty(), "{} {}", list.family, list.name);
        assert!(list.events.iter().all(|event| *event <= 7));
        names.insert((list.family, list.name.clone()));
    }
    assert!(!names.is_empty());
}

#[test]
fn exhaustive_families_have_the_written_counts() {
    let lists = generate::exhaustive();
    check_lists(&lists);
    let mut counts: BTreeMap<&str, (usize, usize)> = BTreeMap::new();
    for list in &lists {
        let count = counts.entry(list.family).or_insert((0, 0));
        count.0 += 1;
        count.1 += list.events.len();
    }
    let found: Vec<(&str, usize, usize)> = counts
        .iter()
        .map(|(family, count)| (*family, count.0, count.1))
        .collect();
    assert_eq!(found, EXHAUSTIVE_EVENTS);
    assert_eq!(generate::count_events(&lists), EXHAUSTIVE_TOTAL);
    assert!(generate::count_events(&lists) < 8_000_000);
}

#[test]
fn handed_in_families_have_the_written_counts() {
    let lists = generate::handed_in();
    let mut counts: BTreeMap<&str, (usize, usize)> = BTreeMap::new();
    let mut names = BTreeSet::new();
    for list in &lists {
        let count = counts.entry(list.family).or_insert((0, 0));
        count.0 += 1;
        count.1 += list.events.len();
        assert!(list.events.iter().all(|event| *event <= 7));
        assert!(names.insert((list.family, list.name.clone())));
    }
    let found: Vec<(&str, usize, usize)> = counts
        .iter()
        .map(|(family, count)| (*family, count.0, count.1))
        .collect();
    assert_eq!(found, HANDED_IN_EVENTS);
    let total: usize = HANDED_IN_EVENTS.iter().map(|family| family.2).sum();
    assert_eq!(generate::count_handed_in_events(&lists), total);
}

/// States handed in are between transfers and within the limits of 01.
#[test]
fn states_handed_in_are_within_the_limits() {
    let mut lists = generate::handed_in();
    lists.extend(generate::handed_in_random(9, 100_000));
    for list in &lists {
        let device = list.device();
        assert!(device.between_transfers());
        assert!(device.memory_address <= 0x1FFF && device.companion_address <= 0x0E);
        for (register, stored) in device.registers.iter().zip(STORED_BITS) {
            assert_eq!(register & !stored, 0, "{}", list.name);
        }
        for (byte, stored) in device.core.to_bytes().iter().zip(&STORED_BITS[2..=8]) {
            assert_eq!(byte & !stored, 0, "{}", list.name);
        }
    }
}

/// Under every supply both addresses are 0 in some states handed in and not in
/// others.
#[test]
fn addresses_are_handed_in_under_every_supply() {
    for lists in [
        generate::handed_in(),
        generate::handed_in_random(1, 200_000),
    ] {
        for power in [Power::On, Power::Backup, Power::Gone] {
            let states = lists.iter().map(|list| list.state);
            let states = states.filter(|state| state.power == power);
            assert!(states.clone().any(|state| state.memory_address > 0));
            assert!(states.clone().any(|state| state.companion_address > 0));
        }
    }
}

/// The answers of a device that keeps its addresses at event 6 on backup.
fn answers_of_one_that_keeps_addresses(mut device: Device, events: &[u8]) -> Vec<u8> {
    let mut answers = Vec::new();
    for event in events {
        let before = (
            device.power,
            device.memory_address,
            device.companion_address,
        );
        answers.push(device.event(*event));
        if before.0 == Power::Backup && *event == 6 {
            (device.memory_address, device.companion_address) = (before.1, before.2);
        }
    }
    answers
}

/// READINGS 13 is seen in the answers of the lists with states handed in.
#[test]
fn states_handed_in_tell_a_device_that_keeps_its_addresses() {
    for lists in [
        generate::handed_in(),
        generate::handed_in_random(1, 1_000_000),
    ] {
        let told = lists.iter().any(|list| {
            let kept = answers_of_one_that_keeps_addresses(list.device(), &list.events);
            list.device().run(&list.events) != kept
        });
        assert!(told);
    }
}

#[test]
fn names_within_a_family_of_exhaustive_lists_are_distinct() {
    let lists = generate::exhaustive();
    let names: BTreeSet<(&str, &str)> = lists
        .iter()
        .map(|list| (list.family, list.name.as_str()))
        .collect();
    assert_eq!(names.len(), lists.len());
}

#[test]
fn structured_families_are_all_there() {
    let lists = generate::structured(7, 60_000);
    check_lists(&lists);
    assert_eq!(families(&lists), STRUCTURED_FAMILIES);
}

#[test]
fn random_families_are_all_there() {
    let lists = generate::random(7, 10_000);
    check_lists(&lists);
    assert_eq!(families(&lists), RANDOM_FAMILIES);
}

#[test]
fn the_number_of_events_is_about_what_was_asked() {
    for asked in [0, 1, 50_000, 200_000] {
        for lists in [generate::structured(3, asked), generate::random(3, asked)] {
            let count = generate::count_events(&lists);
            assert!(count >= asked);
            assert!(count <= asked + 10_000);
        }
    }
}

#[test]
fn generators_are_deterministic() {
    assert_eq!(generate::exhaustive(), generate::exhaustive());
    assert_eq!(
        generate::structured(5, 50_000),
        generate::structured(5, 50_000)
    );
    assert_eq!(generate::random(5, 50_000), generate::random(5, 50_000));
    assert_eq!(generate::handed_in(), generate::handed_in());
    assert_eq!(
        generate::handed_in_random(5, 50_000),
        generate::handed_in_random(5, 50_000)
    );
}

#[test]
fn other_seeds_give_other_lists() {
    assert_ne!(
        generate::structured(5, 50_000),
        generate::structured(6, 50_000)
    );
    assert_ne!(generate::random(5, 50_000), generate::random(6, 50_000));
}

#[test]
fn some_random_memory_is_all_zero_and_some_is_not() {
    let lists = generate::random(5, 50_000);
    assert!(lists.iter().any(|list| list.memory_seed == 0));
    assert!(lists.iter().any(|list| list.memory_seed != 0));
}

#[test]
fn memory_is_filled_by_its_seed() {
    let mut zero = vec![9; 8192];
    fill_memory(0, &mut zero);
    assert!(zero.iter().all(|byte| *byte == 0));
    let mut first = vec![0; 8192];
    fill_memory(1, &mut first);
    let mut again = vec![7; 8192];
    fill_memory(1, &mut again);
    assert_eq!(first, again);
    let mut other = vec![0; 8192];
    fill_memory(2, &mut other);
    assert_ne!(first, other);
    let values: BTreeSet<u8> = first.iter().copied().collect();
    assert_eq!(values.len(), 256);
}

/// The first numbers for seed 0, as published for this generator.
#[test]
fn the_random_source_gives_the_known_numbers() {
    let mut source = RandomSource::new(0);
    assert_eq!(source.next_number(), 0xE220_A839_7B1D_CDAF);
    assert_eq!(source.next_number(), 0x6E78_9E6A_A1B9_65F4);
    assert_eq!(source.next_number(), 0x06C4_5D18_8009_454F);
}

#[test]
fn a_script_is_what_it_says() {
    let mut script = Script::new();
    script.start().byte(0xA0).acknowledge_clock(true).stop();
    assert_eq!(script.events, [0, 3, 2, 3, 2, 2, 2, 2, 2, 3, 1]);
    let mut script = Script::new();
    script.read_bytes(2);
    let mut expected = vec![3; 18];
    expected[8] = 2;
    assert_eq!(script.events, expected);
    let mut script = Script::new();
    script.tick().power_lost_with_backup();
    script.power_lost_without_backup().power_returned();
    assert_eq!(script.events, [4, 5, 6, 7]);
}

/// The lists of a family do what the family is for: each list of a year ticks
/// over 24 midnights, and the whole day over one.
#[test]
fn month_ends_and_the_whole_day_pass_their_midnights() {
    for list in generate::exhaustive() {
        let expected = match list.family {
            "month-ends" => 24,
            "whole-day" => 1,
            _ => continue,
        };
        let mut device = list.device();
        let mut midnights = 0;
        for event in &list.events {
            let before = device.core;
            device.event(*event);
            let after = device.core;
            if *event == 4 && before.hours == 0x23 && after.hours == 0x00 {
                midnights += 1;
            }
        }
        assert_eq!(midnights, expected, "{}", list.name);
    }
}
