// SPDX-License-Identifier: Apache-2.0
//! The generators of the larger family: counts, determinism, only real events,
//! and that the lists reach what they are meant to reach.

use second::bus::{LogicalDevice, Phase, Power};
use second::family::{Device, Size, SIZES};
use second::generate::{self, FamilyList};
use std::collections::{BTreeMap, BTreeSet};

/// Family, number of lists, number of events of `family_exhaustive`, for either
/// size.
const EXHAUSTIVE_EVENTS: [(&str, usize, usize); 25] = [
    ("family-address-wraps", 54, 29_484),
    ("family-companion-addresses", 256, 76_288),
    ("family-count-controls", 512, 204_032),
    ("family-counter-tops", 324, 168_480),
    ("family-cuts", 3540, 866_784),
    ("family-data-byte-cuts", 960, 134_880),
    ("family-edges-everywhere", 5784, 1_912_104),
    ("family-edges-in-counter-writes", 1584, 332_784),
    ("family-flags-kept", 2048, 356_352),
    ("family-frozen-reads", 780, 244_036),
    ("family-handed-in", 96, 37_536),
    ("family-handed-in-addresses", 972, 59_292),
    ("family-insertions", 1416, 307_992),
    ("family-locks-and-protection", 64, 81_664),
    ("family-locks-and-supplies", 108, 97_416),
    ("family-locks-inside-writes", 240, 212_880),
    ("family-long-counts", 6, 533_998),
    ("family-memory-address-bytes", 256, 132_096),
    ("family-pairs-of-events", 6000, 973_200),
    ("family-power-everywhere", 2124, 643_236),
    ("family-power-sequences", 2592, 990_144),
    ("family-register-values", 32, 563_552),
    ("family-slave-bytes", 512, 73_216),
    ("family-write-protection", 256, 213_248),
    ("family-writes-while-frozen", 128, 48_224),
];

const EXHAUSTIVE_TOTAL: (usize, usize) = (30_644, 9_292_918);

const STRUCTURED_FAMILIES: [&str; 10] = [
    "family-cut-transactions",
    "family-edges-inside",
    "family-frozen",
    "family-locks",
    "family-memory-wraps",
    "family-ninth-bits",
    "family-power-inside",
    "family-refused-bytes",
    "family-repeated-starts",
    "family-transactions",
];

const RANDOM_FAMILIES: [&str; 8] = [
    "family-counter-traffic",
    "family-lock-traffic",
    "family-memory-traffic",
    "family-plausible-bytes",
    "family-plausible-traffic",
    "family-power-traffic",
    "family-uniform-noise",
    "family-weighted-noise",
];

#[test]
fn exhaustive_families_have_the_written_counts() {
    for size in SIZES {
        let lists = generate::family_exhaustive(size);
        let mut counts: BTreeMap<&str, (usize, usize)> = BTreeMap::new();
        let mut names = BTreeSet::new();
        for list in &lists {
            let count = counts.entry(list.family).or_insert((0, 0));
            count.0 += 1;
            count.1 += list.events.len();
            assert!(list.events.iter().all(|event| *event <= 9));
            assert!(list.state.is_well_formed(size));
            assert!(names.insert((list.family, list.name.clone())));
        }
        let found: Vec<(&str, usize, usize)> = counts
            .iter()
            .map(|(family, count)| (*family, count.0, count.1))
            .collect();
        assert_eq!(found, EXHAUSTIVE_EVENTS);
        let events = generate::count_family_events(&lists);
        assert_eq!((lists.len(), events), EXHAUSTIVE_TOTAL);
    }
}

fn families(lists: &[FamilyList]) -> Vec<&'static str> {
    let set: BTreeSet<&'static str> = lists.iter().map(|list| list.family).collect();
    set.into_iter().collect()
}

#[test]
fn other_families_are_all_there() {
    for size in SIZES {
        let structured = generate::family_structured(size, 7, 20_000);
        assert_eq!(families(&structured), STRUCTURED_FAMILIES);
        let random = generate::family_random(size, 7, 20_000);
        assert_eq!(families(&random), RANDOM_FAMILIES);
        for list in structured.iter().chain(&random) {
            assert!(list.events.iter().all(|event| *event <= 9));
            assert!(list.state.is_well_formed(size));
            assert_eq!(list.size, size);
        }
    }
}

#[test]
fn generators_are_deterministic_and_seeds_matter() {
    let size = Size::Kilobits256;
    assert_eq!(
        generate::family_exhaustive(size),
        generate::family_exhaustive(size)
    );
    for generator in [generate::family_structured, generate::family_random] {
        assert_eq!(generator(size, 5, 50_000), generator(size, 5, 50_000));
        assert_ne!(generator(size, 5, 50_000), generator(size, 6, 50_000));
        for asked in [0, 1, 50_000, 200_000] {
            let count = generate::count_family_events(&generator(size, 3, asked));
            assert!(asked <= count && count <= asked + 10_000);
        }
    }
}

/// Under every supply both addresses are those that a loss of power leaves in some
/// states handed in and not in others.
#[test]
fn addresses_are_handed_in_under_every_supply() {
    for size in SIZES {
        for lists in [
            generate::family_exhaustive(size),
            generate::family_random(size, 1, 200_000),
        ] {
            for power in [Power::On, Power::Backup, Power::Gone] {
                let states = lists.iter().map(|list| list.state);
                let states = states.filter(|state| state.power == power);
                assert!(states.clone().any(|state| state.memory_address > 0));
                assert!(states.clone().any(|state| state.companion_address > 9));
            }
        }
    }
}

/// The answers of a device that keeps its addresses at event 6 on backup.
fn answers_of_one_that_keeps_addresses(mut device: Device, events: &[u8]) -> Vec<u8> {
    let mut answers = Vec::new();
    for event in events {
        let before = (
            device.power,
            device.memory_address,
            device.companion_address,
        );
        answers.push(device.event(*event));
        if before.0 == Power::Backup && *event == 6 {
            (device.memory_address, device.companion_address) = (before.1, before.2);
        }
    }
    answers
}

/// READINGS 13 is seen in the answers of the lists with states handed in.
#[test]
fn states_handed_in_tell_a_device_that_keeps_its_addresses() {
    for size in SIZES {
        for lists in [
            generate::family_exhaustive(size),
            generate::family_random(size, 1, 1_000_000),
        ] {
            let told = lists.iter().any(|list| {
                let kept = answers_of_one_that_keeps_addresses(list.device(), &list.events);
                list.device().run(&list.events) != kept
            });
            assert!(told);
        }
    }
}

// ----- what the lists reach -----

/// A situation and the number of its kind.
type Fact = (&'static str, usize);

/// Where an event falls: 0 between transfers, else by phase and clocks.
fn place_of(device: &Device) -> usize {
    let phase = match device.transfer.phase {
        Phase::BetweenTransfers => return 0,
        Phase::SlaveByte => 0,
        Phase::MemoryAddressHighByte => 1,
        Phase::MemoryAddressLowByte => 2,
        Phase::CompanionAddressByte => 3,
        Phase::WriteData(LogicalDevice::Memory) => 4,
        Phase::WriteData(LogicalDevice::Companion) => 5,
        Phase::ReadData(LogicalDevice::Memory) => 6,
        Phase::ReadData(LogicalDevice::Companion) => 7,
    };
    1 + 9 * phase + usize::from(device.transfer.clocks)
}

const PLACES: usize = 73;

fn bit(device: &Device, place: usize, bit: u8) -> usize {
    usize::from(device.registers[place] >> bit & 1)
}

fn facts_of_event(before: &Device, event: u8, after: &Device, facts: &mut BTreeSet<Fact>) {
    let power = match before.power {
        Power::On => 0,
        Power::Backup => 1,
        Power::Gone => 2,
    };
    match event {
        8..=9 => {
            let kind = usize::from(event - 8) * 2 + bit(before, 3, 2);
            facts.insert(("edge with supplies", kind * 3 + power));
            if before.power == Power::On {
                facts.insert(("edge at", kind * PLACES + place_of(before)));
            }
            facts_of_carries(before, after, facts);
        }
        5..=7 => {
            let kind = usize::from(event - 5);
            facts.insert(("power event", kind * 3 + power));
            if before.power == Power::On {
                facts.insert(("power event at", kind * PLACES + place_of(before)));
            }
            if event == 6 && before.power != Power::Gone {
                facts.insert(("supplies lost, locked", bit(before, 2, 7)));
                facts.insert(("supplies lost, RC", bit(before, 3, 3)));
            }
        }
        2..=3 if before.power == Power::On && before.transfer.clocks == 7 => {
            facts_of_eighth_clock(before, after, facts);
        }
        _ => {}
    }
}

fn facts_of_carries(before: &Device, after: &Device, facts: &mut BTreeSet<Fact>) {
    let cascade = bit(before, 3, 2);
    for place in 0..4 {
        let rolled = before.registers[4 + place] == 0xFF && after.registers[4 + place] == 0;
        if rolled {
            facts.insert(("counter byte rolls", cascade * 4 + place));
        }
    }
    if before.registers[4..8] == [0xFF; 4] && after.registers[4..8] == [0; 4] {
        facts.insert(("the pair rolls", 0));
    }
}

fn facts_of_eighth_clock(before: &Device, after: &Device, facts: &mut BTreeSet<Fact>) {
    match before.transfer.phase {
        Phase::WriteData(LogicalDevice::Companion) => facts_of_writing(before, after, facts),
        Phase::ReadData(LogicalDevice::Companion) => facts_of_reading(before, facts),
        _ => facts_of_memory(before, after, facts),
    }
}

fn facts_of_writing(before: &Device, after: &Device, facts: &mut BTreeSet<Fact>) {
    let register = usize::from(before.companion_address - 0x09);
    let frozen = bit(before, 3, 3);
    facts.insert(("register written", register + 16 * bit(before, 2, 7)));
    if register == 3 {
        facts.insert(("RC written", frozen * 2 + bit(after, 3, 3)));
    }
    if (4..8).contains(&register) && frozen == 1 {
        facts.insert(("counter written while frozen", register));
    }
}

fn facts_of_reading(before: &Device, facts: &mut BTreeSet<Fact>) {
    let register = usize::from(before.companion_address - 0x09);
    facts.insert(("register read", register));
    let frozen = (4..8).contains(&register) && bit(before, 3, 3) == 1;
    if frozen && before.snapshot[register - 4] != before.registers[register] {
        facts.insert(("frozen byte differs", register));
    }
}

fn facts_of_memory(before: &Device, after: &Device, facts: &mut BTreeSet<Fact>) {
    let protection = usize::from(before.registers[2] >> 3 & 3);
    let last = before.size.last_address();
    let wraps = before.memory_address == last;
    match before.transfer.phase {
        Phase::WriteData(LogicalDevice::Memory) => {
            let refused = usize::from(after.between_transfers());
            facts.insert(("memory byte", protection * 2 + refused));
            if wraps {
                facts.insert(("memory wraps by a write", refused));
            }
        }
        Phase::ReadData(LogicalDevice::Memory) if wraps => {
            facts.insert(("memory wraps by a read", 0));
        }
        Phase::MemoryAddressLowByte => {
            let above = before.transfer.memory_address_high_byte > last.to_be_bytes()[0];
            facts.insert(("address bits above", usize::from(above)));
        }
        _ => {}
    }
}

fn required_facts() -> BTreeSet<Fact> {
    let mut facts = BTreeSet::new();
    let mut all = |name, count| facts.extend((0..count).map(|kind| (name, kind)));
    all("edge at", 4 * PLACES);
    all("power event", 9);
    all("power event at", 3 * PLACES);
    all("supplies lost, locked", 2);
    all("supplies lost, RC", 2);
    all("counter byte rolls", 8);
    all("the pair rolls", 1);
    all("register written", 32);
    all("register read", 16);
    all("RC written", 4);
    all("memory wraps by a write", 2);
    all("memory wraps by a read", 1);
    all("address bits above", 2);
    facts.extend((4..8).map(|kind| ("counter written while frozen", kind)));
    facts.extend((4..8).map(|kind| ("frozen byte differs", kind)));
    // with both supplies gone CC is 1 in a state handed in only
    let by_events = (0..12).filter(|kind| *kind != 5 && *kind != 11);
    facts.extend(by_events.map(|kind| ("edge with supplies", kind)));
    // no protection refuses nothing, full protection stores nothing
    facts.extend([0, 2, 3, 4, 5, 7].map(|kind| ("memory byte", kind)));
    facts
}

fn facts_of(lists: &[FamilyList]) -> BTreeSet<Fact> {
    let mut facts = BTreeSet::new();
    for list in lists {
        // the memory plays no part in the facts, so that copies are cheap
        let mut device = list.device();
        for event in &list.events {
            let memory = std::mem::take(&mut device.memory);
            let before = device.clone();
            device.memory = memory;
            device.event(*event);
            facts_of_event(&before, *event, &device, &mut facts);
        }
    }
    facts
}

fn missing(lists: &[FamilyList]) -> Vec<Fact> {
    let facts = facts_of(lists);
    required_facts().difference(&facts).copied().collect()
}

#[test]
fn exhaustive_lists_reach_everything_required() {
    for size in SIZES {
        let facts = facts_of(&generate::family_exhaustive(size));
        assert!(required_facts().is_subset(&facts));
        assert!(facts.contains(&("edge with supplies", 5)));
        assert!(facts.contains(&("edge with supplies", 11)));
    }
}

#[test]
fn structured_lists_reach_everything_required() {
    for size in SIZES {
        assert_eq!(
            missing(&generate::family_structured(size, 1, 4_000_000)),
            []
        );
    }
}

#[test]
fn random_lists_reach_everything_required() {
    for size in SIZES {
        assert_eq!(missing(&generate::family_random(size, 1, 5_000_000)), []);
    }
}

#[test]
fn the_coverage_test_can_fail() {
    assert_eq!(missing(&[]).len(), required_facts().len());
    let mut lists = generate::family_structured(Size::Kilobits64, 1, 100_000);
    for list in &mut lists {
        list.events.retain(|event| *event != 9);
    }
    let lacking = missing(&lists);
    assert!(lacking.contains(&("edge with supplies", 6)));
    assert!(!lacking.contains(&("register written", 0)));
}
