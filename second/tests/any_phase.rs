// SPDX-License-Identifier: Apache-2.0
//! States handed in of any phase: they are within the limits, they are all there,
//! and no event leads from them out of the limits.

use second::bus::{LogicalDevice, Phase, Power, Transfer};
use second::family::{self, run_set, Size, SIZES};
use second::generate::{self, any_family_state_in_any_phase, any_state_in_any_phase, RandomSource};
use second::State;
use std::collections::BTreeSet;

const POWERS: [Power; 3] = [Power::On, Power::Backup, Power::Gone];

const STATES: usize = 12_000;

/// Phase and clocks as one number: 0 between transfers, 10 to 88 inside one.
fn place_of(transfer: &Transfer) -> usize {
    let phase = match transfer.phase {
        Phase::BetweenTransfers => 0,
        Phase::SlaveByte => 1,
        Phase::MemoryAddressHighByte => 2,
        Phase::MemoryAddressLowByte => 3,
        Phase::CompanionAddressByte => 4,
        Phase::WriteData(LogicalDevice::Memory) => 5,
        Phase::WriteData(LogicalDevice::Companion) => 6,
        Phase::ReadData(LogicalDevice::Memory) => 7,
        Phase::ReadData(LogicalDevice::Companion) => 8,
    };
    10 * phase + usize::from(transfer.clocks)
}

/// Between transfers, and 0 to 8 clocks of each kind of byte.
fn every_place() -> BTreeSet<usize> {
    let inside = (1..=8).flat_map(|phase| (0..=8).map(move |clocks| 10 * phase + clocks));
    inside.chain([0]).collect()
}

/// A state's power, transfer and whether each address is another than a loss of
/// power leaves.
type Standing = (Power, Transfer, [bool; 2]);

fn standing_of(state: &State) -> Standing {
    let addresses = [state.memory_address > 0, state.companion_address > 0];
    (state.power, state.transfer, addresses)
}

fn family_standing_of(state: &family::State) -> Standing {
    let addresses = [state.memory_address > 0, state.companion_address > 9];
    (state.power, state.transfer, addresses)
}

fn check_standings(standings: &[Standing]) {
    let with = |power| standings.iter().filter(move |one| one.0 == power);
    let places: BTreeSet<usize> = with(Power::On).map(|one| place_of(&one.1)).collect();
    assert_eq!(places, every_place());
    for power in [Power::Backup, Power::Gone] {
        assert!(with(power).all(|one| one.1 == Transfer::none()));
    }
    for power in POWERS {
        for address in 0..2 {
            assert!(with(power).any(|one| one.2[address]));
            assert!(with(power).any(|one| !one.2[address]));
        }
    }
}

#[test]
fn every_phase_of_the_fm3130_is_handed_in() {
    let mut source = RandomSource::new(131);
    let states = (0..STATES).map(|_| any_state_in_any_phase(&mut source));
    let states: Vec<State> = states.collect();
    assert!(states.iter().all(State::is_well_formed));
    let standings: Vec<Standing> = states.iter().map(standing_of).collect();
    check_standings(&standings);
}

#[test]
fn every_phase_of_the_family_is_handed_in() {
    for size in SIZES {
        let mut source = RandomSource::new(132);
        let states = (0..STATES).map(|_| any_family_state_in_any_phase(&mut source, size));
        let states: Vec<family::State> = states.collect();
        assert!(states.iter().all(|state| state.is_well_formed(size)));
        let standings: Vec<Standing> = states.iter().map(family_standing_of).collect();
        check_standings(&standings);
    }
}

#[test]
fn events_keep_the_limits_of_the_fm3130() {
    for list in generate::handed_in_any_phase(133, 300_000) {
        let mut device = list.device();
        for event in &list.events {
            device.event(*event);
            assert!(State::of(&device).is_well_formed(), "{}", list.name);
        }
    }
}

#[test]
fn events_keep_the_limits_of_the_family() {
    for list in SIZES
        .into_iter()
        .flat_map(|size| generate::family_any_phase(size, 134, 300_000))
    {
        let mut device = list.device();
        for event in &list.events {
            device.event(*event);
            let state = family::State::of(&device);
            assert!(state.is_well_formed(list.size), "{}", list.name);
        }
    }
}

/// Sets are handed in with none to four devices inside transfers, and their lists
/// are answered.
#[test]
fn sets_are_handed_in_inside_transfers() {
    let mut inside = BTreeSet::new();
    for list in generate::set_any_phase(135, 400_000) {
        let mut set = list.set();
        let devices = set.devices.iter().filter(|one| !one.between_transfers());
        inside.insert(devices.count());
        let answered = run_set(list.members(), &list.events, list.events.len());
        let answered = answered.expect("accepted");
        let answers: Vec<u8> = list.events.iter().map(|event| set.event(*event)).collect();
        assert_eq!(answered.answers, answers);
        assert!(answered.set == set, "{}", list.name);
    }
    assert_eq!(inside, BTreeSet::from([0, 1, 2, 3, 4]));
}

#[test]
fn the_lists_are_deterministic_and_seeds_matter() {
    let size = Size::Kilobits64;
    let fm3130 = generate::handed_in_any_phase;
    assert_eq!(fm3130(5, 50_000), fm3130(5, 50_000));
    assert_ne!(fm3130(5, 50_000), fm3130(6, 50_000));
    let family = |seed| generate::family_any_phase(size, seed, 50_000);
    assert_eq!(family(5), family(5));
    assert_ne!(family(5), family(6));
    let sets = |seed| generate::set_any_phase(seed, 50_000);
    assert_eq!(sets(5), sets(5));
    assert_ne!(sets(5), sets(6));
}
