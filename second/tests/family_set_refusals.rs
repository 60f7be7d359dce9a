// SPDX-License-Identifier: Apache-2.0
//! Four on a wire (02, number 12): what is refused when a set is made, and when a
//! list is run on devices handed in.

use second::bus::{Phase, Power};
use second::family::{run_set, Device, Member, Set, SetAnswered, Size, State};
use second::generate::{self, RandomSource, SetCall, SetCallPlace};
use second::host;
use std::collections::{BTreeMap, BTreeSet};

const SET_CALLS: usize = 1710;

const SET_RUNS: usize = 4960;

/// A fresh device.
fn member(selects: u8) -> Member {
    let size = Size::Kilobits64;
    Member {
        size,
        selects,
        state: State::fresh(),
        memory: vec![0; size.bytes()],
    }
}

fn set_of(selects: &[u8]) -> Set {
    let members = selects.iter().map(|selects| member(*selects));
    Set::make(members.collect()).expect("nothing to refuse")
}

/// What a set is made of that stands as this one.
fn members_of(set: &Set) -> Vec<Member> {
    let devices = set.devices.iter();
    devices
        .map(|device| Member {
            size: device.size,
            selects: device.selects,
            state: State::of(device),
            memory: device.memory.clone(),
        })
        .collect()
}

// ----- what is due -----

/// 9, then 1, then 2, each asked of all devices; else 0.
fn number_of_devices(places: &[SetCallPlace]) -> u8 {
    if places.is_empty() || places.len() > 4 {
        9
    } else if places
        .iter()
        .any(|one| one.memory_bytes != one.size.bytes())
    {
        1
    } else if places.iter().any(|one| one.state.companion_address < 9) {
        2
    } else {
        0
    }
}

/// 3, then 4; else 0.
fn number_of_events(call: &SetCall) -> u8 {
    let last = 7 + 2 * call.places.len();
    if call.events.iter().any(|event| usize::from(*event) > last) {
        3
    } else if call.room < call.events.len() {
        4
    } else {
        0
    }
}

/// 10 or 0.
fn number_of_selects(places: &[SetCallPlace]) -> u8 {
    let selects: BTreeSet<u8> = places.iter().map(|one| one.selects).collect();
    10 * u8::from(selects.len() < places.len())
}

/// The devices that have a transfer under way.
fn inside(places: &[SetCallPlace]) -> Vec<State> {
    let states = places.iter().map(|one| one.state);
    states
        .filter(|state| state.transfer.phase != Phase::BetweenTransfers)
        .collect()
}

/// 11 or 0 for a run: one device may be anywhere, several are all in the same part
/// of a slave byte, and none is without main power.
fn number_of_standing(places: &[SetCallPlace]) -> u8 {
    let inside = inside(places);
    let received = |state: &State| {
        let transfer = state.transfer;
        let in_slave_byte = transfer.phase == Phase::SlaveByte && transfer.clocks < 8;
        in_slave_byte.then(|| transfer.received_bits[..usize::from(transfer.clocks)].to_vec())
    };
    let alike = inside
        .iter()
        .all(|one| received(one).is_some() && received(one) == received(&inside[0]));
    let powered = inside.iter().all(|one| one.power == Power::On);
    11 * u8::from(!powered || inside.len() > 1 && !alike)
}

fn first_number(numbers: &[u8]) -> u8 {
    let given = numbers.iter().find(|number| **number > 0);
    given.copied().unwrap_or(0)
}

/// The number that the making of a set is due.
fn number_of_making(places: &[SetCallPlace]) -> u8 {
    first_number(&[
        number_of_devices(places),
        number_of_selects(places),
        11 * u8::from(!inside(places).is_empty()),
    ])
}

/// The number that a list on devices handed in is due.
fn number_of_running(call: &SetCall) -> u8 {
    first_number(&[
        number_of_devices(&call.places),
        number_of_events(call),
        number_of_selects(&call.places),
        number_of_standing(&call.places),
    ])
}

// ----- what is given -----

/// 9, 1, 2, 10 and 11 when the set is made, then 3 and 4 when a list is run; a
/// refusal changes nothing.
#[test]
fn refusals_in_order() {
    let calls = generate::set_calls();
    assert_eq!(calls.len(), SET_CALLS);
    let mut given = BTreeSet::new();
    for call in calls {
        let making = number_of_making(&call.places);
        given.insert(making);
        let made = Set::make(call.members());
        let Ok(mut set) = made else {
            assert_eq!(made.err(), Some(making), "{}", call.name);
            continue;
        };
        assert_eq!(making, 0, "{}", call.name);
        let before = set.clone();
        let running = number_of_events(&call);
        given.insert(running);
        match set.run(&call.events, call.room) {
            Ok(answers) => assert_eq!((answers.len(), running), (call.events.len(), 0)),
            Err(number) => {
                assert_eq!(number, running, "{}", call.name);
                assert!(set == before);
            }
        }
    }
    assert_eq!(given, BTreeSet::from([0, 1, 2, 3, 4, 10, 11]));
}

/// 9, 1, 2, 3, 4, 10 and 11 when a list is run on devices handed in, in this
/// order; else the list is that of the set, event by event.
#[test]
fn runs_in_order() {
    let mut calls = generate::set_runs();
    assert_eq!(calls.len(), SET_RUNS);
    calls.extend(generate::set_calls());
    let mut given: BTreeMap<u8, usize> = BTreeMap::new();
    for call in calls {
        let due = number_of_running(&call);
        *given.entry(due).or_insert(0) += 1;
        let answered = run_set(call.members(), &call.events, call.room);
        assert_eq!(answered.as_ref().err().copied().unwrap_or(0), due);
        if let Ok(SetAnswered { set, answers }) = answered {
            let mut alone = Set::of(call.members()).expect("accepted");
            let expected: Vec<u8> = call.events.iter().map(|one| alone.event(*one)).collect();
            assert_eq!(answers, expected, "{}", call.name);
            assert!(set == alone, "{}", call.name);
        }
    }
    let numbers: Vec<u8> = given.keys().copied().collect();
    assert_eq!(numbers, [0, 1, 2, 3, 4, 9, 10, 11]);
    assert!(given.values().all(|count| *count > 30), "{given:?}");
}

/// The same devices when a set is made, or asked for without events.
#[test]
fn devices_handed_in_are_made_or_refused() {
    for call in generate::set_runs() {
        let making = number_of_making(&call.places);
        let made = Set::make(call.members()).err();
        assert_eq!(made.unwrap_or(0), making, "{}", call.name);
        let standing = first_number(&[
            number_of_devices(&call.places),
            number_of_selects(&call.places),
            number_of_standing(&call.places),
        ]);
        let of = Set::of(call.members()).err();
        assert_eq!(of.unwrap_or(0), standing, "{}", call.name);
    }
}

/// "up to four devices": 9 comes before every other number.
#[test]
fn none_or_more_than_four_are_no_set() {
    let spoilt = Member {
        memory: Vec::new(),
        ..member(9)
    };
    for count in [0, 5, 6, 255, 256] {
        let members = vec![spoilt.clone(); count];
        assert_eq!(Set::make(members.clone()).err(), Some(9));
        assert_eq!(Set::of(members.clone()).err(), Some(9));
        assert_eq!(run_set(members, &[255], 0).err(), Some(9));
    }
    assert_eq!(Set::make(vec![spoilt; 4]).err(), Some(1));
}

/// Two devices that would both send, or one that has a transfer without main
/// power, stand as in no set that was made.
#[test]
fn devices_in_each_others_way_are_refused_when_a_list_is_run() {
    let mut alone = set_of(&[1]);
    host::begin(&mut alone, 0xA3);
    let mut other = set_of(&[2]);
    host::begin(&mut other, 0xA5);
    let sends = members_of(&alone).remove(0);
    let sends_too = members_of(&other).remove(0);
    let waits = member(3);
    let numbers = |members: &[Member]| run_set(members.to_vec(), &[3, 3], 2).err();
    assert_eq!(numbers(&[sends.clone(), waits.clone()]), None);
    assert_eq!(numbers(&[waits.clone(), sends_too.clone()]), None);
    assert_eq!(numbers(&[sends.clone(), sends_too]), Some(11));
    for power in [Power::Backup, Power::Gone] {
        let mut unpowered = sends.clone();
        unpowered.state.power = power;
        assert_eq!(numbers(&[unpowered, waits.clone()]), Some(11));
    }
}

/// Bits past the clocks done were not received, whatever a state holds there.
#[test]
fn bits_that_are_still_to_come_are_not_compared() {
    let mut set = set_of(&[0, 1]);
    set.run(&[0, 3, 2, 3], 4).expect("accepted");
    for place in 0..8 {
        let mut members = members_of(&set);
        members[1].state.transfer.received_bits[place] ^= true;
        let expected = if place < 3 { Some(11) } else { None };
        assert_eq!(run_set(members, &[], 0).err(), expected, "bit {place}");
    }
}

/// A set that was made and then given events is never refused, with none to four
/// of its devices inside transfers.
#[test]
fn a_set_that_was_made_is_never_refused() {
    let mut source = RandomSource::new(112);
    let mut asked = [0; 5];
    for list in generate::set_random(43, 400_000) {
        let mut set = list.set();
        for event in &list.events {
            set.event(*event);
            if source.chance(5) {
                let standing = Set::of(members_of(&set));
                assert!(standing.as_ref() == Ok(&set), "{}", list.name);
                let inside = set.devices.iter().filter(|one| !one.between_transfers());
                asked[inside.count()] += 1;
            }
        }
    }
    assert!(asked.iter().all(|count| *count > 30), "{asked:?}");
}

/// Nor is one that was handed in and accepted once; no two of its devices ever pull
/// at once.
#[test]
fn a_set_that_was_accepted_is_never_refused() {
    for call in generate::set_runs() {
        let Ok(mut set) = Set::of(call.members()) else {
            continue;
        };
        for event in call.events.iter().filter(|event| **event < 10) {
            assert!(pulling(&set.devices, *event) <= 1, "{}", call.name);
            set.event(*event);
            assert!(Set::of(members_of(&set)).is_ok(), "{}", call.name);
        }
    }
}

/// How many devices pull the line of an event low that the master leaves high.
fn pulling(devices: &[Device], event: u8) -> usize {
    let is_pulled = |device: &&Device| event == 3 && (*device).clone().event(event) == 0;
    devices.iter().filter(is_pulled).count()
}

/// A set that was made may be inside a transfer when the next list comes.
#[test]
fn a_list_may_end_inside_a_transfer() {
    let mut set = set_of(&[1, 2]);
    host::begin(&mut set, 0xD3);
    let members = members_of(&set);
    assert_eq!(Set::make(members.clone()).err(), Some(11));
    assert!(Set::of(members) == Ok(set));
}

/// Selects are two bits.
#[test]
fn selects_above_3_are_outside_the_limits() {
    for selects in 4..=255_u8 {
        let wrong = Member {
            selects,
            ..member(0)
        };
        assert_eq!(Set::make(vec![wrong]).err(), Some(2));
    }
}
