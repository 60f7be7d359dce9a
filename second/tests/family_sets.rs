// SPDX-License-Identifier: Apache-2.0
//! Four on a wire (02, number 12): up to four parts of the family on one line.

use second::bus::Power;
use second::family::{Device, Member, Set, Size, State, SIZES};
use second::generate::{self, addressed_to, Script, SetList};
use second::host;
use std::collections::{BTreeMap, BTreeSet};

/// Family, number of lists, number of events of `set_exhaustive`.
const EXHAUSTIVE_EVENTS: [(&str, usize, usize); 6] = [
    ("set-arrangements", 128, 281_312),
    ("set-edges-inside", 720, 903_744),
    ("set-other-starts", 1184, 1_461_416),
    ("set-power-inside", 816, 990_312),
    ("set-slave-bytes", 1536, 1_250_304),
    ("set-supplies", 729, 118_827),
];

fn member(size: Size, selects: u8) -> Member {
    let mut memory = vec![0; size.bytes()];
    generate::fill_memory(91 + u64::from(selects), &mut memory);
    Member {
        size,
        selects,
        state: State::fresh(),
        memory,
    }
}

/// Devices with these selects, of either size in turn.
fn set_of(selects: &[u8]) -> Set {
    let members = selects.iter().enumerate();
    let members = members.map(|(place, selects)| member(SIZES[place % 2], *selects));
    Set::make(members.collect()).expect("nothing to refuse")
}

fn memory_write(set: &mut Set, selects: u8, address: u16, data: &[u8]) -> Vec<bool> {
    let mut bytes = address.to_be_bytes().to_vec();
    bytes.extend(data);
    host::write(set, 0xA0 + 2 * selects, &bytes)
}

fn companion_read(set: &mut Set, selects: u8, address: u8, count: usize) -> Vec<u8> {
    host::write(set, 0xD0 + 2 * selects, &[address]);
    host::read(set, 0xD1 + 2 * selects, count)
}

// ----- which device is named -----

/// "its two select bits (slave byte bits 2 and 1)": every slave byte names one
/// device of four at most, and no one else answers.
#[test]
fn every_slave_byte_on_every_arrangement() {
    for arrangement in generate::select_arrangements() {
        let made = set_of(&arrangement);
        for byte in 0..=255_u8 {
            let mut set = made.clone();
            let acknowledged = host::begin(&mut set, byte);
            let selects = byte >> 1 & 3;
            let kind_is_known = [0xA0, 0xD0].contains(&(byte & 0xF8));
            let named = kind_is_known && arrangement.contains(&selects);
            assert_eq!(acknowledged, named, "{byte:02X}h on {arrangement:?}");
            for device in &set.devices {
                let is_named = named && device.selects == selects;
                assert_eq!(device.between_transfers(), !is_named);
            }
        }
    }
}

#[test]
fn there_are_64_arrangements() {
    let all = generate::select_arrangements();
    let different: BTreeSet<&Vec<u8>> = all.iter().collect();
    assert_eq!((all.len(), different.len()), (64, 64));
    let lengths = [4, 12, 24, 24];
    for (index, count) in lengths.iter().enumerate() {
        let found = all.iter().filter(|one| one.len() == index + 1).count();
        assert_eq!(found, *count);
    }
}

/// Each device has its own memory, registers and addresses.
#[test]
fn every_device_by_its_selects() {
    let mut set = set_of(&[3, 0, 2, 1]);
    for selects in 0..4_u8 {
        let written = memory_write(&mut set, selects, 0x0100, &[0xB0 + selects]);
        assert_eq!(written, [true; 4]);
        host::write(&mut set, 0xD0 + 2 * selects, &[0x11, 0xC0 + selects]);
    }
    for device in &set.devices {
        assert_eq!(device.memory[0x0100], 0xB0 + device.selects);
        assert_eq!(device.registers[8], 0xC0 + device.selects);
        assert_eq!(device.memory_address, 0x0101);
        assert_eq!(device.companion_address, 0x12);
    }
    for selects in 0..4_u8 {
        assert_eq!(companion_read(&mut set, selects, 0x11, 1), [0xC0 + selects]);
    }
}

/// A device that is absent does not acknowledge, and nothing changes.
#[test]
fn absent_devices() {
    for arrangement in generate::select_arrangements() {
        for selects in (0..4).filter(|one| !arrangement.contains(one)) {
            let mut set = set_of(&arrangement);
            let before = set.clone();
            let acknowledged = memory_write(&mut set, selects, 0x0123, &[1, 2]);
            assert_eq!(acknowledged, [false; 5]);
            assert_eq!(companion_read(&mut set, selects, 0x09, 2), [0xFF, 0xFF]);
            assert!(set == before);
        }
    }
}

/// The sizes of the devices may differ; each ignores its own upper bits.
#[test]
fn mixed_sizes() {
    let members = vec![
        member(Size::Kilobits256, 1),
        member(Size::Kilobits64, 2),
        member(Size::Kilobits256, 3),
    ];
    let mut set = Set::make(members).expect("nothing to refuse");
    for selects in 1..4_u8 {
        memory_write(&mut set, selects, 0x3FFF, &[0x77]);
    }
    let addresses: Vec<u16> = set.devices.iter().map(|one| one.memory_address).collect();
    assert_eq!(addresses, [0x4000, 0x0000, 0x4000]);
}

// ----- edges, ticks, power -----

/// "a counter edge names its device": 8 and 9 the first, 10 and 11 the second.
#[test]
fn edges_name_their_device() {
    for count in 1..=4_usize {
        let selects: Vec<u8> = (0..count as u8).rev().collect();
        for event in 8..8 + 2 * count {
            let mut set = set_of(&selects);
            assert_eq!(set.event(event as u8), 1);
            for (place, device) in set.devices.iter().enumerate() {
                let mut expected = [0; 4];
                if place == (event - 8) / 2 {
                    expected[2 * (event % 2)] = 1;
                }
                assert_eq!(device.registers[4..8], expected, "event {event}, {place}");
            }
        }
    }
}

/// "ticks and power events reach all four"
#[test]
fn power_events_reach_all() {
    let mut set = set_of(&[0, 1, 2, 3]);
    assert_eq!(set.event(5), 1);
    assert!(set.devices.iter().all(|one| one.power == Power::Backup));
    set.event(6);
    assert!(set.devices.iter().all(|one| one.power == Power::Gone));
    set.event(7);
    assert!(set.devices.iter().all(|one| one.power == Power::On));
    let before = set.clone();
    assert_eq!(set.event(4), 1);
    assert!(set == before);
}

/// Event 6 reaches those on backup as a loss of power (READINGS 13): of devices
/// handed in with different supplies and other addresses, only those whose
/// supplies were gone already keep them.
#[test]
fn event_6_is_a_loss_for_each_device_that_has_a_supply() {
    let powers = [Power::On, Power::Backup, Power::Gone];
    let members = powers.iter().zip(0..3).map(|(power, selects)| {
        let mut made = member(Size::Kilobits64, selects);
        made.state.power = *power;
        made.state.memory_address = 0x0332;
        made.state.companion_address = 0x0E;
        made
    });
    let mut set = Set::make(members.collect()).expect("nothing to refuse");
    set.event(6);
    let addresses = set.devices.iter();
    let addresses: Vec<(u16, u8)> = addresses
        .map(|one| (one.memory_address, one.companion_address))
        .collect();
    assert_eq!(addresses, [(0, 9), (0, 9), (0x0332, 0x0E)]);
}

// ----- each device as alone -----

/// The event that a device sees of an event of the set.
fn seen_by(place: usize, event: u8) -> Option<u8> {
    match event {
        0..=7 => Some(event),
        _ if usize::from(event - 8) / 2 == place => Some(8 + event % 2),
        _ => None,
    }
}

/// "5)'s statements hold for each device": each does what it would alone, the
/// line is what they pull, and no two ever pull at once.
#[test]
fn each_device_as_alone_and_no_two_pull() {
    let mut pulled = 0;
    for list in generate::set_random(41, 400_000) {
        let mut set = list.set();
        let mut alone: Vec<Device> = set.devices.clone();
        for &event in &list.events {
            let line = set.event(event);
            let mut low = 0;
            for (place, device) in alone.iter_mut().enumerate() {
                if let Some(seen) = seen_by(place, event) {
                    low += u8::from(device.event(seen) == 0);
                }
            }
            assert_eq!(line == 0, low > 0);
            if event == 3 {
                assert!(low <= 1);
                pulled += usize::from(low);
            }
        }
        assert!(set.devices == alone, "{}", list.name);
    }
    assert!(pulled > 10_000);
}

/// Bits 2 and 1 of every slave byte turned over by the selects: sixth and
/// seventh clock after a Start, wherever they fall.
fn as_for_selects_0(selects: u8, events: &[u8]) -> Vec<u8> {
    let mut clocks = 0;
    let mut turned = Vec::new();
    for &event in events {
        let mut sent = event;
        match event {
            0 => clocks = 0,
            2..=3 => {
                clocks += 1;
                match clocks {
                    6 => sent ^= selects >> 1,
                    7 => sent ^= selects & 1,
                    _ => {}
                }
            }
            _ => {}
        }
        turned.push(sent);
    }
    turned
}

/// A device of a set does what request 5's device does that is named by 0.
#[test]
fn selects_are_all_that_differs() {
    for list in generate::set_exhaustive() {
        let mut set = list.set();
        set.run(&list.events, list.events.len()).expect("accepted");
        for (place, device) in set.devices.iter().enumerate() {
            let seen = list
                .events
                .iter()
                .filter_map(|event| seen_by(place, *event));
            let seen: Vec<u8> = seen.collect();
            let member = list.places[place].member();
            let mut plain = member.state.device(member.size, member.memory);
            plain.run(&as_for_selects_0(device.selects, &seen));
            plain.selects = device.selects;
            assert!(&plain == device, "{} {}", list.family, list.name);
        }
    }
}

/// One transaction of each kind.
fn four_transactions() -> [Script; 4] {
    let mut scripts: [Script; 4] = std::array::from_fn(|_| Script::new());
    scripts[0].memory_write(0x1FFF, &[1, 2, 3]);
    scripts[1].companion_write(0x0B, &[0x80, 0x0C, 1, 2, 3, 4, 5]);
    scripts[2].memory_read(0x0123, 3);
    scripts[3].companion_read(0x0C, 4);
    scripts
}

/// "a whole transaction begun between transfers, its slave bytes all naming one
/// device, leaves the others, once ended, as they were"
#[test]
fn others_are_left_as_they_were() {
    for (script, selects) in four_transactions()
        .iter()
        .flat_map(|script| (0..4_u8).map(move |selects| (script, selects)))
    {
        let mut set = set_of(&[2, 3, 1, 0]);
        // every device stands somewhere else
        for other in 0..4_u8 {
            memory_write(&mut set, other, 0x0200 + u16::from(other), &[other]);
            host::write(&mut set, 0xD0 + 2 * other, &[0x12 + other]);
        }
        let before = set.clone();
        let events = addressed_to(selects, script).events;
        let answers = set.run(&events, events.len()).expect("accepted");
        for (device, old) in set.devices.iter().zip(&before.devices) {
            let is_named = device.selects == selects;
            assert_eq!(device == old, !is_named);
            if is_named {
                // the line it sees is that device's
                assert_eq!(old.clone().run(&events), answers);
            }
        }
    }
}

// ----- the lists -----

fn check_lists(lists: &[SetList]) {
    let mut names = BTreeSet::new();
    for list in lists {
        assert!(
            names.insert((list.family, list.name.clone())),
            "{}",
            list.name
        );
        let last = 7 + 2 * list.places.len();
        assert!(list.events.iter().all(|event| usize::from(*event) <= last));
        assert_eq!(list.set().devices.len(), list.places.len());
    }
}

#[test]
fn exhaustive_families_have_the_written_counts() {
    let lists = generate::set_exhaustive();
    check_lists(&lists);
    let mut counts: BTreeMap<&str, (usize, usize)> = BTreeMap::new();
    for list in &lists {
        let count = counts.entry(list.family).or_insert((0, 0));
        count.0 += 1;
        count.1 += list.events.len();
    }
    let found: Vec<(&str, usize, usize)> = counts
        .iter()
        .map(|(family, count)| (*family, count.0, count.1))
        .collect();
    assert_eq!(found, EXHAUSTIVE_EVENTS);
    assert!(lists == generate::set_exhaustive());
}

/// Every supply is handed in, with addresses that no loss of power leaves.
#[test]
fn addresses_are_handed_in_under_every_supply() {
    for lists in [generate::set_exhaustive(), generate::set_random(1, 200_000)] {
        for power in [Power::On, Power::Backup, Power::Gone] {
            let states = lists.iter().flat_map(|list| &list.places);
            let states = states.map(|place| place.state);
            let states = states.filter(|state| state.power == power);
            assert!(states.clone().any(|state| state.memory_address > 0));
            assert!(states.clone().any(|state| state.companion_address > 9));
        }
    }
}

/// The answers of a set whose devices keep their addresses at event 6 on backup.
fn answers_of_one_that_keeps_addresses(mut set: Set, events: &[u8]) -> Vec<u8> {
    let mut answers = Vec::new();
    for event in events {
        let before = set.states();
        answers.push(set.event(*event));
        for (device, old) in set.devices.iter_mut().zip(before) {
            if old.power == Power::Backup && *event == 6 {
                device.memory_address = old.memory_address;
                device.companion_address = old.companion_address;
            }
        }
    }
    answers
}

/// READINGS 13 is seen in the answers of the lists with states handed in.
#[test]
fn states_handed_in_tell_devices_that_keep_their_addresses() {
    let mut exhaustive = generate::set_exhaustive();
    exhaustive.retain(|list| list.family == "set-supplies");
    for lists in [exhaustive, generate::set_random(1, 1_000_000)] {
        let told = lists.iter().any(|list| {
            let kept = answers_of_one_that_keeps_addresses(list.set(), &list.events);
            let answers = list.set().run(&list.events, list.events.len());
            answers.expect("accepted") != kept
        });
        assert!(told);
    }
}

#[test]
fn random_lists_are_sound() {
    let lists = generate::set_random(5, 200_000);
    check_lists(&lists);
    assert!(lists == generate::set_random(5, 200_000));
    assert!(lists != generate::set_random(6, 200_000));
    let families: BTreeSet<&str> = lists.iter().map(|list| list.family).collect();
    let expected = ["set-disturbed-traffic", "set-noise", "set-traffic"];
    assert_eq!(families, BTreeSet::from(expected));
    let mut arrangements = BTreeSet::new();
    for list in &lists {
        let selects: Vec<u8> = list.places.iter().map(|place| place.selects).collect();
        arrangements.insert(selects);
    }
    assert!(arrangements.len() > 50);
}
