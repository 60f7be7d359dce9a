// SPDX-License-Identifier: Apache-2.0
//! What each single event tells, on both programs: the answer byte and the field of the calendar that changed, with the
//! image and the memory that it leaves.

use compare::lists::Case;
use compare::{archive, image};
use second::generate::{handed_in, random, ticks_told};

/// Holds every event of a case, and counts how often each field was told.
fn hold(case: &Case, fields: &mut [u64; 7]) {
    let mut device = case.device.clone();
    let mut bytes = image::of(&device);
    let mut memory = device.memory.clone();
    for (place, event) in case.events.iter().enumerate() {
        let (answer, rolled) = device.event_told(*event);
        let mut told = [0xEE; 3];
        let number = archive::step(&mut bytes, &mut memory, u64::from(*event), &mut told);
        assert_eq!(
            (number, told),
            (0, [answer, rolled.number(), 0xEE]),
            "{}, event {place}",
            case.name
        );
        assert_eq!(bytes, image::of(&device), "{}, event {place}", case.name);
        fields[usize::from(told[1])] += 1;
    }
    assert!(memory == device.memory, "{}: memory", case.name);
}

/// Every midnight of the century, each end of a minute and of an hour on some dates.
#[test]
fn ticks_tell_what_rolled_over() {
    let mut fields = [0; 7];
    for list in ticks_told() {
        hold(&Case::handed_in(&list), &mut fields);
    }
    assert!(
        fields[4] >= 35_000 && fields[5] >= 1_000 && fields[6] >= 100,
        "{fields:?}"
    );
}

/// Invalid cores, a halted oscillator, backup and no supply.
#[test]
fn every_state_handed_in_tells_the_same() {
    let mut fields = [0; 7];
    for list in handed_in() {
        hold(&Case::handed_in(&list), &mut fields);
    }
    assert!(fields[0] > 0 && fields[1] > 0, "{fields:?}");
}

#[test]
fn random_events_tell_the_same() {
    let mut fields = [0; 7];
    for list in random(31, 1_000_000) {
        hold(&Case::of(&list), &mut fields);
    }
    assert!(fields[0] > 900_000, "{fields:?}");
}

/// Refused by the first number that fits, and nothing is written.
#[test]
fn refusals_write_nothing() {
    let fresh = image::of(&second::Device::fresh());
    let short = |length: usize| vec![0; length];
    for (image_length, memory_length, event, told_length, number) in [
        (63, 8191, 8, 1, 1),
        (63, 8192, 8, 1, 2),
        (64, 8192, 8, 1, 3),
        (64, 8192, u64::MAX, 2, 3),
        (64, 8192, 4, 1, 4),
        (64, 8192, 4, 0, 4),
    ] {
        let mut bytes = fresh[..image_length].to_vec();
        let (mut memory, mut told) = (short(memory_length), short(told_length));
        assert_eq!(
            archive::step(&mut bytes, &mut memory, event, &mut told),
            number
        );
        assert_eq!(bytes, fresh[..image_length]);
        assert!(memory == short(memory_length) && told == short(told_length));
    }
}
