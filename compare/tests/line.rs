// SPDX-License-Identifier: Apache-2.0
//! What the device will do to the line, told before the Clock, on both programs: at every place of many lists.

use compare::lists::Case;
use compare::{archive, image};
use second::generate::{exhaustive, handed_in, random, structured};
use second::next_line::{next_line_of, NextLine};
use second::{Device, MEMORY_BYTES};

/// The entry's word for what the second program says.
fn word(told: NextLine) -> u64 {
    u64::from(told.next) << 8 | u64::from(told.after_low) << 9 | u64::from(told.after_high) << 10
}

/// Holds both programs together before each event of a case, and counts how often each word was told.
fn hold(case: &Case, words: &mut [u64; 8]) {
    let mut device = case.device.clone();
    for (place, event) in case.events.iter().enumerate() {
        let expected = word(next_line_of(&mut device));
        let found = archive::line(&image::of(&device), &device.memory);
        assert_eq!(found, expected, "{}, before event {place}", case.name);
        words[(expected >> 8) as usize] += 1;
        device.event(*event);
    }
}

#[test]
fn the_next_line_is_the_same_in_random_and_structured_lists() {
    let mut words = [0; 8];
    for list in random(41, 400_000).iter().chain(&structured(43, 400_000)) {
        hold(&Case::of(list), &mut words);
    }
    assert!(words.iter().sum::<u64>() > 700_000, "{words:?}");
    // Two Clocks in a row are never pulled whatever the master does, but for the bits of a byte that is read: so every word
    // of the eight can be told but those with a Clock that is pulled after a high one and not after a low one.
    assert!(words[0] > 0 && words[1] > 0 && words[7] > 0, "{words:?}");
}

#[test]
fn the_next_line_is_the_same_in_exhaustive_lists() {
    let mut words = [0; 8];
    for list in exhaustive().iter().step_by(29) {
        hold(&Case::of(list), &mut words);
    }
    for list in handed_in() {
        hold(&Case::handed_in(&list), &mut words);
    }
    assert!(words.iter().sum::<u64>() > 100_000, "{words:?}");
}

#[test]
fn refusals_are_the_number_alone() {
    let fresh = image::of(&Device::fresh());
    let memory = vec![0xFF; MEMORY_BYTES];
    assert_eq!(archive::line(&fresh, &memory), 0);
    for (image_length, memory_length, number) in [(63, 8191, 1), (64, 8193, 1), (63, 8192, 2)] {
        assert_eq!(
            archive::line(&fresh[..image_length], &vec![0; memory_length]),
            number
        );
    }
    let mut other = fresh;
    other[30] = 1;
    assert_eq!(archive::line(&other, &memory), 2);
}
