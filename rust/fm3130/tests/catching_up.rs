// SPDX-License-Identifier: Apache-2.0
//! Many ticks in one call against the list run of as many.

use fm3130::{event, Device, Refusal, MOST_TICKS};

/// The first byte of the core in an image.
const CORE: usize = 15;

/// A device with a core and an alarm, whose oscillator runs.
fn device(core: [u8; 7], alarm: [u8; 5]) -> Device {
    let mut image = *Device::fresh().image();
    image[1] = 0x00;
    image[9..14].copy_from_slice(&alarm);
    image[CORE..CORE + 7].copy_from_slice(&core);
    Device::from_parts(&image, &[0x5A; 8192]).unwrap()
}

#[test]
fn one_call_leaves_what_a_list_of_ticks_leaves() {
    let cores = [
        [0x59, 0x59, 0x23, 7, 0x31, 0x12, 0x99],
        [0x58, 0x59, 0x23, 4, 0x28, 0x02, 0x08],
        [0x58, 0x59, 0x23, 4, 0x28, 0x02, 0x09],
        [0x59, 0x59, 0x23, 3, 0x31, 0x04, 0x24],
    ];
    let alarms = [
        [0x80, 0x80, 0x80, 0x80, 0x80],
        [0x00, 0x00, 0x00, 0x01, 0x01],
        [0x59, 0x80, 0x12, 0x80, 0x80],
        [0x80, 0x80, 0x80, 0x31, 0x02],
    ];
    for core in cores {
        for alarm in alarms {
            let mut by_list = device(core, alarm);
            for ticks in 0..200_u64 {
                let mut at_once = device(core, alarm);
                at_once.catch_up(ticks).unwrap();
                assert_eq!(at_once, by_list, "{ticks} ticks");
                by_list.step(event::TICK).unwrap();
            }
        }
    }
}

#[test]
fn parts_of_a_sleep_are_one_sleep() {
    let start = device([0x17, 0x42, 0x09, 5, 0x30, 0x11, 0x98], [0x80; 5]);
    let mut in_parts = start.clone();
    for ticks in [1, 86_399, 20_000_000, 11_535_999, 1] {
        in_parts.catch_up(ticks).unwrap();
    }
    let mut at_once = start;
    at_once.catch_up(MOST_TICKS).unwrap();
    assert_eq!(at_once, in_parts);
}

#[test]
fn too_many_ticks_are_refused_and_nothing_changes() {
    let before = device([0x59, 0x59, 0x23, 7, 0x31, 0x12, 0x99], [0x80; 5]);
    let mut after = before.clone();
    for ticks in [MOST_TICKS + 1, 1 << 32, u64::MAX] {
        assert_eq!(after.catch_up(ticks), Err(Refusal::TooManyTicks));
        assert_eq!(after, before);
    }
    assert_eq!(Refusal::TooManyTicks.number(), 8);
    assert_eq!(
        fm3130::catch_up(&mut [0; 64], u64::MAX),
        Err(Refusal::Image)
    );
    assert_eq!(fm3130::catch_up(&mut [], 0), Err(Refusal::Image));
}
