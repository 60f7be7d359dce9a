// SPDX-License-Identifier: Apache-2.0
//! Images put right: what changes, what is listed, what stays, and what is refused.

use fm3130::{event, Calendar, Change, Device, Refusal, CHANGES_ROOM, MEMORY_BYTES};

/// Where an image has registers 02h to 08h and the core.
const TIME: usize = 2;
const CORE: usize = 15;

/// A fresh device with other bytes in its registers and its core.
fn device_with(time: [u8; 7], core: [u8; 7]) -> Device {
    let mut image = *Device::fresh().image();
    image[TIME..TIME + 7].copy_from_slice(&time);
    image[CORE..CORE + 7].copy_from_slice(&core);
    Device::from_parts(&image, &[0x5A; MEMORY_BYTES]).unwrap()
}

const VALID: [u8; 7] = [0x59, 0x59, 0x23, 0x07, 0x31, 0x12, 0x99];

#[test]
fn a_valid_device_stays_as_it_is() {
    let mut device = device_with(VALID, [0x00, 0x30, 0x12, 0x03, 0x29, 0x02, 0x08]);
    let before = device.clone();
    assert_eq!(device.mend().unwrap(), []);
    assert_eq!(device, before);
}

#[test]
fn every_field_goes_to_its_lowest_figure() {
    let mut device = device_with([0x60, 0x7A, 0x24, 0x00, 0x32, 0x13, 0xAA], VALID);
    let changes: Vec<String> = device
        .mend()
        .unwrap()
        .iter()
        .map(Change::to_string)
        .collect();
    let expected = [
        "02h seconds: 60h to 00h",
        "03h minutes: 7Ah to 00h",
        "04h hours: 24h to 00h",
        "05h day: 00h to 01h",
        "06h date: 32h to 01h",
        "07h month: 13h to 01h",
        "08h year: AAh to 00h",
    ];
    assert_eq!(changes, expected);
    assert_eq!(device.calendar(), Calendar::from_bytes(VALID));
}

#[test]
fn a_late_date_goes_to_the_last_day_of_the_month_put_right() {
    let mended = |date, month, year| {
        let mut device = device_with([0, 0, 0, 1, date, month, year], VALID);
        device.mend().unwrap();
        (device.registers()[6], device.registers()[7])
    };
    assert_eq!(mended(0x31, 0x04, 0x09), (0x30, 0x04));
    assert_eq!(mended(0x31, 0x02, 0x09), (0x28, 0x02));
    assert_eq!(mended(0x31, 0x02, 0x08), (0x29, 0x02));
    // A year that is no year is 00, which is a leap year; a month that is none is January.
    assert_eq!(mended(0x31, 0x02, 0xFF), (0x29, 0x02));
    assert_eq!(mended(0x31, 0x00, 0x09), (0x31, 0x01));
}

#[test]
fn the_core_is_put_right_by_itself_and_not_listed() {
    let mut device = device_with(VALID, [0x61, 0x00, 0x00, 0x02, 0x31, 0x06, 0x10]);
    assert_eq!(device.mend().unwrap(), []);
    assert_eq!(device.calendar().to_string(), "00:00:00, 30/06/10, day 2");
    assert_eq!(device.registers()[TIME..TIME + 7], VALID);
}

#[test]
fn all_else_stays_in_the_middle_of_a_transfer() {
    let mut device = device_with([0, 0, 0, 1, 0x31, 0x04, 0], VALID);
    device.run(&[event::START, event::CLOCK_HIGH]).unwrap();
    let before = device.clone();
    assert_eq!(device.mend().unwrap().len(), 1);
    for (place, (old, new)) in before.image().iter().zip(device.image()).enumerate() {
        assert_eq!(old != new, place == 6, "byte {place}");
    }
    assert_eq!(device.memory(), before.memory());
}

#[test]
fn refusals_leave_all_as_it_was() {
    let mut image = *device_with([0, 0, 0, 0, 0, 0, 0], VALID).image();
    let before = image;
    for room in 0..9 {
        let mut changes = vec![0xEE; room];
        let refused = fm3130::mend(&mut image, &mut changes);
        assert_eq!(refused, Err(Refusal::ShortAnswers), "{room} bytes");
        assert!(image == before && changes.iter().all(|byte| *byte == 0xEE));
    }
    let mut changes = [0xEE; CHANGES_ROOM];
    assert_eq!(fm3130::mend(&mut image, &mut changes[..9]), Ok(3));
    assert_eq!(changes[..10], [5, 0, 1, 6, 0, 1, 7, 0, 1, 0xEE]);
    for length in [0, 1, 63, 65, 200] {
        let mut wrong = vec![9; length];
        assert_eq!(fm3130::mend(&mut wrong, &mut []), Err(Refusal::Image));
        assert!(wrong.iter().all(|byte| *byte == 9));
    }
    image[TIME] = 0x80; // a bit that the register map fixes at 0
    assert_eq!(fm3130::mend(&mut image, &mut []), Err(Refusal::Image));
}
