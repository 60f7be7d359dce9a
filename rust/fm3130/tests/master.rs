// SPDX-License-Identifier: Apache-2.0
//! The other end of the wire: bytes written and read over the bus, and refusals of any kind.

use fm3130::master::{self, Refusal};
use fm3130::{event, Device};

/// Bytes that differ from their neighbours.
fn bytes(count: usize) -> Vec<u8> {
    (0..count).map(|place| (place * 37 + count) as u8).collect()
}

#[test]
fn bytes_come_back_at_every_count_and_over_the_end() {
    for count in 0..=master::MOST {
        for address in [0x0000, 0x07FF, 0x1F80, 0x1FFE, 0x1FFF] {
            let (mut device, sent) = (Device::fresh(), bytes(count));
            assert_eq!(device.write(address, &sent), Ok(vec![true; count]));
            match device.read(address, count as u64) {
                Ok(read) => assert_eq!(read, sent, "{count} at {address:04X}h"),
                Err(refusal) => assert_eq!((refusal, count), (Refusal::ReadOfNone.into(), 0)),
            }
        }
    }
}

#[test]
fn a_transfer_under_way_does_not_matter() {
    let mut device = Device::fresh();
    for clocks in 0..40 {
        device.step(event::START).unwrap();
        device.run(&vec![event::CLOCK_LOW; clocks]).unwrap();
        assert_eq!(device.write(0x1000, &[clocks as u8]), Ok(vec![true]));
        device.step(event::START).unwrap();
        device.run(&vec![event::CLOCK_HIGH; clocks]).unwrap();
        assert_eq!(device.read(0x1000, 1), Ok(vec![clocks as u8]));
    }
}

#[test]
fn a_protected_byte_and_all_after_it_are_not_acknowledged() {
    let mut image = *Device::fresh().image();
    image[0x0E] = 0x08; // WP 01: 0000h to 07FFh
    let mut device = Device::from_parts(&image, &[0x77; 8192]).unwrap();
    let told = device.write(0x1FFE, &[1, 2, 3, 4]).unwrap();
    assert_eq!(told, [true, true, false, false]);
    assert_eq!(device.read(0x1FFE, 4), Ok(vec![1, 2, 0x77, 0x77]));
}

#[test]
fn without_power_nothing_is_acknowledged() {
    let mut device = Device::fresh();
    device.step(event::POWER_LOST_WITH_BACKUP).unwrap();
    let before = device.clone();
    assert_eq!(device.write(0x1000, &[1, 2]), Ok(vec![false, false]));
    assert_eq!(device.read(0x1000, 2), Ok(vec![]));
    assert_eq!(device, before);
}

#[test]
fn what_is_refused_changes_nothing() {
    let mut device = Device::fresh();
    let before = device.clone();
    let [too_many, of_none, address] =
        [Refusal::TooMany, Refusal::ReadOfNone, Refusal::WrongAddress].map(Refusal::into);
    assert_eq!(device.write(0x2000, &[0; 257]), Err(too_many));
    assert_eq!(device.write(0x2000, &[0]), Err(address));
    assert_eq!(device.write(u64::MAX, &[]), Err(address));
    for count in [257, 1 << 32, u64::MAX] {
        assert_eq!(device.read(0x2000, count), Err(too_many));
    }
    assert_eq!(device.read(0x2000, 0), Err(of_none));
    assert_eq!(device.read(0x2000, 1), Err(address));
    assert_eq!(device, before);
}

#[test]
fn too_little_room_and_cut_answers_are_refused_and_nothing_is_written() {
    let (mut events, mut told) = ([9; 400], [9; 40]);
    for count in 1..=40 {
        let (wrote, read) = (
            master::write_events_count(count),
            master::read_events_count(count),
        );
        let refusals = [
            master::write_events(0, &bytes(count), &mut events[..wrote - 1]),
            master::read_events(0, count as u64, &mut events[..read - 1]),
            master::write_told(count as u64, &[0; 999][..wrote], &mut told[..count - 1]),
            master::read_told(count as u64, &[0; 999][..read], &mut told[..count - 1]),
        ];
        assert_eq!(refusals, [Err(Refusal::LittleRoom); 4]);
        let refusals = [
            master::write_told(count as u64, &[0; 999][..wrote - 1], &mut told),
            master::write_told(count as u64, &[0; 999][..wrote + 1], &mut told),
            master::read_told(count as u64, &[0; 999][..read - 1], &mut told),
            master::read_told(count as u64, &[0; 999][..read + 1], &mut told),
        ];
        assert_eq!(refusals, [Err(Refusal::WrongAnswers); 4]);
        assert_eq!((events, told), ([9; 400], [9; 40]));
    }
}

#[test]
fn numbers_and_words_are_those_of_the_header() {
    let header = include_str!("../../../include/fm3130.h");
    for refusal in [
        Refusal::TooMany,
        Refusal::ReadOfNone,
        Refusal::WrongAddress,
        Refusal::LittleRoom,
        Refusal::WrongAnswers,
    ] {
        let line = header
            .lines()
            .filter(|line| line.trim_start().starts_with("FM3130_MASTER_"))
            .find(|line| line.contains(&format!("= {}", refusal.number())))
            .unwrap();
        assert!(line.contains(refusal.words()), "{line}");
    }
}
