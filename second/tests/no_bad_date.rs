// SPDX-License-Identifier: Apache-2.0
//! 02, number 6: "When a write of 00h would make W fall while 02h to 08h are not
//! a valid calendar, do not acknowledge it, leave 00h and the core alone, and
//! end the transfer."

use second::calendar::calendar_from_numbers;
use second::generate::{self, Script};
use second::host;
use second::{Calendar, Device, Power};

fn noon() -> Calendar {
    calendar_from_numbers((12, 0, 0), 4, (10, 11, 12))
}

/// The maintainer's date.
fn last_of_april() -> Calendar {
    calendar_from_numbers((8, 15, 30), 5, (31, 4, 21))
}

/// A device with a given 00h, 02h to 08h and core.
fn device_with(control: u8, shown: Calendar, core: Calendar) -> Device {
    let mut device = Device::fresh();
    device.registers[0x00] = control;
    device.registers[0x02..=0x08].copy_from_slice(&shown.to_bytes());
    device.core = core;
    device
}

/// Whether a calendar is valid, found without the program's own test: by the
/// words of 01 with numbers and a list of lengths.
fn is_valid(bytes: [u8; 7]) -> bool {
    let number = |byte: u8| u32::from(byte >> 4) * 10 + u32::from(byte & 15);
    let [seconds, minutes, hours, day, date, month, year] = bytes;
    let digits = [seconds, minutes, hours, date, month, year]
        .iter()
        .all(|byte| byte >> 4 < 10 && byte & 15 < 10);
    let mut lengths = [31, 28, 31, 30, 31, 30, 31, 31, 30, 31, 30, 31];
    if number(year) % 4 == 0 {
        lengths[1] = 29;
    }
    let Some(length) = number(month)
        .checked_sub(1)
        .and_then(|index| lengths.get(index as usize))
    else {
        return false;
    };
    digits
        && number(seconds) < 60
        && number(minutes) < 60
        && number(hours) < 24
        && (1..8).contains(&day)
        && (1..=*length).contains(&number(date))
}

/// What a refused write leaves: everything but the address and the transfer.
fn check_refused(before: &Device, written: u8, name: &str) {
    let mut device = before.clone();
    let acknowledged = host::companion_write(&mut device, 0x00, &[written]);
    assert_eq!(acknowledged, [true, true, false], "{name}");
    let mut expected = before.clone();
    expected.companion_address = 0x01;
    assert_eq!(device, expected, "{name}");
}

#[test]
fn the_31st_of_april_does_not_go_in() {
    let mut device = Device::fresh();
    host::companion_write(&mut device, 0x00, &[0x02, 0x00]);
    let acknowledged = host::companion_write(&mut device, 0x02, &last_of_april().to_bytes());
    assert!(acknowledged.iter().all(|given| *given));
    let acknowledged = host::companion_write(&mut device, 0x00, &[0x00]);
    assert_eq!(acknowledged, [true, true, false]);
    assert_eq!(device.core, Device::fresh().core);
    assert_eq!(device.registers[0x00], 0x02);
    // the clock does not stand still
    host::tick(&mut device);
    assert_eq!(device.core.seconds, 0x01);
    // a date that is put right goes in
    host::companion_write(&mut device, 0x06, &[0x30]);
    assert_eq!(
        host::companion_write(&mut device, 0x00, &[0x00]),
        [true, true, true]
    );
    let mut expected = last_of_april();
    expected.date = 0x30;
    assert_eq!(device.core, expected);
}

#[test]
fn every_byte_of_every_calendar_register() {
    let stored = [0x7F, 0x7F, 0x3F, 0x07, 0x3F, 0x1F, 0xFF];
    let dates = [
        calendar_from_numbers((23, 59, 59), 7, (29, 2, 96)),
        calendar_from_numbers((0, 0, 0), 1, (31, 12, 99)),
        calendar_from_numbers((10, 20, 30), 3, (30, 6, 1)),
    ];
    let mut refusals = 0;
    for date in dates {
        for place in 0..7_usize {
            for value in 0..=255_u8 {
                let mut device = device_with(0x02, date, noon());
                host::companion_write(&mut device, 0x02 + place as u8, &[value]);
                let mut bytes = date.to_bytes();
                bytes[place] = value & stored[place];
                assert_eq!(device.registers[0x02..=0x08], bytes);
                if is_valid(bytes) {
                    let acknowledged = host::companion_write(&mut device, 0x00, &[0x00]);
                    assert_eq!(acknowledged, [true, true, true]);
                    assert_eq!(device.core.to_bytes(), bytes);
                    assert_eq!(device.registers[0x00], 0x00);
                } else {
                    check_refused(&device, 0x00, "every byte");
                    refusals += 1;
                }
            }
        }
    }
    assert!(refusals > 1000, "{refusals}");
}

/// The bits of 00h before and the byte written, all of them.
#[test]
fn w_falls_in_every_control_byte() {
    for old in 0..=255_u8 {
        for written in 0..=255_u8 {
            let before = device_with(old, last_of_april(), noon());
            let falls = old & 0x02 != 0 && written & 0x02 == 0;
            if falls {
                check_refused(&before, written, &format!("{old:02X}h, {written:02X}h"));
                continue;
            }
            let mut device = before.clone();
            let acknowledged = host::companion_write(&mut device, 0x00, &[written]);
            assert_eq!(acknowledged, [true, true, true]);
            assert_eq!(device.registers[0x00] & 0x0F, written & 0x0F);
            assert_eq!(device.core, noon());
            // "if R rises, 02h to 08h take the core; then if both are 0, 02h to
            // 08h take the core"
            let rises = old & 1 == 0 && written & 1 != 0;
            let follows = rises || written & 3 == 0;
            let shown = if follows { noon() } else { last_of_april() };
            assert_eq!(device.registers[0x02..=0x08], shown.to_bytes());
        }
    }
}

#[test]
fn r_rising_in_the_same_byte_does_not_help() {
    let before = device_with(0x02, last_of_april(), noon());
    check_refused(&before, 0x01, "R rises");
    let before = device_with(0x03, last_of_april(), noon());
    check_refused(&before, 0x01, "R stays");
    check_refused(&before, 0x00, "R falls");
}

#[test]
fn it_is_02h_to_08h_that_must_be_valid_and_not_the_core() {
    // the core is invalid, the registers are valid: the write puts it right
    let mut device = device_with(0x02, noon(), last_of_april());
    let acknowledged = host::companion_write(&mut device, 0x00, &[0x00]);
    assert_eq!(acknowledged, [true, true, true]);
    assert_eq!(device.core, noon());
    // both are invalid
    let before = device_with(0x02, last_of_april(), last_of_april());
    check_refused(&before, 0x00, "both invalid");
}

#[test]
fn w_already_0_is_as_before_though_the_registers_are_invalid() {
    let mut device = device_with(0x00, last_of_april(), noon());
    let acknowledged = host::companion_write(&mut device, 0x00, &[0x00]);
    assert_eq!(acknowledged, [true, true, true]);
    assert_eq!(device.registers[0x02..=0x08], noon().to_bytes());
}

#[test]
fn it_is_tested_at_the_eighth_clock_and_the_transfer_ends_there() {
    for clocks in 0..=8_u8 {
        let mut device = device_with(0x02, last_of_april(), noon());
        let mut script = Script::new();
        script.begin_companion_write(0x00).first_bits(0x00, clocks);
        host::run_script(&mut device, &script);
        assert_eq!(device.between_transfers(), clocks == 8, "{clocks}");
        assert_eq!(device.companion_address, u8::from(clocks == 8));
        assert_eq!(device.registers[0x00], 0x02);
        assert_eq!(device.core, noon());
    }
    // the ninth clock is then the master's
    for ninth in [false, true] {
        let mut device = device_with(0x02, last_of_april(), noon());
        let mut script = Script::new();
        script.begin_companion_write(0x00).byte(0x00);
        host::run_script(&mut device, &script);
        let event = if ninth { 3 } else { 2 };
        assert_eq!(host::line_is_high(device.event(event)), ninth);
    }
}

#[test]
fn bytes_after_the_refused_one_are_not_taken() {
    let mut device = device_with(0x02, last_of_april(), noon());
    let acknowledged = host::companion_write(&mut device, 0x00, &[0x00, 0x00, 0x30]);
    assert_eq!(acknowledged, [true, true, false, false, false]);
    assert_eq!(device.registers[0x01], 0x80);
    assert_eq!(device.registers[0x02], 0x30);
    assert_eq!(device.companion_address, 0x01);
    // a read that sets no address goes on at 01h
    assert_eq!(host::read(&mut device, 0xD1, 2), [0x80, 0x30]);
}

#[test]
fn it_holds_also_where_00h_is_reached_from_0eh() {
    for first in [0x06_u8, 0x09, 0x0D, 0x0E] {
        let mut device = device_with(0x02, last_of_april(), noon());
        let mut data: Vec<u8> = [0x31, 0x04, 0x21, 0x81, 0x82, 0x83, 0x84, 0x85, 0x40]
            [usize::from(first) - 6..]
            .to_vec();
        let before_control = data.len();
        data.extend([0x00, 0x00]);
        let acknowledged = host::companion_write(&mut device, first, &data);
        let data_flags = &acknowledged[2..];
        assert!(data_flags[..before_control].iter().all(|given| *given));
        assert_eq!(data_flags[before_control..], [false, false]);
        assert_eq!(device.companion_address, 0x01);
        assert_eq!(device.registers[0x0E], 0x40);
        assert_eq!(device.registers[0x00], 0x02);
        assert_eq!(device.registers[0x01], 0x80);
        assert_eq!(device.core, noon());
    }
}

#[test]
fn the_calendar_may_turn_bad_in_the_same_transfer() {
    // from 02h on the date becomes the 31st of April, then 00h is reached
    let mut device = device_with(0x02, noon(), noon());
    let mut data = last_of_april().to_bytes().to_vec();
    data.extend([0x80, 0x80, 0x80, 0x80, 0x80, 0x00]);
    data.push(0x00);
    let acknowledged = host::companion_write(&mut device, 0x02, &data);
    assert_eq!(acknowledged.iter().filter(|given| !**given).count(), 1);
    assert_eq!(acknowledged.last(), Some(&false));
    assert_eq!(device.core, noon());
    assert_eq!(device.registers[0x02..=0x08], last_of_april().to_bytes());
}

#[test]
fn the_flags_of_00h_stay() {
    let before = device_with(0xF2, last_of_april(), noon());
    check_refused(&before, 0x00, "LB, AF, CF and POR");
    assert_eq!(before.registers[0x00], 0xF2);
}

#[test]
fn the_memory_and_its_address_stay() {
    let mut device = device_with(0x02, last_of_april(), noon());
    host::memory_write(&mut device, 0x0345, &[0x99]);
    check_refused(&device, 0x00, "memory");
}

/// "A core can then be invalid only by an image or state handed in."
#[test]
fn no_events_from_a_valid_core_make_it_invalid() {
    let mut lists = generate::random(61, 500_000);
    lists.extend(generate::structured(62, 500_000));
    let mut bad_registers = 0;
    for list in lists {
        let mut device = list.device();
        for event in &list.events {
            device.event(*event);
            assert!(device.core.is_valid(), "{} {}", list.family, list.name);
        }
        let bytes = device.registers[0x02..=0x08].try_into().expect("seven");
        bad_registers += usize::from(!is_valid(bytes));
    }
    // the registers themselves may hold anything
    assert!(bad_registers > 50, "{bad_registers}");
}

#[test]
fn a_device_without_power_takes_no_write() {
    let mut device = device_with(0x02, last_of_april(), noon());
    device.power = Power::Backup;
    let before = device.clone();
    let acknowledged = host::companion_write(&mut device, 0x00, &[0x00]);
    assert_eq!(acknowledged, [false, false, false]);
    assert_eq!(device, before);
}
