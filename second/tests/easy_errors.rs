// SPDX-License-Identifier: Apache-2.0
//! "Errors that come easily", one test or more for each.

use second::calendar::calendar_from_numbers;
use second::generate::Script;
use second::host;
use second::Device;

/// A device with the oscillator running and an alarm every second.
fn device_with_alarm_every_second() -> Device {
    let mut device = Device::fresh();
    let calendar = calendar_from_numbers((10, 20, 30), 2, (5, 6, 7));
    host::load_calendar(&mut device, calendar, 0x00);
    host::companion_write(&mut device, 0x09, &[0x80, 0x80, 0x80, 0x80, 0x80]);
    host::companion_write(&mut device, 0x00, &[]);
    assert_eq!(device.registers[0x00], 0x00);
    device
}

/// Reads 00h at the current address with a tick before the given clock (0 to 8
/// of the data byte); returns the byte on the line.
fn read_control_with_tick_before(device: &mut Device, clock: usize) -> u8 {
    host::begin(device, 0xD1);
    let mut answers = Vec::new();
    for index in 0..8 {
        if index == clock {
            host::tick(device);
        }
        answers.push(device.event(3));
    }
    if clock == 8 {
        host::tick(device);
    }
    device.event(3);
    device.event(1);
    host::byte_on_line(&answers)
}

#[test]
fn an_alarm_raised_after_the_byte_was_fixed_is_not_cleared() {
    for clock in 1..=8 {
        let mut device = device_with_alarm_every_second();
        assert_eq!(read_control_with_tick_before(&mut device, clock), 0x00);
        assert_eq!(device.registers[0x00], 0x40, "tick before clock {clock}");
        assert_eq!(host::companion_read(&mut device, 0x00, 1), [0x40]);
        assert_eq!(device.registers[0x00], 0x00);
    }
}

#[test]
fn an_alarm_raised_before_the_byte_is_fixed_is_shown_and_cleared() {
    let mut device = device_with_alarm_every_second();
    assert_eq!(read_control_with_tick_before(&mut device, 0), 0x40);
    assert_eq!(device.registers[0x00], 0x00);
}

#[test]
fn a_flag_that_was_shown_and_is_raised_again_is_cleared() {
    // "clears ... those of AF and CF that the byte sent showed as 1" (READINGS 5)
    for clock in 1..=7 {
        let mut device = device_with_alarm_every_second();
        host::tick(&mut device);
        assert_eq!(read_control_with_tick_before(&mut device, clock), 0x40);
        assert_eq!(device.registers[0x00], 0x00, "tick before clock {clock}");
    }
    // a tick after the eighth clock is a new alarm
    let mut device = device_with_alarm_every_second();
    host::tick(&mut device);
    assert_eq!(read_control_with_tick_before(&mut device, 8), 0x40);
    assert_eq!(device.registers[0x00], 0x40);
}

#[test]
fn the_century_flag_alone_is_raised_in_the_middle_of_a_read() {
    let mut device = device_with_alarm_every_second();
    host::tick(&mut device);
    // an alarm that does not come again
    host::companion_write(&mut device, 0x09, &[0x33]);
    device.core = calendar_from_numbers((23, 59, 59), 7, (31, 12, 99));
    host::companion_write(&mut device, 0x00, &[]);
    assert_eq!(device.registers[0x00], 0x40);
    assert_eq!(read_control_with_tick_before(&mut device, 4), 0x40);
    // AF was shown, CF was not
    assert_eq!(device.registers[0x00], 0x20);
}

#[test]
fn the_byte_is_stored_at_the_eighth_clock_not_at_the_acknowledge() {
    let mut device = Device::fresh();
    let mut script = Script::new();
    script.begin_memory_write(0x0100).first_bits(0xAB, 7);
    host::run_script(&mut device, &script);
    assert_eq!(device.memory[0x0100], 0x00);
    assert_eq!(device.memory_address, 0x0100);
    device.event(3);
    assert_eq!(device.memory[0x0100], 0xAB);
    assert_eq!(device.memory_address, 0x0101);
    device.event(3);
    assert_eq!(device.memory[0x0100], 0xAB);
    assert_eq!(device.memory_address, 0x0101);
}

#[test]
fn a_register_is_stored_at_the_eighth_clock_not_at_the_acknowledge() {
    let mut device = Device::fresh();
    let mut script = Script::new();
    script.begin_companion_write(0x0A).first_bits(0x35, 7);
    host::run_script(&mut device, &script);
    assert_eq!(device.registers[0x0A], 0x00);
    device.event(3);
    assert_eq!(device.registers[0x0A], 0x35);
    assert_eq!(device.companion_address, 0x0B);
}

#[test]
fn the_two_devices_have_two_addresses() {
    let mut device = Device::fresh();
    host::memory_write(&mut device, 0x0A05, &[1, 2, 3]);
    assert_eq!(device.memory_address, 0x0A08);
    assert_eq!(device.companion_address, 0x00);
    host::companion_write(&mut device, 0x09, &[0x11]);
    assert_eq!(device.memory_address, 0x0A08);
    assert_eq!(device.companion_address, 0x0A);
    host::read(&mut device, 0xD1, 2);
    assert_eq!(device.memory_address, 0x0A08);
    assert_eq!(device.companion_address, 0x0C);
    host::read(&mut device, 0xA1, 4);
    assert_eq!(device.memory_address, 0x0A0C);
    assert_eq!(device.companion_address, 0x0C);
}

#[test]
fn nine_goes_to_ten_in_every_decimal_field() {
    let cases = [
        ((12, 34, 9), (15, 6, 21)),
        ((12, 9, 59), (15, 6, 21)),
        ((9, 59, 59), (15, 6, 21)),
        ((23, 59, 59), (9, 6, 21)),
        ((23, 59, 59), (30, 9, 21)),
        ((23, 59, 59), (31, 12, 9)),
    ];
    let places = [0, 1, 2, 4, 5, 6];
    for (case, place) in cases.iter().zip(places) {
        let mut device = Device::fresh();
        host::load_calendar(&mut device, calendar_from_numbers(case.0, 3, case.1), 0);
        assert_eq!(device.core.to_bytes()[place], 0x09);
        host::tick(&mut device);
        assert_eq!(device.core.to_bytes()[place], 0x10);
        assert_eq!(host::read_calendar(&mut device).to_bytes()[place], 0x10);
    }
}

/// "Writing answers before an unknown event is found late in the list": here
/// the list is refused by the program that reads it, before the first event.
#[test]
fn an_unknown_event_late_in_the_list_gives_no_answers_at_all() {
    use std::io::Write;
    use std::process::{Command, Stdio};
    let mut child = Command::new(env!("CARGO_BIN_EXE_second-answers"))
        .stdin(Stdio::piped())
        .stdout(Stdio::piped())
        .stderr(Stdio::piped())
        .spawn()
        .expect("the program starts");
    let mut input = child.stdin.take().expect("it has an input");
    input.write_all(&[0, 3, 2, 3, 8]).expect("it is read");
    drop(input);
    let output = child.wait_with_output().expect("it ends");
    assert!(!output.status.success());
    assert!(output.stdout.is_empty());
}
