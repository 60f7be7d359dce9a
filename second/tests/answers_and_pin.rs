// SPDX-License-Identifier: Apache-2.0
//! "Event bytes and answer bytes".

use second::generate::Script;
use second::host;
use second::{Device, PinFunction};

/// A device with the given 00h (AF included) and 0Eh.
fn device_with(control: u8, alarm_and_protection: u8) -> Device {
    let mut device = Device::fresh();
    device.registers[0x00] = control;
    device.registers[0x0E] = alarm_and_protection;
    device
}

#[test]
fn the_line_is_1_for_every_event_but_a_clock() {
    for event in [0, 1, 4, 5, 6, 7] {
        assert_eq!(Device::fresh().event(event) & 1, 1);
    }
}

#[test]
fn the_line_of_a_clock_outside_a_transfer_is_the_masters() {
    let mut device = Device::fresh();
    assert_eq!(device.event(2), 4);
    assert_eq!(device.event(3), 5);
    assert_eq!(device, Device::fresh());
}

#[test]
fn calibration_comes_first() {
    for enable in [0x00, 0x08] {
        for select in [0x00, 0x80] {
            let mut device = device_with(0x04 | enable, select);
            assert_eq!(device.event(1), 0b111);
            assert_eq!(device.pin_function(), PinFunction::Calibration);
        }
    }
}

#[test]
fn square_wave_when_select_is_0() {
    for enable in [0x00, 0x08] {
        assert_eq!(device_with(enable, 0x00).event(1), 0b101);
        // only bit 7 of 0Eh is AL/SW
        assert_eq!(device_with(enable, 0x7F).event(1), 0b101);
    }
}

#[test]
fn alarm_when_enabled_and_selected() {
    assert_eq!(device_with(0x08, 0x80).event(1), 0b0011);
    assert_eq!(device_with(0x48, 0x80).event(1), 0b1011);
}

#[test]
fn released_when_selected_but_not_enabled() {
    assert_eq!(device_with(0x00, 0x80).event(1), 0b0001);
    assert_eq!(device_with(0x40, 0x80).event(1), 0b0001);
}

#[test]
fn bit_3_needs_the_function_alarm_and_the_flag() {
    // AF alone under each other function
    assert_eq!(device_with(0x44, 0x80).event(1), 0b0111);
    assert_eq!(device_with(0x4C, 0x80).event(1), 0b0111);
    assert_eq!(device_with(0x48, 0x00).event(1), 0b0101);
}

#[test]
fn every_combination_of_00h_and_0eh() {
    for control in 0..=255_u8 {
        for other in [0x00, 0x7F, 0x80, 0xFF] {
            let calibration = control & 4 != 0;
            let enable = control & 8 != 0;
            let select = other & 0x80 != 0;
            let function = match (calibration, enable, select) {
                (true, _, _) => 3,
                (false, _, false) => 2,
                (false, true, true) => 1,
                (false, false, true) => 0,
            };
            let flag = u8::from(function == 1 && control & 0x40 != 0);
            let answer = device_with(control, other).event(1);
            assert_eq!(answer, 1 + 2 * function + 8 * flag);
        }
    }
}

#[test]
fn the_answer_shows_the_pin_after_the_event() {
    let mut device = Device::fresh();
    host::companion_write(&mut device, 0x0E, &[0x80]);
    let mut script = Script::new();
    script.begin_companion_write(0x00).byte(0x08);
    let answers = host::run_script(&mut device, &script);
    let count = answers.len();
    // seventh clock of the data byte: still released; eighth: alarm
    assert_eq!(answers[count - 2] & 0b110, 0);
    assert_eq!(answers[count - 1] & 0b110, 2);
}

#[test]
fn the_pin_works_on_backup_and_is_released_without_any_supply() {
    let mut device = device_with(0x48, 0x80);
    assert_eq!(device.event(5), 0b1011);
    assert_eq!(device.event(0), 0b1011);
    assert_eq!(device.event(6), 0b0001);
    assert_eq!(device.event(4), 0b0001);
    // registers are all 0 but some: square wave when power is back
    assert_eq!(device.event(7), 0b0101);
}

#[test]
fn the_pin_is_released_after_event_6_while_on() {
    for control in [0x00, 0x04, 0x08] {
        assert_eq!(device_with(control, 0x80).event(6), 0b0001);
    }
}
