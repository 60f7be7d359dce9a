// SPDX-License-Identifier: Apache-2.0
//! The rules of "Registers", sentence by sentence.

use second::calendar::calendar_from_numbers;
use second::host;
use second::{Calendar, Device};

fn noon() -> Calendar {
    calendar_from_numbers((12, 0, 0), 4, (10, 11, 12))
}

fn evening() -> Calendar {
    calendar_from_numbers((21, 43, 5), 6, (28, 2, 77))
}

/// A device with a core and different calendar registers, and a given 00h.
fn device_with(control: u8, core: Calendar, shown: Calendar) -> Device {
    let mut device = Device::fresh();
    device.registers[0x00] = control;
    device.core = core;
    device.registers[0x02..=0x08].copy_from_slice(&shown.to_bytes());
    device
}

fn shown(device: &Device) -> Vec<u8> {
    device.registers[0x02..=0x08].to_vec()
}

#[test]
fn a_write_of_00h_bit_by_bit() {
    for old in 0..=255_u8 {
        for byte in 0..=255_u8 {
            let mut device = device_with(old, noon(), noon());
            device.companion_address = 0;
            host::companion_write(&mut device, 0x00, &[byte]);
            let mut expected = 0;
            for place in 0..8 {
                let before = old >> place & 1;
                let written = byte >> place & 1;
                let after = match place {
                    0..=3 => written,          // R, W, CAL, AEN
                    4 | 7 => before & written, // POR and LB
                    _ => before,               // CF and AF
                };
                expected |= after << place;
            }
            assert_eq!(device.registers[0x00], expected);
        }
    }
}

#[test]
fn reading_00h_clears_shown_flags_at_the_eighth_clock() {
    for flags in [0x00, 0x20, 0x40, 0x60] {
        let mut device = Device::fresh();
        device.registers[0x00] = 0x9C | flags;
        host::begin(&mut device, 0xD1);
        for _ in 0..7 {
            device.event(3);
            assert_eq!(device.registers[0x00], 0x9C | flags);
        }
        device.event(3);
        assert_eq!(device.registers[0x00], 0x9C);
    }
}

#[test]
fn a_read_of_00h_that_is_cut_clears_nothing() {
    for cut in [0, 1, 5] {
        let mut device = Device::fresh();
        device.registers[0x00] = 0x60;
        host::begin(&mut device, 0xD1);
        for _ in 0..7 {
            device.event(3);
        }
        device.event(cut);
        assert_eq!(device.registers[0x00], 0x60);
    }
}

#[test]
fn reading_another_register_clears_nothing() {
    let mut device = Device::fresh();
    device.registers[0x00] = 0x60;
    host::companion_read(&mut device, 0x01, 14);
    assert_eq!(device.registers[0x00], 0x60);
    assert_eq!(device.companion_address, 0x00);
    // going on from 0Eh to 00h is a read of 00h
    assert_eq!(host::read(&mut device, 0xD1, 1), [0x60]);
    assert_eq!(device.registers[0x00], 0x00);
}

#[test]
fn a_read_of_memory_clears_nothing() {
    let mut device = Device::fresh();
    device.registers[0x00] = 0x60;
    device.memory[0] = 0xFF;
    host::memory_read(&mut device, 0x0000, 1);
    assert_eq!(device.registers[0x00], 0x60);
}

#[test]
fn the_calibration_bits_need_cal_before_the_write() {
    for byte in 0..=255_u8 {
        for old in [0x00, 0x15, 0x3F] {
            let mut without = device_with(0x00, noon(), noon());
            without.registers[0x01] = old;
            host::companion_write(&mut without, 0x01, &[byte]);
            assert_eq!(without.registers[0x01], byte & 0x80 | old);
            let mut with = device_with(0x04, noon(), noon());
            with.registers[0x01] = old;
            host::companion_write(&mut with, 0x01, &[byte]);
            assert_eq!(with.registers[0x01], byte & 0xBF);
        }
    }
}

#[test]
fn cal_written_in_the_same_transfer_counts_for_the_next_byte() {
    let mut device = Device::fresh();
    host::companion_write(&mut device, 0x00, &[0x04, 0x2A]);
    assert_eq!(device.registers[0x01], 0x2A);
    host::companion_write(&mut device, 0x00, &[0x00, 0x95]);
    assert_eq!(device.registers[0x01], 0xAA);
}

#[test]
fn calendar_bytes_keep_their_stored_bits_when_w_is_1() {
    let stored = [0x7F, 0x7F, 0x3F, 0x07, 0x3F, 0x1F, 0xFF];
    for (index, mask) in stored.iter().enumerate() {
        for byte in 0..=255_u8 {
            let mut device = device_with(0x02, noon(), noon());
            let address = 0x02 + index as u8;
            let acknowledged = host::companion_write(&mut device, address, &[byte]);
            assert_eq!(acknowledged, [true, true, true]);
            assert_eq!(device.registers[usize::from(address)], byte & mask);
            assert_eq!(device.core, noon());
        }
    }
}

#[test]
fn calendar_bytes_are_acknowledged_and_not_stored_when_w_is_0() {
    for control in [0x00, 0x01, 0x04, 0x08] {
        for address in 0x02..=0x08 {
            let mut device = device_with(control, noon(), noon());
            let before = device.registers;
            let acknowledged = host::companion_write(&mut device, address, &[0xFF]);
            assert_eq!(acknowledged, [true, true, true]);
            assert_eq!(device.registers, before);
            // the address steps on all the same (READINGS 4)
            assert_eq!(device.companion_address, address + 1);
        }
    }
}

#[test]
fn alarm_bytes_keep_match_and_the_calendar_bits() {
    let stored = [0xFF, 0xFF, 0xBF, 0xBF, 0x9F];
    for control in [0x00, 0x02] {
        for (index, mask) in stored.iter().enumerate() {
            for byte in 0..=255_u8 {
                let mut device = device_with(control, noon(), noon());
                let address = 0x09 + index as u8;
                host::companion_write(&mut device, address, &[byte]);
                assert_eq!(device.registers[usize::from(address)], byte & mask);
            }
        }
    }
}

#[test]
fn all_bits_of_0eh_are_stored() {
    for byte in 0..=255_u8 {
        let mut device = Device::fresh();
        host::companion_write(&mut device, 0x0E, &[byte]);
        assert_eq!(device.registers[0x0E], byte);
        assert_eq!(host::companion_read(&mut device, 0x0E, 1), [byte]);
    }
}

#[test]
fn when_w_falls_the_core_takes_the_registers() {
    let mut device = device_with(0x02, noon(), evening());
    host::companion_write(&mut device, 0x00, &[0x00]);
    assert_eq!(device.core, evening());
    assert_eq!(shown(&device), evening().to_bytes());
}

#[test]
fn w_that_stays_or_rises_moves_nothing_into_the_core() {
    for old in [0x00, 0x02] {
        let mut device = device_with(old, noon(), evening());
        host::companion_write(&mut device, 0x00, &[0x02]);
        assert_eq!(device.core, noon());
        assert_eq!(shown(&device), evening().to_bytes());
    }
}

#[test]
fn when_r_rises_the_registers_take_the_core() {
    let mut device = device_with(0x00, noon(), evening());
    host::companion_write(&mut device, 0x00, &[0x01]);
    assert_eq!(device.core, noon());
    assert_eq!(shown(&device), noon().to_bytes());
}

#[test]
fn r_rising_while_w_stays_1_takes_the_core_too() {
    let mut device = device_with(0x02, noon(), evening());
    host::companion_write(&mut device, 0x00, &[0x03]);
    assert_eq!(device.core, noon());
    assert_eq!(shown(&device), noon().to_bytes());
}

#[test]
fn r_that_stays_1_moves_nothing() {
    for write in [0x00, 0x02] {
        let mut device = device_with(0x01, noon(), evening());
        host::companion_write(&mut device, 0x00, &[0x01 | write]);
        assert_eq!(device.core, noon());
        assert_eq!(shown(&device), evening().to_bytes());
    }
}

#[test]
fn w_falling_comes_before_r_rising() {
    let mut device = device_with(0x02, noon(), evening());
    host::companion_write(&mut device, 0x00, &[0x01]);
    // the other order would leave noon in both
    assert_eq!(device.core, evening());
    assert_eq!(shown(&device), evening().to_bytes());
}

#[test]
fn w_falling_while_r_stays_1_loads_the_core() {
    let mut device = device_with(0x03, noon(), evening());
    host::companion_write(&mut device, 0x00, &[0x01]);
    assert_eq!(device.core, evening());
    assert_eq!(shown(&device), evening().to_bytes());
}

#[test]
fn when_both_are_0_the_registers_take_the_core() {
    // R falls, W was 0: the registers follow at once
    let mut device = device_with(0x01, noon(), evening());
    host::companion_write(&mut device, 0x00, &[0x00]);
    assert_eq!(device.core, noon());
    assert_eq!(shown(&device), noon().to_bytes());
    // nothing changes in W and R, and still the registers take the core
    let mut device = device_with(0x00, noon(), evening());
    host::companion_write(&mut device, 0x00, &[0x00]);
    assert_eq!(shown(&device), noon().to_bytes());
}

#[test]
fn every_change_of_w_and_r() {
    for old in 0..4_u8 {
        for new in 0..4_u8 {
            let mut device = device_with(old, noon(), evening());
            host::companion_write(&mut device, 0x00, &[new]);
            let write_falls = old & 2 != 0 && new & 2 == 0;
            let read_rises = old & 1 == 0 && new & 1 != 0;
            let core = if write_falls { evening() } else { noon() };
            let follows = read_rises || new == 0;
            let expected = if follows { core } else { evening() };
            assert_eq!(device.core, core, "{old} to {new}");
            assert_eq!(shown(&device), expected.to_bytes(), "{old} to {new}");
        }
    }
}

#[test]
fn w_and_r_written_in_one_transfer_with_the_calendar() {
    // 0Eh, then 00h, then 01h to 08h, then on to 0Eh and 00h again
    let mut device = Device::fresh();
    let mut data = vec![0x00, 0x02, 0x00];
    data.extend(evening().to_bytes());
    data.extend([0x80, 0x80, 0x80, 0x80, 0x80, 0x00, 0x00]);
    host::companion_write(&mut device, 0x0E, &data);
    assert_eq!(device.companion_address, 0x01);
    assert_eq!(device.core, evening());
    assert_eq!(host::read_calendar(&mut device), evening());
}
