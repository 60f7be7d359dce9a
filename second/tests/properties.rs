// SPDX-License-Identifier: Apache-2.0
//! Properties that hold after every event of the generated lists.

mod snapshot;

use second::generate::{self, List};
use second::{Device, LogicalDevice, Phase, Power, Transfer};
use snapshot::{snapshot, Snapshot};

fn some_lists() -> Vec<List> {
    let mut lists = generate::random(21, 300_000);
    lists.extend(generate::structured(22, 200_000));
    lists
}

const FIXED_AT_ZERO: [u8; 15] = [
    0x00, 0x40, 0x80, 0x80, 0xC0, 0xF8, 0xC0, 0xE0, 0x00, 0x00, 0x00, 0x40, 0x40, 0x60, 0x00,
];

/// "State limits": addresses, clocks, bits fixed at 0 also in the core.
fn check_limits(device: &Device) {
    assert!(device.memory_address <= 8191);
    assert!(device.companion_address <= 14);
    assert!(device.transfer.clocks <= 8);
    assert_eq!(device.memory.len(), 8192);
    for (register, fixed) in device.registers.iter().zip(FIXED_AT_ZERO) {
        assert_eq!(register & fixed, 0);
    }
    for (byte, fixed) in device.core.to_bytes().iter().zip(&FIXED_AT_ZERO[2..=8]) {
        assert_eq!(byte & fixed, 0);
    }
}

#[test]
fn the_state_stays_within_the_limits() {
    for list in some_lists() {
        let mut device = list.device();
        for event in &list.events {
            device.event(*event);
            check_limits(&device);
        }
    }
}

/// Off: no transfer, both addresses 0; gone: the fixed registers.
#[test]
fn a_device_without_main_power_has_no_transfer_and_no_addresses() {
    for list in some_lists() {
        let mut device = list.device();
        for event in &list.events {
            device.event(*event);
            if device.power != Power::On {
                assert_eq!(device.transfer, Transfer::none());
                assert_eq!((device.memory_address, device.companion_address), (0, 0));
            }
            if device.power == Power::Gone {
                assert_eq!(device.registers, Device::fresh().registers);
                assert_eq!(device.core, Device::fresh().core);
            }
        }
    }
}

/// Bits 4 to 7 are 0; the line of other events is 1; a low master gives low.
fn check_answer(before: &Snapshot, event: u8, answer: u8, device: &Device) {
    assert_eq!(answer & 0xF0, 0);
    let line = answer & 1;
    match event {
        2 => assert_eq!(line, 0),
        3 => {
            let outside = before.transfer.phase == Phase::BetweenTransfers;
            assert!(line == 1 || !outside && before.power == Power::On);
        }
        _ => assert_eq!(line, 1),
    }
    let function = answer >> 1 & 3;
    assert_eq!(function, device.pin_function().number());
    let alarm = function == 1 && device.registers[0] & 0x40 != 0;
    assert_eq!(answer >> 3 == 1, alarm);
}

#[test]
fn answers_keep_to_their_bits() {
    for list in some_lists() {
        let mut device = list.device();
        for event in &list.events {
            let before = snapshot(&device);
            let answer = device.event(*event);
            check_answer(&before, *event, answer, &device);
        }
    }
}

/// Memory changes only at the eighth clock of a data byte for it, at the
/// current address, and only where it is not protected. The address steps on
/// there, protected or not.
fn check_memory_change(before: &Snapshot, event: u8, device: &Device, old: &mut [u8]) {
    let address = usize::from(before.memory_address);
    let data_clock = matches!(event, 2 | 3)
        && before.power == Power::On
        && before.transfer.phase == Phase::WriteData(LogicalDevice::Memory)
        && before.transfer.clocks == 7;
    let protected = match before.registers[0x0E] >> 3 & 3 {
        0 => false,
        1 => address < 0x0800,
        2 => address < 0x1000,
        _ => true,
    };
    if data_clock {
        assert_eq!(usize::from(device.memory_address), (address + 1) % 8192);
        assert_eq!(device.between_transfers(), protected);
    }
    if data_clock && !protected {
        let mut byte = 0;
        for bit in &before.transfer.received_bits[..7] {
            byte = byte << 1 | u8::from(*bit);
        }
        old[address] = byte << 1 | (event - 2);
    }
    assert_eq!(device.memory[address], old[address]);
}

#[test]
fn memory_changes_only_by_data_bytes() {
    for list in some_lists() {
        let mut device = list.device();
        let mut expected = device.memory.clone();
        for event in &list.events {
            let before = snapshot(&device);
            device.event(*event);
            check_memory_change(&before, *event, &device, &mut expected);
        }
        assert_eq!(device.memory, expected);
    }
}

/// Between transfers a Stop, a Clock and, with power, event 7 change nothing.
#[test]
fn nothing_happens_between_transfers_without_a_start() {
    for list in generate::random(31, 60_000) {
        let mut device = list.device();
        for event in &list.events {
            device.event(*event);
            if device.between_transfers() && matches!(event, 1 | 5 | 6) {
                let mut other = device.clone();
                other.run(&[1, 2, 3, 2, 3]);
                assert_eq!(other, device);
            }
        }
    }
}

#[test]
fn a_list_can_be_run_in_two_parts() {
    for list in generate::random(41, 100_000) {
        let mut whole = list.device();
        let answers = whole.run(&list.events);
        let middle = list.events.len() / 3;
        let mut parts = list.device();
        let mut joined = parts.run(&list.events[..middle]);
        joined.extend(parts.run(&list.events[middle..]));
        assert_eq!(joined, answers);
        assert_eq!(parts, whole);
        assert_eq!(answers.len(), list.events.len());
    }
}

/// A companion transaction leaves the memory and its address, and the other way
/// round; also with ticks in between.
#[test]
fn each_device_leaves_the_other_alone() {
    for list in generate::random(51, 300_000) {
        let mut device = list.device();
        for event in &list.events {
            let before = snapshot(&device);
            device.event(*event);
            if before.power != Power::On || *event > 3 {
                continue;
            }
            match before.transfer.phase {
                Phase::WriteData(LogicalDevice::Companion)
                | Phase::ReadData(LogicalDevice::Companion)
                | Phase::CompanionAddressByte => {
                    assert_eq!(device.memory_address, before.memory_address);
                }
                _ => {
                    assert_eq!(device.companion_address, before.companion_address);
                    assert_eq!(device.registers, before.registers);
                    assert_eq!(device.core, before.core);
                }
            }
        }
    }
}

/// The byte at the current address of the device that sends, if one does.
fn byte_held(device: &Device) -> Option<u8> {
    match device.transfer.phase {
        Phase::ReadData(LogicalDevice::Memory) => {
            Some(device.memory[usize::from(device.memory_address)])
        }
        Phase::ReadData(LogicalDevice::Companion) => {
            Some(device.registers[usize::from(device.companion_address)])
        }
        _ => None,
    }
}

/// What a read sends is what the register or the memory held at the first
/// clock, wherever ticks fall.
#[test]
fn every_byte_read_is_the_byte_at_its_first_clock() {
    let mut bits_checked = 0;
    for list in some_lists() {
        let mut device = list.device();
        let mut held_at_first_clock = 0;
        for event in &list.events {
            let held = byte_held(&device);
            let clocks = device.transfer.clocks;
            let answer = device.event(*event);
            let is_data_clock = matches!(event, 2 | 3) && clocks < 8;
            let Some(byte) = held.filter(|_| is_data_clock) else {
                continue;
            };
            if clocks == 0 {
                held_at_first_clock = byte;
            }
            let bit = held_at_first_clock >> (7 - clocks) & 1;
            assert_eq!(answer & 1, bit & (event - 2));
            bits_checked += 1;
        }
    }
    assert!(bits_checked > 20_000, "only {bits_checked} bits were read");
}
