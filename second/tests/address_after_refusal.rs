// SPDX-License-Identifier: Apache-2.0
//! 02, number 3: "a refused data byte steps the address too, from 1FFFh to
//! 0000h, and still changes no memory."

use second::generate::{self, fill_memory, List, Script};
use second::host;
use second::{table, Device};

/// The settings of WP1 WP0 with the last protected address of each.
const PROTECTIONS: [(u8, Option<u16>); 4] = [
    (0x00, None),
    (0x08, Some(0x07FF)),
    (0x10, Some(0x0FFF)),
    (0x18, Some(0x1FFF)),
];

const BORDERS: [u16; 6] = [0x0000, 0x07FF, 0x0800, 0x0FFF, 0x1000, 0x1FFF];

/// A device with a memory of many different bytes and a given 0Eh.
fn device_with(protection: u8) -> Device {
    let mut device = Device::fresh();
    fill_memory(77, &mut device.memory);
    device.registers[0x0E] = protection;
    device
}

/// A data byte that differs from what the memory holds.
fn other_byte(device: &Device, address: u16) -> u8 {
    device.memory[usize::from(address)] ^ 0xFF
}

fn is_protected(address: u16, last_protected: Option<u16>) -> bool {
    last_protected.is_some_and(|last| address <= last)
}

fn next_address(address: u16) -> u16 {
    if address == 0x1FFF {
        0x0000
    } else {
        address + 1
    }
}

#[test]
fn k8_gains_the_address_0800h() {
    let cases = table::cases();
    let case = cases.iter().find(|case| case.name == "K8").expect("K8");
    assert!(case.expected.contains("address 0800h"));
    assert!(case.holds());
}

#[test]
fn refused_or_stored_the_address_steps_at_every_border() {
    for (protection, last_protected) in PROTECTIONS {
        for address in BORDERS {
            let mut device = device_with(protection);
            let mut expected = device.memory.clone();
            let byte = other_byte(&device, address);
            let refused = is_protected(address, last_protected);
            if !refused {
                expected[usize::from(address)] = byte;
            }
            let acknowledged = host::memory_write(&mut device, address, &[byte]);
            assert_eq!(acknowledged, [true, true, true, !refused]);
            assert_eq!(device.memory_address, next_address(address));
            assert_eq!(device.memory, expected);
        }
    }
}

#[test]
fn under_full_protection_every_address_steps_and_no_byte_changes() {
    let mut device = device_with(0x18);
    let memory = device.memory.clone();
    for address in 0..=0x1FFF {
        let byte = other_byte(&device, address);
        assert!(!host::memory_write(&mut device, address, &[byte])[3]);
        assert_eq!(device.memory_address, next_address(address));
    }
    assert_eq!(device.memory, memory);
}

#[test]
fn a_read_that_sets_no_address_goes_on_behind_the_refused_byte() {
    for (protection, last_protected) in PROTECTIONS {
        for address in BORDERS {
            if !is_protected(address, last_protected) {
                continue;
            }
            let mut device = device_with(protection);
            let byte = other_byte(&device, address);
            host::memory_write(&mut device, address, &[byte]);
            let first = next_address(address);
            let second = next_address(first);
            let expected = [
                device.memory[usize::from(first)],
                device.memory[usize::from(second)],
            ];
            assert_eq!(host::read(&mut device, 0xA1, 2), expected);
            assert_eq!(device.memory_address, next_address(second));
        }
    }
}

#[test]
fn the_address_steps_at_the_eighth_clock_of_the_refused_byte() {
    for clocks in 0..=9_u8 {
        let mut device = device_with(0x08);
        let mut script = Script::new();
        script.begin_memory_write(0x0123);
        script.first_bits(0xA5, clocks.min(8));
        if clocks == 9 {
            script.acknowledge_clock(true);
        }
        host::run_script(&mut device, &script);
        let expected = if clocks >= 8 { 0x0124 } else { 0x0123 };
        assert_eq!(device.memory_address, expected, "{clocks} clocks");
        assert_eq!(device.between_transfers(), clocks >= 8);
    }
}

#[test]
fn a_refused_byte_cut_before_its_eighth_clock_steps_nothing() {
    for clocks in 0..8_u8 {
        for cut in [0, 1] {
            let mut device = device_with(0x18);
            let mut script = Script::new();
            script.begin_memory_write(0x1FFF).first_bits(0xA5, clocks);
            host::run_script(&mut device, script.event(cut));
            assert_eq!(device.memory_address, 0x1FFF);
        }
    }
}

#[test]
fn bytes_after_the_refused_one_step_nothing_more() {
    for count in 1..6 {
        let mut device = device_with(0x10);
        let acknowledged = host::memory_write(&mut device, 0x0FFF, &vec![0x33; count]);
        assert!(acknowledged[3..].iter().all(|given| !given));
        assert_eq!(device.memory_address, 0x1000);
        // 1000h itself is not protected and was not written to either
        assert_eq!(device.memory, device_with(0x10).memory);
    }
}

#[test]
fn the_refused_ninth_clock_is_the_masters() {
    for ninth in [false, true] {
        let mut device = device_with(0x08);
        let mut script = Script::new();
        script.begin_memory_write(0x0400).byte(0x11);
        host::run_script(&mut device, &script);
        let event = if ninth { 3 } else { 2 };
        assert_eq!(host::line_is_high(device.event(event)), ninth);
        assert_eq!(device.memory_address, 0x0401);
    }
}

#[test]
fn a_stored_byte_and_then_a_refused_one_step_twice() {
    let mut device = device_with(0x08);
    let acknowledged = host::memory_write(&mut device, 0x1FFF, &[0x44, 0x55]);
    assert_eq!(acknowledged, [true, true, true, true, false]);
    assert_eq!(device.memory_address, 0x0001);
    assert_eq!(device.memory[0x1FFF], 0x44);
    assert_eq!(device.memory[0x0000], device_with(0).memory[0x0000]);
}

#[test]
fn the_companion_address_is_left_alone() {
    let mut device = device_with(0x18);
    host::companion_write(&mut device, 0x07, &[]);
    host::memory_write(&mut device, 0x0000, &[0x01]);
    assert_eq!(device.companion_address, 0x07);
}

/// A companion address byte above 0Eh is no data byte: "old address stands".
#[test]
fn a_refused_companion_address_steps_nothing() {
    let mut device = device_with(0x18);
    host::companion_write(&mut device, 0x07, &[]);
    host::companion_write(&mut device, 0x0F, &[0x01]);
    assert_eq!(device.companion_address, 0x07);
    assert_eq!(device.memory_address, 0x0000);
}

/// The bytes that the last read of a list shows, from its answers.
fn last_two_bytes_read(list: &List) -> [u8; 2] {
    let answers = list.device().run(&list.events);
    let end = answers.len() - 1;
    let first = host::byte_on_line(&answers[end - 18..end - 10]);
    let second = host::byte_on_line(&answers[end - 9..end - 1]);
    [first, second]
}

/// In every list of the two families that refuses a byte at 07FFh under WP 01
/// and then reads two bytes, these are the bytes at 0800h and 0801h.
#[test]
fn the_lists_show_the_address_after_a_refusal() {
    let mut shown = 0;
    for list in generate::exhaustive() {
        let ending = match list.family {
            "reading-on" => "read after a Stop for the ninth clock",
            "data-byte-cuts" => "8 clocks, 1",
            _ => continue,
        };
        if list.name != format!("WP 01, 07FFh, {ending}") {
            continue;
        }
        let memory = list.device().memory;
        assert_eq!(last_two_bytes_read(&list), memory[0x0800..0x0802]);
        assert_ne!(memory[0x07FF..0x0801], memory[0x0800..0x0802]);
        shown += 1;
    }
    assert_eq!(shown, 2);
}
