// SPDX-License-Identifier: Apache-2.0
//! The larger family through the wrapper: counters, frozen reads, the lock, both sizes, refusals. What must
//! come out is that of docs/FAMILY.md.

use fm3130::family::{
    self, event, registers, ChosenSize, Fm31256, Fm3164, Part, Refusal, Size, REGISTER_COUNT,
};
use fm3130::{selector, Phase, Power, IMAGE_BYTES};

/// The registers at addresses 0Dh to 10h, over the bus.
fn counters<Chosen: ChosenSize>(device: &mut Part<Chosen>) -> Vec<u8> {
    device.read_registers(registers::COUNTER_1_LOW, 4).unwrap()
}

#[test]
fn counters_have_16_bits_and_roll_by_themselves() {
    let mut device = Fm3164::fresh();
    device.run(&[event::EDGE_1; 256]).unwrap();
    assert_eq!(counters(&mut device), [0x00, 0x01, 0x00, 0x00]);
    device
        .write_registers(registers::COUNTER_1_LOW, &[0xFF, 0xFF, 0xFE, 0xFF])
        .unwrap();
    device.run(&[event::EDGE_1, event::EDGE_2]).unwrap();
    assert_eq!(counters(&mut device), [0x00, 0x00, 0xFF, 0xFF]);
    device.step(event::EDGE_2).unwrap();
    assert_eq!(counters(&mut device), [0; 4]);
}

#[test]
fn the_pair_has_32_bits_and_listens_to_cnt1_alone() {
    let mut device = Fm31256::fresh();
    device
        .write_registers(registers::COUNTING, &[registers::CC])
        .unwrap();
    assert!(device.state().is_joined());
    device
        .write_registers(registers::COUNTER_1_LOW, &[0xFF, 0xFF, 0x00, 0x00])
        .unwrap();
    device.run(&[event::EDGE_2, event::EDGE_1]).unwrap();
    assert_eq!(counters(&mut device), [0x00, 0x00, 0x01, 0x00]);
    device
        .write_registers(registers::COUNTER_1_LOW, &[0xFF; 4])
        .unwrap();
    assert_eq!(device.counts().pair(), 0xFFFF_FFFF);
    device.step(event::EDGE_2).unwrap();
    assert_eq!(device.counts().pair(), 0xFFFF_FFFF);
    device.step(event::EDGE_1).unwrap();
    assert_eq!(device.counts().pair(), 0);
}

#[test]
fn frozen_reads_end_with_10h() {
    let mut device = Fm3164::fresh();
    device.run(&[event::EDGE_1, event::EDGE_2]).unwrap();
    device
        .write_registers(registers::COUNTING, &[registers::RC])
        .unwrap();
    device.run(&[event::EDGE_1; 5]).unwrap();
    assert_eq!(
        device.read_registers(registers::COUNTER_1_LOW, 3).unwrap(),
        [1, 0, 1]
    );
    assert!(device.state().is_frozen());
    assert_eq!(counters(&mut device), [1, 0, 1, 0]);
    assert!(!device.state().is_frozen());
    assert_eq!(counters(&mut device), [6, 0, 1, 0]);
}

#[test]
fn a_locked_serial_number_outlives_everything() {
    let mut device = Fm3164::fresh();
    device
        .write_registers(registers::SERIAL, b"LAMP0042")
        .unwrap();
    // The byte that locks is followed by others up to the serial number: those are its own too late.
    let bytes = [0x80, 0x00, 0x11, 0x22, 0x33, 0x44, 0x55, 0x66];
    assert_eq!(
        device.write_registers(registers::CONTROL, &bytes).unwrap(),
        [true; 8]
    );
    assert_eq!(device.counts().0, [0x11, 0x22, 0x33, 0x44]);
    let losses = [
        event::POWER_LOST_WITHOUT_BACKUP,
        event::EDGE_1,
        event::POWER_RETURNED,
    ];
    device.run(&losses).unwrap();
    device.write_registers(registers::CONTROL, &[0x1F]).unwrap();
    device.write_registers(registers::SERIAL, &[0; 8]).unwrap();
    let state = device.state();
    assert_eq!(&state.serial(), b"LAMP0042");
    assert!(state.is_locked());
    assert_eq!(state.register(registers::CONTROL), Some(0x9F));
    assert_eq!(state.register(registers::FLAGS), Some(0x60));
    assert_eq!(device.counts().pair(), 0);
}

/// What is the same for each size, at its own addresses.
fn memory_ends_at<Chosen: ChosenSize>() {
    let size = Part::<Chosen>::SIZE.bytes();
    let last = u16::try_from(size - 1).unwrap();
    let mut device = Part::<Chosen>::fresh();
    // The bits above the size are ignored, and the last address is followed by the first.
    assert_eq!(device.write_memory(0xFFFF, &[1, 2]).unwrap(), [true, true]);
    assert_eq!((device.memory()[size - 1], device.memory()[0]), (1, 2));
    assert_eq!(device.read_memory(last, 3).unwrap(), [1, 2, 0]);
    assert_eq!(device.state().memory_address, 2);
    for (bits, below) in [(0x08, size / 4), (0x10, size / 2), (0x18, size)] {
        device.write_registers(registers::CONTROL, &[bits]).unwrap();
        let limit = below as u16;
        let told = device.write_memory(limit.wrapping_sub(1), &[9]).unwrap();
        assert_eq!(told, [false], "{bits:02X}h protects {:04X}h", below - 1);
        // A refused byte steps the address on, and all after it are refused with it.
        assert_eq!(usize::from(device.state().memory_address), below % size);
        let told = device.write_memory(limit % size as u16, &[9]).unwrap();
        assert_eq!(told, [below < size], "{bits:02X}h, {below:04X}h");
    }
    assert_eq!(device.memory().len(), size);
}

#[test]
fn both_sizes_have_their_own_addresses() {
    memory_ends_at::<family::Kb64>();
    memory_ends_at::<family::Kb256>();
}

#[test]
fn addresses_outside_the_registers_are_not_acknowledged() {
    let mut device = Fm3164::fresh();
    for address in 0..=0xFF {
        let exists = (registers::FIRST..=registers::LAST).contains(&address);
        assert_eq!(
            device.read_registers(address, 1).unwrap().len(),
            usize::from(exists)
        );
        assert_eq!(registers::name(address).is_some(), exists);
        assert_eq!(device.phase(), Phase::Idle);
    }
    // All sixteen, and over the end to the first.
    let mut expected = device.registers().to_vec();
    expected.push(expected[0]);
    assert_eq!(
        device
            .read_registers(registers::FIRST, REGISTER_COUNT + 1)
            .unwrap(),
        expected
    );
    assert_eq!(device.state().companion_address, registers::FIRST + 1);
}

#[test]
fn edges_count_on_backup_and_not_without_supply() {
    let mut device = Fm3164::fresh();
    device.step(event::POWER_LOST_WITH_BACKUP).unwrap();
    device.step(event::EDGE_1).unwrap();
    assert_eq!((device.power(), device.counts().one()), (Power::Backup, 1));
    assert_eq!(counters(&mut device), []);
    device.step(event::POWER_LOST_WITHOUT_BACKUP).unwrap();
    device.step(event::EDGE_1).unwrap();
    assert_eq!((device.power(), device.counts().one()), (Power::None, 0));
}

#[test]
fn ticks_change_nothing() {
    let mut device = Fm31256::fresh();
    device.run(&[event::EDGE_1, event::START]).unwrap();
    let before = device.clone();
    assert_eq!(device.run(&[event::TICK; 100]), Ok(vec![1; 100]));
    assert_eq!(device, before);
}

#[test]
fn refusals_come_in_the_order_of_their_numbers_and_write_nothing() {
    for size in Size::ALL {
        let mut good = [0; IMAGE_BYTES];
        family::fresh(&mut good).unwrap();
        let (mut memory, mut answers) = (vec![3; size.bytes()], [7; 2]);
        let mut run = |image: &[u8], memory: &mut [u8], events: &[u8], room: usize| {
            let mut image = image.to_vec();
            let before = (image.clone(), memory.to_vec(), answers);
            let answered = family::run(size, &mut image, memory, events, &mut answers[..room]);
            if answered.is_err() {
                assert_eq!((image, memory.to_vec(), answers), before);
            }
            answered.map_err(Refusal::number)
        };
        let other = Size::ALL[usize::from(size == Size::Kb64)];
        assert_eq!(run(&[0; 64], &mut vec![3; other.bytes()], &[10], 0), Err(1));
        assert_eq!(run(&[0; 64], &mut memory, &[10], 0), Err(2));
        assert_eq!(run(&good[1..], &mut memory, &[10], 0), Err(2));
        assert_eq!(run(&good, &mut memory, &[9, 10], 0), Err(3));
        assert_eq!(run(&good, &mut memory, &[9], 0), Err(4));
        assert_eq!(run(&good, &mut memory, &[8, 9], 2), Ok(()));
        let step = |image: &[u8], memory: &[u8], event, told: &mut [u8]| {
            let (mut image, mut memory) = (image.to_vec(), memory.to_vec());
            family::step(size, &mut image, &mut memory, event, told).map_err(Refusal::number)
        };
        assert_eq!(step(&[0; 64], &[], 10, &mut []), Err(1));
        assert_eq!(step(&[0; 64], &memory, 10, &mut []), Err(2));
        assert_eq!(step(&good, &memory, 10, &mut []), Err(3));
        assert_eq!(step(&good, &memory, 9, &mut []), Err(4));
        assert_eq!(step(&good, &memory, 9, &mut [0]), Ok(()));
    }
}

#[test]
fn an_image_knows_no_size_but_its_address_does() {
    let mut device = Fm31256::fresh();
    device.write_memory(0x1FFE, &[1]).unwrap();
    let small = &device.memory()[..Size::Kb64.bytes()];
    assert!(Fm3164::from_parts(device.image(), small).is_ok());
    device.write_memory(0x1FFF, &[1]).unwrap();
    assert_eq!(device.state().memory_address, 0x2000);
    let small = &device.memory()[..Size::Kb64.bytes()];
    let refused = Fm3164::from_parts(device.image(), small);
    assert_eq!(refused, Err(Refusal::Image));
}

#[test]
fn an_image_of_another_part_is_refused() {
    let clock = fm3130::Device::fresh();
    let refused = Fm3164::from_parts(clock.image(), clock.memory());
    assert_eq!(refused, Err(Refusal::Image));
    let refused = fm3130::Device::from_parts(Fm3164::fresh().image(), clock.memory());
    assert_eq!(refused, Err(fm3130::Refusal::Image));
}

#[test]
fn the_viewer_gives_a_part_and_never_a_copy() {
    let device = Fm31256::fresh();
    let part = device.view(selector::MEMORY, 0x7FF0, 16).unwrap();
    assert!(std::ptr::eq(part, &device.memory()[0x7FF0..]));
    let part = device.view(selector::REGISTERS, 8, 8).unwrap();
    assert!(std::ptr::eq(part, &device.image()[8..16]));
    assert_eq!(device.view(selector::REGISTERS, 16, 0), Ok(&[][..]));
    let refused = device.view(selector::REGISTERS, 16, 1);
    assert_eq!(refused, Err(Refusal::PastTheEnd));
    assert_eq!(device.view(2, 0, 0), Err(Refusal::Selector));
    let refused = device.view(selector::MEMORY, u64::MAX, u64::MAX);
    assert_eq!(refused, Err(Refusal::PastTheEnd));
}

#[test]
fn numbers_words_and_sizes_are_those_of_the_header() {
    let header = include_str!("../../../include/fm31.h");
    let header: Vec<&str> = header.split_whitespace().collect();
    let header = header.join(" ");
    for refusal in [
        Refusal::MemoryLength,
        Refusal::Image,
        Refusal::UnknownEvent,
        Refusal::ShortAnswers,
        Refusal::Selector,
        Refusal::PastTheEnd,
    ] {
        let numbers = header.split("enum fm31_number {").nth(1).unwrap();
        let line = numbers
            .split(&format!("= {}", refusal.number()))
            .nth(1)
            .unwrap();
        let comment = line.split("*/").next().unwrap();
        assert!(comment.contains(refusal.words()), "{comment}");
    }
    for size in Size::ALL {
        let line = format!("{size}_MEMORY_BYTES {}", size.bytes());
        assert!(header.contains(&line), "{line}");
    }
}

#[test]
fn every_register_has_its_words() {
    for size in Size::ALL {
        for address in registers::FIRST..=registers::LAST {
            for byte in 0..=0xFF {
                assert!(!registers::words(size, address, byte).is_empty());
            }
        }
    }
    assert_eq!(registers::words(Size::Kb64, 0x08, 0), "");
    let words = registers::words(Size::Kb64, registers::WATCHDOG, 0x9F);
    assert_eq!(words, "WDE=1 WDT=11111, drives nothing");
    let words = registers::words(Size::Kb64, registers::CONTROL, 0x1F);
    assert_eq!(
        words,
        "serial number open, writes refused everywhere, VTP 4.4 V, VBC"
    );
}
