// SPDX-License-Identifier: Apache-2.0
//! 02, number 1: "given an address and bytes, it writes the events of one whole
//! transaction; given the answer bytes, it says which data bytes were
//! acknowledged, or which bytes were read (none if a slave or address byte went
//! unacknowledged)".

use second::generate::{self, any_state, RandomSource};
use second::registers::is_protected;
use second::wire::{
    length_of_read, length_of_write, read_events, read_told, write_events, write_told,
};
use second::{Device, Power, State};

/// More than any transaction needs.
const PLENTY: usize = 10_000;

fn write(device: &mut Device, address: u16, bytes: &[u8]) -> Vec<u8> {
    let events = write_events(address, bytes, PLENTY).expect("not refused");
    let answers = device.run(&events);
    write_told(bytes.len(), &answers, PLENTY).expect("not refused")
}

fn read(device: &mut Device, address: u16, count: usize) -> Vec<u8> {
    let events = read_events(address, count, PLENTY).expect("not refused");
    let answers = device.run(&events);
    read_told(count, &answers, PLENTY).expect("not refused")
}

// ----- the events, written out -----

/// Clocks from text: 0 and 1 for the master's line, S Start, P Stop.
fn events_from_text(text: &str) -> Vec<u8> {
    text.chars()
        .filter(|letter| *letter != ' ')
        .map(|letter| match letter {
            'S' => 0,
            'P' => 1,
            '0' => 2,
            '1' => 3,
            _ => panic!("no event"),
        })
        .collect()
}

#[test]
fn a_write_written_out() {
    let expected = "S 10100000 1 00010010 1 00110100 1 01011010 1 11000011 1 P";
    assert_eq!(
        write_events(0x1234, &[0x5A, 0xC3], PLENTY),
        Ok(events_from_text(expected))
    );
}

/// A write of none sets the address.
#[test]
fn a_write_of_none_written_out() {
    let expected = "S 10100000 1 00011111 1 11111111 1 P";
    assert_eq!(
        write_events(0x1FFF, &[], PLENTY),
        Ok(events_from_text(expected))
    );
    let mut device = Device::fresh();
    assert_eq!(write(&mut device, 0x1FFF, &[]), []);
    assert_eq!(device.memory_address, 0x1FFF);
    assert!(device.between_transfers());
}

/// "A read sets its address first and ends its last byte high."
#[test]
fn a_read_written_out() {
    let expected =
        "S 10100000 1 00010010 1 00110100 1 S 10100001 1 11111111 0 11111111 0 11111111 1 P";
    assert_eq!(
        read_events(0x1234, 3, PLENTY),
        Ok(events_from_text(expected))
    );
    let expected = "S 10100000 1 00000000 1 00000000 1 S 10100001 1 11111111 1 P";
    assert_eq!(read_events(0, 1, PLENTY), Ok(events_from_text(expected)));
}

#[test]
fn there_are_as_many_events_as_said() {
    for count in 0..=256 {
        let events = write_events(0x0100, &vec![0xA5; count], PLENTY).expect("not refused");
        assert_eq!(events.len(), 29 + 9 * count);
        assert_eq!(length_of_write(count), events.len());
        assert!(events.iter().all(|event| *event <= 3));
        assert_eq!(events.iter().filter(|event| **event == 0).count(), 1);
        assert_eq!(events.iter().filter(|event| **event == 1).count(), 1);
    }
    for count in 1..=256 {
        let events = read_events(0x0100, count, PLENTY).expect("not refused");
        assert_eq!(events.len(), 39 + 9 * count);
        assert_eq!(length_of_read(count), events.len());
        assert_eq!(events.iter().filter(|event| **event == 0).count(), 2);
        assert_eq!(events.iter().filter(|event| **event == 1).count(), 1);
        assert_eq!((events[0], events[events.len() - 1]), (0, 1));
    }
}

// ----- refusals -----

/// The least number whose reason holds.
fn first_reason(reasons: [bool; 5]) -> Option<u8> {
    reasons
        .iter()
        .position(|reason| *reason)
        .map(|place| place as u8 + 1)
}

const COUNTS: [usize; 8] = [0, 1, 2, 255, 256, 257, 258, 1000];
const ADDRESSES: [u16; 7] = [0, 1, 0x1FFE, 0x1FFF, 0x2000, 0x2001, 0xFFFF];

/// "refused by 1 to 5 of its own in that order": the entries that write events.
#[test]
fn refusals_of_events_in_order() {
    for count in COUNTS {
        for address in ADDRESSES {
            let (write, read) = (29 + 9 * count, 39 + 9 * count);
            for room in [0, 1, write - 1, write, write + 1, read - 1, read, read + 1] {
                let reasons = [count > 256, false, address > 0x1FFF, room < write, false];
                let found = write_events(address, &vec![7; count], room);
                assert_eq!(found.err(), first_reason(reasons), "{count} {address}");
                let reasons = [
                    count > 256,
                    count == 0,
                    address > 0x1FFF,
                    room < read,
                    false,
                ];
                let found = read_events(address, count, room);
                assert_eq!(found.err(), first_reason(reasons), "{count} {address}");
            }
        }
    }
}

/// The entries that are told answers take no address.
#[test]
fn refusals_of_answers_in_order() {
    for count in COUNTS {
        let (write, read) = (29 + 9 * count, 39 + 9 * count);
        let lengths = [0, 1, write - 1, write, write + 1, read - 1, read, read + 1];
        for length in lengths {
            for room in [0, 1, count.saturating_sub(1), count, count + 1] {
                let answers = vec![4; length];
                let reasons = [count > 256, false, false, room < count, length != write];
                let found = write_told(count, &answers, room);
                assert_eq!(found.err(), first_reason(reasons), "{count} {room}");
                let reasons = [count > 256, count == 0, false, room < count, length != read];
                let found = read_told(count, &answers, room);
                assert_eq!(found.err(), first_reason(reasons), "{count} {room}");
            }
        }
    }
}

/// Room is asked for all bytes, though none were read or acknowledged.
#[test]
fn room_is_asked_though_none_were_read() {
    let nobody = vec![5; length_of_read(3)];
    assert_eq!(read_told(3, &nobody, 2), Err(4));
    assert_eq!(read_told(3, &nobody, 3), Ok(vec![]));
    let nobody = vec![5; length_of_write(3)];
    assert_eq!(write_told(3, &nobody, 2), Err(4));
    assert_eq!(write_told(3, &nobody, 3), Ok(vec![0; 3]));
}

// ----- what the answers tell -----

/// Flips the line of one answer after the other, from all low and from all high;
/// only ninth clocks matter: of a data byte to its own flag, of the slave byte and
/// the address bytes to every flag.
#[test]
fn every_answer_of_a_write() {
    let count = 4;
    for base in [0x04, 0x05, 0x0B, 0xF0] {
        let all_low = base & 1 == 0;
        for place in 0..length_of_write(count) {
            let mut answers = vec![base; length_of_write(count)];
            let plain = write_told(count, &answers, count);
            assert_eq!(plain, Ok(vec![u8::from(all_low); count]));
            answers[place] ^= 1;
            let told = write_told(count, &answers, count).expect("not refused");
            let addressed = all_low && ![9, 18, 27].contains(&place);
            for (byte, flag) in told.iter().enumerate() {
                let ninth = 36 + 9 * byte;
                assert_eq!(*flag, u8::from(addressed && place != ninth));
            }
            answers[place] ^= 0xFE;
            assert_eq!(write_told(count, &answers, count), Ok(told));
        }
    }
}

/// "none if a slave or address byte went unacknowledged" holds for a write too:
/// every way the slave byte and the two address bytes can be answered, with every
/// way the data bytes can. With all three acknowledged each data byte has its own
/// flag, also after an unacknowledged one.
#[test]
fn every_unacknowledged_byte_of_a_write() {
    for count in 0..=5 {
        for addressing in 0..8_u8 {
            for data in 0..1_u8 << count {
                for elsewhere in [4, 5] {
                    let mut answers = vec![elsewhere; length_of_write(count)];
                    for (number, place) in [9, 18, 27].into_iter().enumerate() {
                        answers[place] = 4 | addressing >> number & 1;
                    }
                    let mut expected = vec![0; count];
                    for (number, flag) in expected.iter_mut().enumerate() {
                        let high = data >> number & 1;
                        answers[36 + 9 * number] = 4 | high;
                        if addressing == 0 {
                            *flag = 1 - high;
                        }
                    }
                    let told = write_told(count, &answers, count);
                    assert_eq!(told, Ok(expected), "{addressing:03b} {data:05b}");
                }
            }
        }
    }
}

/// With the most bytes, all their ninth lines low: no flag after a high line at
/// the slave byte or at either address byte, though as many flags as bytes.
#[test]
fn no_flag_of_the_longest_write() {
    let mut answers = vec![4; length_of_write(256)];
    assert_eq!(write_told(256, &answers, 256), Ok(vec![1; 256]));
    for place in [9, 18, 27] {
        answers[place] = 5;
        assert_eq!(write_told(256, &answers, 256), Ok(vec![0; 256]));
        answers[place] = 4;
    }
}

/// The same for a read whose four addressing bytes are acknowledged: the eight
/// clocks of a data byte are its bits.
#[test]
fn every_answer_of_a_read() {
    let count = 3;
    for place in 0..length_of_read(count) {
        let mut answers = vec![4; length_of_read(count)];
        assert_eq!(read_told(count, &answers, count), Ok(vec![0; count]));
        answers[place] ^= 1;
        let told = read_told(count, &answers, count).expect("not refused");
        if [9, 18, 27, 37].contains(&place) {
            assert_eq!(told, []);
            continue;
        }
        let mut expected = vec![0; count];
        for (byte, value) in expected.iter_mut().enumerate() {
            for bit in 0..8 {
                if place == 38 + 9 * byte + bit {
                    *value = 0x80 >> bit;
                }
            }
        }
        assert_eq!(told, expected, "place {place}");
    }
}

/// "none if a slave or address byte went unacknowledged": every way.
#[test]
fn every_unacknowledged_byte_of_a_read() {
    for pattern in 0..16_u8 {
        let mut answers = vec![4; length_of_read(2)];
        for (number, place) in [9, 18, 27, 37].into_iter().enumerate() {
            answers[place] |= pattern >> number & 1;
        }
        let told = read_told(2, &answers, 2).expect("not refused");
        assert_eq!(told.is_empty(), pattern != 0);
    }
}

// ----- with a device -----

/// "With the device powered and no other event between, bytes written to
/// unprotected addresses and then read come back the same".
#[test]
fn what_is_written_comes_back() {
    let mut source = RandomSource::new(101);
    for count in 1..=256 {
        let mut state = any_state(&mut source);
        state.power = Power::On;
        state.registers[0x0E] &= !0x18;
        let mut device = state.device();
        let address = source.next_number() as u16 & 0x1FFF;
        let bytes = source.bytes(count);
        assert_eq!(write(&mut device, address, &bytes), vec![1; count]);
        assert_eq!(read(&mut device, address, count), bytes);
        assert!(device.between_transfers());
    }
}

/// Under every protection: a byte is acknowledged exactly if it and those before
/// it are unprotected; what is acknowledged comes back, the rest is as it was.
#[test]
fn every_protection() {
    let mut source = RandomSource::new(102);
    for _ in 0..2_000 {
        let mut state = any_state(&mut source);
        state.power = Power::On;
        let mut device = state.device();
        generate::fill_memory(source.next_number(), &mut device.memory);
        let before = device.clone();
        let near = source.pick(&[0x07F8, 0x0FF8, 0x1FF8, 0x0000, 0x1234]);
        let address = (near + source.below(8) as u16) & 0x1FFF;
        let count = source.between(1, 20);
        let bytes = source.bytes(count);
        let told = write(&mut device, address, &bytes);
        let mut expected = before.memory.clone();
        let mut going_on = true;
        for (place, byte) in bytes.iter().enumerate() {
            let where_to = (address + place as u16) & 0x1FFF;
            going_on &= !is_protected(&before.registers, where_to);
            assert_eq!(told[place], u8::from(going_on));
            if going_on {
                expected[usize::from(where_to)] = *byte;
            }
        }
        assert_eq!(device.memory, expected);
        let back = read(&mut device, address, count);
        for (place, byte) in back.iter().enumerate() {
            let where_from = usize::from(address) + place;
            assert_eq!(*byte, expected[where_from % 8192]);
        }
    }
}

/// From inside any transfer: the Start drops what was under way.
#[test]
fn from_any_state_that_has_power() {
    let mut source = RandomSource::new(103);
    let mut tried = 0;
    for list in generate::handed_in_random(1, 40_000) {
        let mut device = list.device();
        for event in list.events {
            device.event(event);
            if device.power != Power::On || source.chance(90) {
                continue;
            }
            tried += 1;
            let mut there = device.clone();
            there.registers[0x0E] &= !0x18;
            let count = source.between(1, 8);
            let bytes = source.bytes(count);
            let address = source.next_number() as u16 & 0x1FFF;
            assert_eq!(write(&mut there, address, &bytes), vec![1; count]);
            assert_eq!(read(&mut there, address, count), bytes);
        }
    }
    assert!(tried > 1_000);
}

/// Without main power nothing is acknowledged and nothing is read.
#[test]
fn without_power() {
    for power in [Power::Backup, Power::Gone] {
        let mut device = Device::fresh();
        device.power = power;
        let before = State::of(&device);
        assert_eq!(write(&mut device, 0x0010, &[1, 2, 3]), [0, 0, 0]);
        assert_eq!(read(&mut device, 0x0010, 3), []);
        assert_eq!(State::of(&device), before);
        assert_eq!(device.memory, Device::fresh().memory);
    }
}

/// A read changes no memory and no register.
#[test]
fn a_read_changes_the_address_alone() {
    let mut source = RandomSource::new(104);
    for _ in 0..500 {
        let mut state = any_state(&mut source);
        state.power = Power::On;
        let mut device = state.device();
        generate::fill_memory(source.next_number(), &mut device.memory);
        let before = device.clone();
        let address = source.next_number() as u16 & 0x1FFF;
        let count = source.between(1, 256);
        let bytes = read(&mut device, address, count);
        let place = |step: usize| (usize::from(address) + step) % 8192;
        let expected: Vec<u8> = (0..count).map(|step| before.memory[place(step)]).collect();
        assert_eq!(bytes, expected);
        let mut after = before;
        after.memory_address = place(count) as u16;
        assert_eq!(device, after);
    }
}
