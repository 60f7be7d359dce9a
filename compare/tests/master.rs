// SPDX-License-Identifier: Apache-2.0
//! The master's side beside the second program's: every count of 0 to 257, addresses at the ends, room
//! one short, answers cut, and lines flipped at every clock; then both on a device.

use compare::archive::{self, Filled};
use second::generate::RandomSource;
use second::wire;

/// Addresses at the ends of the memory and of its protected parts, and past them.
const ADDRESSES: [u16; 9] = [
    0x0000, 0x00FF, 0x07FF, 0x0800, 0x0FFF, 0x1FFE, 0x1FFF, 0x2000, 0xFFFF,
];

/// What a byte of a buffer is before a call.
const FILL: u8 = 0xA5;

/// An archive's function on a buffer of this much room must leave what the second program says: its
/// bytes at the front and all else as it was; or a refusal by its number, and nothing written.
fn agree(
    case: &str,
    room: usize,
    expected: Result<Vec<u8>, u8>,
    call: impl Fn(&mut [u8]) -> Filled,
) {
    let mut buffer = vec![FILL; room];
    let is = call(&mut buffer);
    let (number, written) = match expected {
        Ok(written) => (0, written),
        Err(number) => (u64::from(number), Vec::new()),
    };
    let count = written.len() as u64;
    assert_eq!(is, Filled { number, count }, "{case}");
    let mut left = written;
    left.resize(room, FILL);
    assert_eq!(buffer, left, "{case}");
}

fn agree_on_write_events(address: u16, bytes: &[u8], room: usize) {
    agree(
        &format!("write of {} at {address:04X}h, room {room}", bytes.len()),
        room,
        wire::write_events(address, bytes, room),
        |events| archive::write_events(u64::from(address), bytes, events),
    );
}

fn agree_on_read_events(address: u16, count: usize, room: usize) {
    agree(
        &format!("read of {count} at {address:04X}h, room {room}"),
        room,
        wire::read_events(address, count, room),
        |events| archive::read_events(u64::from(address), count as u64, events),
    );
}

fn agree_on_write_told(count: usize, answers: &[u8], room: usize) {
    agree(
        &format!("flags of {count}, {} answers, room {room}", answers.len()),
        room,
        wire::write_told(count, answers, room),
        |flags| archive::write_told(count as u64, answers, flags),
    );
}

fn agree_on_read_told(count: usize, answers: &[u8], room: usize) {
    agree(
        &format!("bytes of {count}, {} answers, room {room}", answers.len()),
        room,
        wire::read_told(count, answers, room),
        |bytes| archive::read_told(count as u64, answers, bytes),
    );
}

/// A length, one less and one more, and none.
fn around(length: usize) -> [usize; 4] {
    [0, length.saturating_sub(1), length, length + 1]
}

#[test]
fn events_agree_at_every_count_address_and_room() {
    let mut source = RandomSource::new(1);
    for count in 0..=257 {
        let bytes = source.bytes(count);
        for address in ADDRESSES {
            for room in around(wire::length_of_write(count)) {
                agree_on_write_events(address, &bytes, room);
            }
            for room in around(wire::length_of_read(count)) {
                agree_on_read_events(address, count, room);
            }
        }
    }
}

#[test]
fn what_is_told_agrees_at_every_count_of_bytes_and_answers() {
    let mut source = RandomSource::new(2);
    for count in 0..=257 {
        for room in around(count) {
            for length in around(wire::length_of_write(count)) {
                agree_on_write_told(count, &source.bytes(length), room);
                agree_on_write_told(count, &vec![0x04; length], room);
            }
            for length in around(wire::length_of_read(count)) {
                agree_on_read_told(count, &source.bytes(length), room);
                agree_on_read_told(count, &vec![0x04; length], room);
            }
        }
    }
}

/// A device's answers to events, from the archive's list run on a fresh device with this memory.
fn answers_to(events: &[u8], memory: &mut [u8]) -> Vec<u8> {
    let (mut image, mut answers) = ([0; 64], vec![0; events.len()]);
    assert_eq!(archive::fresh(&mut image), 0);
    assert_eq!(
        archive::run(&mut image, memory, events, &mut answers).number,
        0
    );
    answers
}

#[test]
fn a_line_flipped_at_any_clock_is_told_alike() {
    let mut source = RandomSource::new(3);
    for count in [1, 2, 5, 16] {
        let bytes = source.bytes(count);
        let events = wire::write_events(0x1FFE, &bytes, 1000).unwrap();
        let written = answers_to(&events, &mut [0; 8192]);
        let events = wire::read_events(0x1FFE, count, 1000).unwrap();
        let read = answers_to(&events, &mut [0x5A; 8192]);
        for flip in [0x01, 0xFF, 0x06] {
            for place in 0..written.len() {
                let mut answers = written.clone();
                answers[place] ^= flip;
                agree_on_write_told(count, &answers, count);
            }
            for place in 0..read.len() {
                let mut answers = read.clone();
                answers[place] ^= flip;
                agree_on_read_told(count, &answers, count);
            }
        }
    }
}

#[test]
fn what_does_not_fit_the_second_program_s_numbers_is_refused() {
    for address in [1 << 16, 0x1_0000_1000, u64::MAX] {
        assert_eq!(archive::write_events(address, &[1], &mut [0; 99]).number, 3);
        assert_eq!(archive::read_events(address, 1, &mut [0; 99]).number, 3);
    }
    for count in [1 << 16, (1 << 32) + 1, u64::MAX] {
        assert_eq!(archive::read_events(0, count, &mut [0; 99]).number, 1);
        assert_eq!(archive::write_told(count, &[0; 38], &mut [0; 9]).number, 1);
        assert_eq!(archive::read_told(count, &[0; 48], &mut [0; 9]).number, 1);
    }
}

#[test]
fn bytes_come_back_through_the_device() {
    let mut source = RandomSource::new(4);
    for count in 1..=256 {
        let (address, bytes) = (source.below(0x2000) as u64, source.bytes(count));
        let (mut memory, mut events) = ([0x77; 8192], vec![0; wire::length_of_read(count)]);
        let sent = archive::write_events(address, &bytes, &mut events).count as usize;
        let answers = answers_to(&events[..sent], &mut memory);
        let mut flags = vec![0; count];
        archive::write_told(count as u64, &answers, &mut flags);
        assert_eq!(flags, vec![1; count]);
        let asked = archive::read_events(address, count as u64, &mut events).count as usize;
        let answers = answers_to(&events[..asked], &mut memory);
        let mut back = vec![0; count];
        archive::read_told(count as u64, &answers, &mut back);
        assert_eq!(back, bytes, "{count} at {address:04X}h");
    }
}
