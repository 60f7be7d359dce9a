// SPDX-License-Identifier: Apache-2.0
//! Captures through the wrapper: what is written is judged to agree; every wrong answer is named with
//! its two bytes; and where the judge names a faulty entry, the words of the wrapper say why.

use fm3130::capture::{judge, Capture, Entry, Fault, Verdict, MOST_BYTES, MOST_EVENTS};
use fm3130::{event, Device};

/// Numbers that look random and are the same on every machine.
struct Numbers(u64);

impl Numbers {
    fn below(&mut self, bound: u64) -> u64 {
        self.0 = self
            .0
            .wrapping_mul(6_364_136_223_846_793_005)
            .wrapping_add(1);
        (self.0 >> 33) % bound
    }
}

/// A run that sets the clock running, writes memory, reads it back and ticks.
fn events() -> Vec<u8> {
    let mut events = vec![event::START];
    for byte in [0xD0, 0x01, 0x00] {
        events.extend(event::written_byte(byte));
    }
    events.extend([event::STOP, event::TICK, event::START]);
    for byte in [0xA0, 0x01, 0x23, 0x5A] {
        events.extend(event::written_byte(byte));
    }
    events.push(event::START);
    events.extend(event::written_byte(0xA1));
    events.extend(event::read_byte(false));
    events.extend([event::STOP, 5, 4, 7]);
    events
}

fn file_of(device: &Device, events: &[u8], answers: &[u8]) -> Vec<u8> {
    let capture = Capture {
        image: device.image(),
        memory: device.memory(),
        events,
        answers,
    };
    capture.to_file().expect("a capture that is not too long")
}

#[test]
fn a_written_capture_agrees_and_is_read_back() {
    let device = Device::fresh();
    let events = events();
    let answers = device.clone().run(&events).unwrap();
    let file = file_of(&device, &events, &answers);
    assert_eq!(
        judge(&file),
        Verdict::Agree {
            count: events.len()
        }
    );
    let read = Capture::in_file(&file).unwrap();
    assert_eq!(read.image, device.image());
    assert_eq!(read.memory, device.memory());
    assert_eq!((read.events, read.answers), (&events[..], &answers[..]));
}

#[test]
fn every_wrong_answer_is_named_with_both_bytes() {
    let device = Device::fresh();
    let events = events();
    let answers = device.clone().run(&events).unwrap();
    for place in 0..events.len() {
        for bit in 0..8 {
            let mut wrong = answers.clone();
            wrong[place] ^= 1 << bit;
            // Whatever follows the first wrong one does not matter.
            if let Some(next) = wrong.get_mut(place + 1) {
                *next = 0xFF;
            }
            let verdict = judge(&file_of(&device, &events, &wrong));
            let expected = Verdict::Differs {
                place,
                recorded: wrong[place],
                right: answers[place],
            };
            assert_eq!(verdict, expected);
        }
    }
}

#[test]
fn the_longest_capture_and_one_event_more() {
    let device = Device::fresh();
    let ticks = vec![event::TICK; MOST_EVENTS + 1];
    let answers = device.clone().run(&ticks).unwrap();
    let file = file_of(&device, &ticks[1..], &answers[1..]);
    assert!(file.len() <= MOST_BYTES && file.len() + 2 > MOST_BYTES);
    assert_eq!(judge(&file), Verdict::Agree { count: MOST_EVENTS });
    let longer = Capture {
        image: device.image(),
        memory: device.memory(),
        events: &ticks,
        answers: &answers,
    };
    assert_eq!(longer.to_file(), None);
    assert_eq!(judge(&[0; MOST_BYTES + 1]), Verdict::TooLong);
}

/// Puts a number into the table, at one of its twelve places.
fn put(file: &mut [u8], place: usize, number: u32) {
    file[4 * place..4 * place + 4].copy_from_slice(&number.to_le_bytes());
}

/// A number that is near something in the table, or any.
fn number_near(numbers: &mut Numbers, file: &[u8]) -> u32 {
    let entry = Entry::at(file, numbers.below(4) as usize).unwrap();
    let near = [
        0,
        1,
        3,
        4,
        48,
        entry.offset,
        entry.length,
        entry.offset.wrapping_add(entry.length),
        file.len() as u32,
        u32::MAX,
    ];
    let chosen = near[numbers.below(near.len() as u64) as usize];
    chosen.wrapping_add(numbers.below(3) as u32).wrapping_sub(1)
}

#[test]
fn words_are_found_for_every_fault_that_the_judge_names() {
    let device = Device::fresh();
    let events = events();
    let answers = device.clone().run(&events).unwrap();
    let good = file_of(&device, &events, &answers);
    let (mut numbers, mut faults) = (Numbers(10), [0u32; 10]);
    for _ in 0..20_000 {
        let mut file = good.clone();
        for _ in 0..=numbers.below(2) {
            let number = number_near(&mut numbers, &file);
            put(&mut file, numbers.below(12) as usize, number);
        }
        match numbers.below(8) {
            0 => file.truncate(numbers.below(60) as usize),
            1 => file[8304 + numbers.below(20) as usize] = 8,
            2 => file[48 + numbers.below(64) as usize] ^= 0x80,
            _ => {}
        }
        let named = match judge(&file) {
            Verdict::Faulty { entry } => entry,
            Verdict::Agree { .. } | Verdict::Differs { .. } => 5,
            Verdict::TooLong => panic!("no file is too long"),
        };
        for entry in 1..named {
            assert_eq!(Fault::of(&file, entry), None, "entry {entry} of {named}");
        }
        if named <= 4 {
            let fault = Fault::of(&file, named).expect("a reason");
            assert!(!fault.to_string().is_empty());
            faults[place_of(fault)] += 1;
        }
    }
    assert!(faults.iter().all(|count| *count > 20), "{faults:?}");
}

fn place_of(fault: Fault) -> usize {
    match fault {
        Fault::CutShort => 0,
        Fault::UnknownKind(_) => 1,
        Fault::RepeatedKind(_) => 2,
        Fault::PastTheEnd => 3,
        Fault::OverlapsTable => 4,
        Fault::Overlaps(_) => 5,
        Fault::Image => 6,
        Fault::Memory => 7,
        Fault::UnknownEvent => 8,
        Fault::Uneven(_) => 9,
    }
}

#[test]
fn every_verdict_has_its_number_and_words() {
    let all = [
        Verdict::Agree { count: 3 },
        Verdict::Differs {
            place: 7,
            recorded: 5,
            right: 4,
        },
        Verdict::Faulty { entry: 2 },
        Verdict::TooLong,
    ];
    let numbers: Vec<u64> = all.iter().map(|verdict| verdict.number()).collect();
    assert_eq!(numbers, [0, 1, 2, 3]);
    let words: Vec<String> = all.iter().map(Verdict::to_string).collect();
    assert_eq!(words[0], "all agree: 3 answers");
    assert_eq!(words[1], "answer 7 differs: recorded 05h, right 04h");
    assert_eq!(words[2], "entry 2 is faulty");
    assert_eq!(words[3], "too long: more than 61,440 bytes");
}
