// SPDX-License-Identifier: Apache-2.0
//! The wrapper on inputs of any kind: refusals, their order, and that nothing is written then.

use fm3130::{event, selector, Device, Refusal, IMAGE_BYTES, MEMORY_BYTES};

/// A fresh image.
fn fresh_image() -> [u8; IMAGE_BYTES] {
    *Device::fresh().image()
}

#[test]
fn the_exact_run_of_01() {
    let mut device = Device::fresh();
    let events = [0, 3, 2, 3, 2, 2, 2, 2, 2, 3, 1];
    let answers = [5, 5, 4, 5, 4, 4, 4, 4, 4, 4, 5];
    assert_eq!(device.run(&events), Ok(answers.to_vec()));
}

#[test]
fn lengths_of_any_kind_are_refused_and_nothing_is_written() {
    for image_length in [0, 1, 63, 65, 200] {
        let (mut image, mut memory, mut answers) = (vec![9; image_length], [1; 8192], [7; 2]);
        let refused = fm3130::run(&mut image, &mut memory, &[0, 1], &mut answers);
        assert_eq!(
            refused,
            Err(Refusal::Image),
            "image of {image_length} bytes"
        );
        assert!(image.iter().all(|byte| *byte == 9) && answers == [7; 2]);
        assert_eq!(fm3130::fresh(&mut image), Err(Refusal::Image));
        assert!(image.iter().all(|byte| *byte == 9));
    }
    for memory_length in [0, 1, 8191, 8193] {
        let (mut image, mut memory, mut answers) = (fresh_image(), vec![1; memory_length], [7; 2]);
        let refused = fm3130::run(&mut image, &mut memory, &[0, 1], &mut answers);
        assert_eq!(refused, Err(Refusal::MemoryLength));
        assert!(image == fresh_image() && answers == [7; 2]);
        assert!(memory.iter().all(|byte| *byte == 1));
    }
}

#[test]
fn refusals_come_in_the_order_of_their_numbers() {
    let run = |image: &mut [u8], memory: &mut [u8], events: &[u8], answers: &mut [u8]| {
        fm3130::run(image, memory, events, answers).map_err(Refusal::number)
    };
    let (mut good, mut bad) = (fresh_image(), [0; IMAGE_BYTES]);
    let (mut memory, mut short) = ([0; MEMORY_BYTES], [0; 5]);
    assert_eq!(run(&mut bad, &mut short, &[8], &mut []), Err(1));
    assert_eq!(run(&mut bad, &mut memory, &[8], &mut []), Err(2));
    assert_eq!(run(&mut good, &mut memory, &[8], &mut []), Err(3));
    assert_eq!(run(&mut good, &mut memory, &[7], &mut []), Err(4));
    assert_eq!(run(&mut good, &mut memory, &[], &mut []), Ok(0));
}

#[test]
fn an_unknown_event_late_in_a_list_changes_nothing() {
    let mut device = Device::fresh();
    let before = device.clone();
    let mut events = vec![event::START];
    events.extend(event::written_byte(0xD0));
    events.push(200);
    let mut answers = vec![0xEE; events.len()];
    let refused = device.run_into(&events, &mut answers);
    assert_eq!(refused, Err(Refusal::UnknownEvent));
    assert_eq!(device, before);
    assert!(answers.iter().all(|answer| *answer == 0xEE));
    assert_eq!(device.step(9), Err(Refusal::UnknownEvent));
    assert_eq!(device, before);
}

#[test]
fn the_viewer_gives_a_part_and_never_a_copy() {
    let device = Device::fresh();
    let part = device.view(selector::MEMORY, 8000, 192).unwrap();
    assert!(std::ptr::eq(part, &device.memory()[8000..]));
    let part = device.view(selector::REGISTERS, 2, 13).unwrap();
    assert!(std::ptr::eq(part, &device.image()[2..15]));
    assert_eq!(device.view(selector::REGISTERS, 15, 0), Ok(&[][..]));
}

#[test]
fn the_viewer_refuses_without_a_panic() {
    let device = Device::fresh();
    assert_eq!(device.view(2, 0, 0), Err(Refusal::Selector));
    assert_eq!(device.view(u64::MAX, 0, 0), Err(Refusal::Selector));
    assert_eq!(device.view(0, 8192, 1), Err(Refusal::PastTheEnd));
    assert_eq!(device.view(1, u64::MAX, u64::MAX), Err(Refusal::PastTheEnd));
    assert_eq!(
        fm3130::view(&[0; 64], &[], 9, 9, 9),
        Err(Refusal::MemoryLength)
    );
    assert_eq!(
        fm3130::view(&[0; 3], &[0; 8192], 1, 0, 3),
        Err(Refusal::Image)
    );
}

#[test]
fn every_number_has_its_words() {
    let all = [
        (1, Refusal::MemoryLength),
        (2, Refusal::Image),
        (3, Refusal::UnknownEvent),
        (4, Refusal::ShortAnswers),
        (5, Refusal::Selector),
        (6, Refusal::PastTheEnd),
        (8, Refusal::TooManyTicks),
    ];
    for (number, refusal) in all {
        assert_eq!(refusal.number(), number);
        let error: Box<dyn std::error::Error> = Box::new(refusal);
        assert!(error.to_string().starts_with(refusal.words()));
    }
}

#[test]
fn parts_from_outside_are_judged_by_the_archive() {
    let device = Device::fresh();
    for place in 0..IMAGE_BYTES {
        for byte in [0x00, 0x01, 0x7F, 0x80, 0xFF] {
            let mut image = *device.image();
            image[place] = byte;
            let memory = device.memory();
            let mut copy = image;
            let judged = fm3130::run(&mut copy, &mut memory.clone(), &[], &mut []);
            let made = Device::from_parts(&image, memory);
            assert_eq!(made.is_ok(), judged.is_ok(), "byte {place} = {byte}");
        }
    }
}
