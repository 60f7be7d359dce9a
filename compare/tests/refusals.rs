// SPDX-License-Identifier: Apache-2.0
//! What the proved program refuses: by which number, and that nothing is written.

use compare::archive::{self, Ran};
use compare::image::{self, IMAGE_BYTES};
use second::generate::{random, RandomSource};
use second::MEMORY_BYTES;

/// Lengths around each length that counts.
const LENGTHS: [usize; 12] = [0, 1, 14, 15, 63, 64, 65, 100, 8191, 8192, 8193, 20_000];

fn fresh_image() -> Vec<u8> {
    let mut image = vec![0; IMAGE_BYTES];
    assert_eq!(archive::fresh(&mut image), 0);
    image
}

/// The number by 01's table, from the lengths and what is in the buffers.
fn number_by_table(image: &[u8], memory: &[u8], events: &[u8], answers: &[u8]) -> u64 {
    if memory.len() != MEMORY_BYTES {
        1
    } else if !image::is_accepted(image) {
        2
    } else if events.iter().any(|event| *event > 7) {
        3
    } else if answers.len() < events.len() {
        4
    } else {
        0
    }
}

/// Runs, and sees that the number is the table's and that a refusal leaves all buffers as they were.
fn hold_to_table(image: &[u8], memory: &[u8], events: &[u8], answers: &[u8]) -> Ran {
    let (mut new_image, mut new_memory, mut new_answers) =
        (image.to_vec(), memory.to_vec(), answers.to_vec());
    let ran = archive::run(&mut new_image, &mut new_memory, events, &mut new_answers);
    let number = number_by_table(image, memory, events, answers);
    assert_eq!(
        ran.number,
        number,
        "lengths {} {} {} {}",
        image.len(),
        memory.len(),
        events.len(),
        answers.len()
    );
    if number == 0 {
        assert_eq!(ran.count, events.len() as u64);
        assert_eq!(
            new_answers[events.len()..],
            answers[events.len()..],
            "answers past the events"
        );
    } else {
        assert_eq!(ran.count, 0);
        assert!(
            new_image == image && new_memory == memory && new_answers == answers,
            "a refusal wrote something"
        );
    }
    ran
}

#[test]
fn buffers_of_every_length_are_answered_or_refused() {
    let mut source = RandomSource::new(3);
    let fresh = fresh_image();
    for image_length in LENGTHS {
        let mut image: Vec<u8> = (0..image_length).map(|_| source.byte()).collect();
        if image_length == IMAGE_BYTES {
            image.clone_from(&fresh);
        }
        for memory_length in LENGTHS {
            let memory: Vec<u8> = (0..memory_length).map(|_| source.byte()).collect();
            for (events_length, answers_length) in
                [(0, 0), (0, 5), (1, 0), (9, 8), (9, 9), (9, 30), (1000, 999)]
            {
                let mut events: Vec<u8> = (0..events_length).map(|_| source.byte() % 8).collect();
                let answers: Vec<u8> = (0..answers_length).map(|_| source.byte()).collect();
                hold_to_table(&image, &memory, &events, &answers);
                if let Some(last) = events.last_mut() {
                    *last = 8 + source.byte() % 248;
                    hold_to_table(&image, &memory, &events, &answers);
                }
            }
        }
    }
}

#[test]
fn a_late_unknown_event_stops_all() {
    let events: Vec<u8> = [
        vec![0, 3, 2, 3, 2, 2, 2, 2, 2, 3, 1],
        vec![4; 50_000],
        vec![8],
    ]
    .concat();
    let ran = hold_to_table(
        &fresh_image(),
        &vec![7; MEMORY_BYTES],
        &events,
        &vec![9; events.len()],
    );
    assert_eq!((ran.number, ran.count), (3, 0));
}

#[test]
fn every_value_of_every_image_byte_is_accepted_or_refused_as_documented() {
    let memory = vec![0; MEMORY_BYTES];
    let mut accepted = 0;
    for list in random(5, 40_000).iter().take(60) {
        let mut device = list.device();
        device.run(&list.events[..list.events.len() / 2]);
        let image = image::of(&device);
        assert!(image::is_accepted(&image));
        for place in 0..IMAGE_BYTES {
            for value in 0..=255 {
                let mut changed = image;
                changed[place] = value;
                accepted += u32::from(hold_to_table(&changed, &memory, &[], &[]).number == 0);
            }
        }
    }
    assert!(
        accepted > 60 * 64,
        "some changed images are accepted: {accepted}"
    );
}

#[test]
fn images_of_noise_are_refused() {
    let mut source = RandomSource::new(17);
    let memory = vec![0; MEMORY_BYTES];
    for _ in 0..20_000 {
        let image: Vec<u8> = (0..IMAGE_BYTES).map(|_| source.byte()).collect();
        assert_eq!(
            hold_to_table(&image, &memory, &[0, 3, 1], &[0; 3]).number,
            2
        );
    }
    assert_eq!(
        hold_to_table(&[0; IMAGE_BYTES], &memory, &[], &[]).number,
        2
    );
}

#[test]
fn fresh_writes_64_bytes_or_nothing() {
    for length in LENGTHS {
        let mut image = vec![0xAB; length];
        let number = archive::fresh(&mut image);
        if length == IMAGE_BYTES {
            assert_eq!(number, 0);
            assert_eq!(image, image::of(&second::Device::fresh()));
        } else {
            assert_eq!(number, 2);
            assert!(image.iter().all(|byte| *byte == 0xAB));
        }
    }
}

#[test]
fn the_viewers_number_is_the_tables() {
    let places = [
        0,
        1,
        2,
        14,
        15,
        16,
        8191,
        8192,
        8193,
        u64::MAX - 1,
        u64::MAX,
    ];
    for image_length in LENGTHS {
        let image = vec![1; image_length];
        for memory_length in LENGTHS {
            let memory = vec![2; memory_length];
            for selector in [0, 1, 2, 255, 256, u64::MAX] {
                for start in places {
                    for length in places {
                        let number = archive::view_number(&image, &memory, selector, start, length);
                        assert_eq!(
                            number,
                            view_number_by_table(&image, &memory, selector, start, length)
                        );
                    }
                }
            }
        }
    }
}

fn view_number_by_table(
    image: &[u8],
    memory: &[u8],
    selector: u64,
    start: u64,
    length: u64,
) -> u64 {
    if memory.len() != MEMORY_BYTES {
        return 1;
    }
    if image.len() != IMAGE_BYTES {
        return 2;
    }
    let end = match selector {
        0 => MEMORY_BYTES,
        1 => 15,
        _ => return 5,
    };
    if u128::from(start) + u128::from(length) > end as u128 {
        6
    } else {
        0
    }
}
