// SPDX-License-Identifier: Apache-2.0
//! Sees that the plain programs that test what they are given do what the proved entries do, on images of every kind: they
//! refuse what the entries refuse, by the same numbers, and leave the same bytes.

use crate::plain_sleep;
use crate::sides::TestedC;
use compare::archive;
use second::calendar::{bcd_from_number, month_length};
use second::generate::RandomSource;
use second::MEMORY_BYTES;

const IMAGE_BYTES: usize = 64;
const MOST_TICKS: u64 = 31_622_400;

/// How many images are tried before a clock is started.
pub const IMAGES: usize = 400_000;

/// The bits that a limit leaves in the registers and the core.
const KEPT: [u8; 22] = [
    0xFF, 0xBF, 0x7F, 0x7F, 0x3F, 0x07, 0x3F, 0x1F, 0xFF, 0xFF, 0xFF, 0xBF, 0xBF, 0x9F, 0xFF, 0x7F,
    0x7F, 0x3F, 0x07, 0x3F, 0x1F, 0xFF,
];

/// Most cores are valid, most alarms ask for what a core can show.
fn random_image(source: &mut RandomSource) -> [u8; IMAGE_BYTES] {
    let mut image = [0; IMAGE_BYTES];
    for (byte, kept) in image.iter_mut().zip(KEPT) {
        *byte = source.byte() & kept;
    }
    if source.below(8) > 0 {
        image[1] &= 0x3F;
        let (month, year) = (source.between(1, 12) as u8, source.below(100) as u8);
        let date = source.between(1, usize::from(month_length(month, year))) as u8;
        let time = [60, 60, 24].map(|end| source.below(end) as u8);
        image[15..18].copy_from_slice(&time.map(bcd_from_number));
        image[18] = source.between(1, 7) as u8;
        image[19..22].copy_from_slice(&[date, month, year].map(bcd_from_number));
    }
    for (place, end) in [60, 60, 24, 32, 13].into_iter().enumerate() {
        match source.below(4) {
            0 | 1 => image[9 + place] = 0x80,
            2 => image[9 + place] = bcd_from_number(source.below(end) as u8),
            _ => {}
        }
    }
    random_bus(source, &mut image);
    image[61..].copy_from_slice(&[0x31, 0x30, 0x01]);
    image
}

/// Bytes 22 to 29, near their limits.
fn random_bus(source: &mut RandomSource, image: &mut [u8; IMAGE_BYTES]) {
    image[22] = source.below(16) as u8;
    image[23] = source.below(33) as u8;
    image[24] = source.byte();
    image[25] = source.below(3) as u8;
    if image[25] == 0 && source.below(2) == 0 {
        image[26] = source.below(10) as u8;
        image[27] = source.below(10) as u8;
        image[28] = match source.below(4) {
            0 => 0,
            1 => [0xA0, 0xA1, 0xD0, 0xD1, 0x0E, 0x0F][source.below(6)],
            2 => source.below(1 << image[27].min(8)) as u8,
            _ => source.byte(),
        };
        image[29] = if image[26] == 3 { source.byte() } else { 0 };
    }
}

/// Some images get a byte or two that are any number, or a bit that is another; some are of another length.
fn spoil(source: &mut RandomSource, image: &mut Vec<u8>) {
    match source.below(6) {
        0 => image[source.below(IMAGE_BYTES)] = source.byte(),
        1 => image[source.below(IMAGE_BYTES)] ^= 1 << source.below(8),
        2 if source.below(8) == 0 => image.truncate(source.below(IMAGE_BYTES)),
        2 if source.below(8) == 0 => image.push(0),
        _ => {}
    }
}

/// Tries so many images. Panics at the first one on which the two differ; returns how many were accepted, and how many
/// of these raised AF.
pub fn check(images: usize) -> (usize, usize) {
    let mut source = RandomSource::new(16);
    let (mut accepted, mut rung) = (0, 0);
    for _ in 0..images {
        let mut image = random_image(&mut source).to_vec();
        spoil(&mut source, &mut image);
        let most = [2, 100, 86_400, 40 * 86_400, MOST_TICKS][source.below(5)];
        let ticks = source.below(most as usize + 2) as u64;
        let (mut proved, mut plain) = (image.clone(), image.clone());
        let numbers = (
            archive::catch_up(&mut proved, ticks),
            plain_sleep::catch_up(&mut plain, ticks),
        );
        assert_eq!(numbers.0, numbers.1, "{ticks} ticks of {image:02X?}");
        assert_eq!(proved, plain, "{ticks} ticks of {image:02X?}");
        if numbers.0 == 0 {
            accepted += 1;
            rung += usize::from(proved[0] & !image[0] & 0x40 != 0);
        }
    }
    (accepted, rung)
}

/// Tries so many images with a few events each, some of them none of the eight, on the list run and on plain.c with its
/// tests. Returns how many were accepted.
pub fn check_runs(images: usize) -> usize {
    let mut source = RandomSource::new(25);
    let mut memories = [vec![0x5A; MEMORY_BYTES], vec![0x5A; MEMORY_BYTES]];
    let mut accepted = 0;
    for _ in 0..images {
        let mut image = random_image(&mut source).to_vec();
        spoil(&mut source, &mut image);
        let last = if source.below(8) == 0 { 9 } else { 8 };
        let events: Vec<u8> = (0..source.below(24))
            .map(|_| source.below(last) as u8)
            .collect();
        let room = events.len() - usize::from(!events.is_empty() && source.below(16) == 0);
        let (mut proved, mut plain) = (image.clone(), image.clone());
        let mut answers = [vec![0xEE; room], vec![0xEE; room]];
        let ran = archive::run(&mut proved, &mut memories[0], &events, &mut answers[0]);
        let number = TestedC::call(&mut plain, &mut memories[1], &events, &mut answers[1]);
        assert_eq!(ran.number, u64::from(number), "{events:?} on {image:02X?}");
        assert_eq!(proved, plain, "{events:?} on {image:02X?}");
        assert_eq!(answers[0], answers[1], "{events:?} on {image:02X?}");
        accepted += usize::from(number == 0);
    }
    assert_eq!(memories[0], memories[1]);
    accepted
}

#[test]
fn tested_c_refuses_and_leaves_what_the_list_run_does() {
    let accepted = check_runs(IMAGES);
    assert!(accepted > IMAGES / 10 && IMAGES - accepted > IMAGES / 10);
}

#[test]
fn both_refuse_and_leave_the_same() {
    let (accepted, rung) = check(10 * IMAGES);
    assert!(accepted > IMAGES && 10 * IMAGES - accepted > IMAGES && rung > IMAGES / 10);
}

/// Every value of every byte, on a fresh image and in each phase.
#[test]
fn every_value_of_every_byte() {
    let mut fresh = [0; IMAGE_BYTES];
    assert_eq!(archive::fresh(&mut fresh), 0);
    for phase in 0..9 {
        for clocks in 0..9 {
            let mut base = fresh;
            (base[26], base[27]) = (phase, clocks);
            for place in 0..IMAGE_BYTES {
                for value in 0..=255 {
                    let mut image = base;
                    image[place] = value;
                    let (mut proved, mut plain) = (image, image);
                    assert_eq!(
                        archive::catch_up(&mut proved, 1),
                        plain_sleep::catch_up(&mut plain, 1),
                        "{image:02X?}"
                    );
                    assert_eq!(proved, plain, "{image:02X?}");
                }
            }
        }
    }
}
