// SPDX-License-Identifier: Apache-2.0
//! A leap year of ticks in one call, beside two plain Rust programs with day arithmetic of their own, and beside the ticks
//! one by one.

use crate::{plain_sleep, sameness};
use compare::archive;
use second::{day_numbers, MEMORY_BYTES};
use std::hint::black_box;
use std::sync::Mutex;
use std::time::Instant;

const IMAGE_BYTES: usize = 64;
const REGISTERS: usize = 15;
const CORE_END: usize = 22;

/// The most ticks of one call.
const TICKS: u32 = 31_622_400;

/// The ticks of one list, where they are done one by one.
const LIST: usize = 65_536;

/// The sides take turns; of each the fastest round counts. A round is so many calls.
const ROUNDS: usize = 400;
const CALLS: usize = 500;

/// Match alone: the field is left out.
const ANY: u8 = 0x80;

/// An alarm, seconds first, and what it asks for.
struct Alarm {
    about: &'static str,
    fields: [u8; 5],
}

const ALARMS: [Alarm; 5] = [
    Alarm {
        about: "none asked: every second",
        fields: [ANY; 5],
    },
    Alarm {
        about: "31 February: never",
        fields: [ANY, ANY, ANY, 0x31, 0x02],
    },
    Alarm {
        about: "29 February 00:00:00",
        fields: [0x00, 0x00, 0x00, 0x29, 0x02],
    },
    Alarm {
        about: "31 December 23:59:58",
        fields: [0x58, 0x59, 0x23, 0x31, 0x12],
    },
    Alarm {
        about: "seconds 3Fh, a figure that is none",
        fields: [0x3F, ANY, ANY, ANY, ANY],
    },
];

/// What was found out about one alarm: nanoseconds a call, and of all ticks one by one.
pub struct Slept {
    pub alarm: &'static str,
    pub proved: f64,
    /// The plain program that does the same work, from an image to an image.
    pub plain: f64,
    /// The second program's day numbers: registers and core, no image.
    pub bare: f64,
    pub single: f64,
    /// A call for no tick: the image is read, tested and written, and the table is made.
    pub none: f64,
    /// An empty list run: the image is read, tested and written.
    pub empty: f64,
}

/// From an image to the image after it.
type Call = fn(&[u8; IMAGE_BYTES]) -> [u8; IMAGE_BYTES];

/// The image of a running device at the century's last second.
fn image_with(alarm: &Alarm) -> [u8; IMAGE_BYTES] {
    let mut image = [0; IMAGE_BYTES];
    assert_eq!(archive::fresh(&mut image), 0);
    image[0] = 0;
    image[1] = 0;
    image[9..14].copy_from_slice(&alarm.fields);
    image[REGISTERS..CORE_END].copy_from_slice(&[0x59, 0x59, 0x23, 0x07, 0x31, 0x12, 0x99]);
    image
}

/// The proved entry, as C calls it: the image read, tested and written.
fn proved(image: &[u8; IMAGE_BYTES]) -> [u8; IMAGE_BYTES] {
    let mut after = *image;
    assert_eq!(
        archive::catch_up(&mut after, u64::from(black_box(TICKS))),
        0
    );
    after
}

/// The same for no tick.
fn none(image: &[u8; IMAGE_BYTES]) -> [u8; IMAGE_BYTES] {
    let mut after = *image;
    assert_eq!(archive::catch_up(&mut after, black_box(0)), 0);
    after
}

/// The proved list run without events.
fn empty(image: &[u8; IMAGE_BYTES]) -> [u8; IMAGE_BYTES] {
    static MEMORY: Mutex<[u8; MEMORY_BYTES]> = Mutex::new([0; MEMORY_BYTES]);
    let mut after = *image;
    let mut memory = MEMORY.lock().expect("one thread");
    assert_eq!(
        archive::run(&mut after, memory.as_mut_slice(), black_box(&[]), &mut []).number,
        0
    );
    after
}

/// The plain program that does the same work: the image read, tested and written.
fn plain(image: &[u8; IMAGE_BYTES]) -> [u8; IMAGE_BYTES] {
    let mut after = *image;
    assert_eq!(
        plain_sleep::catch_up(&mut after, u64::from(black_box(TICKS))),
        0
    );
    after
}

/// The second program's day numbers, which take registers and core and test nothing else.
fn bare(image: &[u8; IMAGE_BYTES]) -> [u8; IMAGE_BYTES] {
    let mut after = *image;
    let (registers, rest) = after.split_first_chunk_mut().expect("15 bytes of 64");
    let core = rest.first_chunk_mut().expect("7 bytes of 49");
    day_numbers::catch_up(registers, core, true, black_box(TICKS));
    after
}

/// The proved list run, tick by tick.
fn single_ticks(image: &[u8; IMAGE_BYTES]) -> [u8; IMAGE_BYTES] {
    let mut after = *image;
    let mut memory = vec![0; MEMORY_BYTES];
    let (ticks, mut answers) = ([4; LIST], vec![0; LIST]);
    let mut left = TICKS as usize;
    while left > 0 {
        let count = left.min(LIST);
        let ran = archive::run(&mut after, &mut memory, &ticks[..count], &mut answers);
        assert_eq!((ran.number, ran.count), (0, count as u64));
        left -= count;
    }
    after
}

/// Nanoseconds a call, for each side: of all rounds the fastest.
fn time<const SIDES: usize>(sides: [Call; SIDES], image: &[u8; IMAGE_BYTES]) -> [f64; SIDES] {
    let mut fastest = [f64::INFINITY; SIDES];
    for _ in 0..ROUNDS {
        for (side, best) in sides.iter().zip(&mut fastest) {
            let began = Instant::now();
            for _ in 0..CALLS {
                black_box(side(black_box(image)));
            }
            *best = best.min(began.elapsed().as_nanos() as f64 / CALLS as f64);
        }
    }
    fastest
}

/// Times every alarm, after seeing that the two programs that take images do the same on many, and that all leave the same
/// image here.
pub fn all() -> Vec<Slept> {
    let (accepted, rung) = sameness::check(sameness::IMAGES);
    assert!(accepted < sameness::IMAGES && 0 < rung);
    ALARMS
        .iter()
        .map(|alarm| {
            let image = image_with(alarm);
            let after = proved(&image);
            assert_eq!(after, plain(&image), "{}", alarm.about);
            assert_eq!(after, bare(&image), "{}", alarm.about);
            let began = Instant::now();
            assert_eq!(after, single_ticks(&image), "{}", alarm.about);
            let single = began.elapsed().as_nanos() as f64;
            let [proved, plain, bare, none, empty] =
                time([proved, plain, bare, none, empty], &image);
            Slept {
                alarm: alarm.about,
                proved,
                plain,
                bare,
                single,
                none,
                empty,
            }
        })
        .collect()
}
