// SPDX-License-Identifier: Apache-2.0
//! The larger family on both programs: the proved program's entries for each size, and the second program's state as the
//! 64 bytes of docs/FAMILY.md.

use crate::image::{bus_bytes, phase_within, IMAGE_BYTES};
pub use fm3130_sys::fm31_fresh as fresh;
use fm3130_sys::{
    fm31256_run, fm31256_step, fm31256_view_number, fm3164_run, fm3164_step, fm3164_view_number,
};
use second::family::{Device, Size, State};
use second::generate::FamilyList;

/// Bytes 61 to 63.
const MARK: [u8; 3] = [0x31, 0xCC, 0x01];

/// The bits of 09h to 18h that are not fixed at 0.
const FREE_BITS: [u8; 16] = [
    0xEF, 0x9F, 0x9F, 0x0F, 0xFF, 0xFF, 0xFF, 0xFF, 0xFF, 0xFF, 0xFF, 0xFF, 0xFF, 0xFF, 0xFF, 0xFF,
];

/// The list run of a size; the number.
pub fn run(
    size: Size,
    image: &mut [u8],
    memory: &mut [u8],
    events: &[u8],
    answers: &mut [u8],
) -> u64 {
    match size {
        Size::Kilobits64 => fm3164_run(image, memory, events, answers),
        Size::Kilobits256 => fm31256_run(image, memory, events, answers),
    }
}

/// One event of a size; the number.
pub fn step(size: Size, image: &mut [u8], memory: &mut [u8], event: u64, told: &mut [u8]) -> u64 {
    match size {
        Size::Kilobits64 => fm3164_step(image, memory, event, told),
        Size::Kilobits256 => fm31256_step(image, memory, event, told),
    }
}

/// The viewer's number of a size.
pub fn view_number(
    size: Size,
    image: &[u8],
    memory: &[u8],
    selector: u64,
    start: u64,
    length: u64,
) -> u64 {
    match size {
        Size::Kilobits64 => fm3164_view_number(image, memory, selector, start, length),
        Size::Kilobits256 => fm31256_view_number(image, memory, selector, start, length),
    }
}

/// The image of a state of the second program.
pub fn image_of(state: &State) -> [u8; IMAGE_BYTES] {
    let mut image = [0; IMAGE_BYTES];
    image[..16].copy_from_slice(&state.registers);
    image[16..20].copy_from_slice(&state.snapshot);
    image[22..30].copy_from_slice(&bus_bytes(
        state.companion_address,
        state.memory_address,
        state.power,
        &state.transfer,
    ));
    image[61..].copy_from_slice(&MARK);
    image
}

/// Whether docs/FAMILY.md accepts an image for a size.
pub fn is_accepted(size: Size, image: &[u8]) -> bool {
    image.len() == IMAGE_BYTES
        && image
            .iter()
            .zip(FREE_BITS)
            .all(|(byte, free)| byte & !free == 0)
        && image[20] == 0
        && image[21] == 0
        && (0x09..=0x18).contains(&image[22])
        && usize::from(image[23]) < size.bytes() / 256
        && image[25] <= 2
        && phase_within(&image[26..30], &(0x09..=0x18))
        && (image[25] == 0 || image[26] == 0)
        && image[30..61].iter().all(|byte| *byte == 0)
        && image[61..] == MARK
}

/// What a run leaves: everything that a host can see of it.
#[derive(Clone, Debug, PartialEq, Eq)]
pub struct Left {
    pub answers: Vec<u8>,
    pub image: [u8; IMAGE_BYTES],
    pub memory: Vec<u8>,
}

/// A list on the second program.
pub fn by_second(list: &FamilyList) -> Left {
    let mut device: Device = list.device();
    let answers = device.run(&list.events);
    Left {
        answers,
        image: image_of(&State::of(&device)),
        memory: device.memory,
    }
}

/// A list on the proved program, in calls of at most so many events each.
pub fn by_archive(list: &FamilyList, most: usize) -> Left {
    let mut image = image_of(&list.state);
    let mut memory = list.memory();
    let mut answers = vec![0xEE; list.events.len()];
    for (events, answers) in list.events.chunks(most).zip(answers.chunks_mut(most)) {
        assert_eq!(
            run(list.size, &mut image, &mut memory, events, answers),
            0,
            "{}/{}",
            list.family,
            list.name
        );
    }
    Left {
        answers,
        image,
        memory,
    }
}

/// Holds the proved program to the second program on one list, whole and in pieces of 1, 7 and 64 events.
pub fn hold(list: &FamilyList) {
    let expected = by_second(list);
    for most in [usize::MAX, 1, 7, 64] {
        let found = by_archive(list, most);
        assert!(
            found == expected,
            "{:?} {}/{}, at most {most} events a call: answers differ at {:?}, image at {:?}, memory at {:?}",
            list.size,
            list.family,
            list.name,
            first_difference(&expected.answers, &found.answers),
            first_difference(&expected.image, &found.image),
            first_difference(&expected.memory, &found.memory),
        );
    }
}

/// Where two runs of bytes first differ.
pub fn first_difference(expected: &[u8], found: &[u8]) -> Option<usize> {
    expected
        .iter()
        .zip(found)
        .position(|(one, other)| one != other)
}
