// SPDX-License-Identifier: Apache-2.0
//! A list of events on the proved program and on the second program.

use crate::{archive, image};
use second::generate::{AnyPhaseList, HandedInList, List};
use second::Device;

/// What a run leaves: everything that a host can see of it.
#[derive(Clone, Debug, PartialEq, Eq)]
pub struct Left {
    pub answers: Vec<u8>,
    pub image: [u8; image::IMAGE_BYTES],
    pub memory: Vec<u8>,
}

/// A device of the second program to begin with, and the events that it is given.
pub struct Case {
    pub name: String,
    pub device: Device,
    pub events: Vec<u8>,
}

impl Case {
    /// A list on the fresh device that it asks for.
    pub fn of(list: &List) -> Case {
        Case {
            name: format!("{}/{}", list.family, list.name),
            device: list.device(),
            events: list.events.clone(),
        }
    }

    /// A list on the state that is handed in with it.
    pub fn handed_in(list: &HandedInList) -> Case {
        Case {
            name: format!("{}/{}", list.family, list.name),
            device: list.device(),
            events: list.events.clone(),
        }
    }

    /// A list on a state that stands anywhere, also inside a byte.
    pub fn in_any_phase(list: &AnyPhaseList) -> Case {
        Case {
            name: format!("{}/{}", list.family, list.name),
            device: list.device(),
            events: list.events.clone(),
        }
    }
}

/// The case on the second program.
pub fn by_second(case: &Case) -> Left {
    let mut device = case.device.clone();
    let answers = device.run(&case.events);
    Left {
        answers,
        image: image::of(&device),
        memory: device.memory,
    }
}

/// The case on the proved program, in calls of at most so many events each.
pub fn by_archive(case: &Case, most: usize) -> Left {
    let mut image = image::of(&case.device);
    let mut memory = case.device.memory.clone();
    let mut answers = vec![0xEE; case.events.len()];
    for (events, answers) in case.events.chunks(most).zip(answers.chunks_mut(most)) {
        let ran = archive::run(&mut image, &mut memory, events, answers);
        assert_eq!((ran.number, ran.count), (0, events.len() as u64));
    }
    Left {
        answers,
        image,
        memory,
    }
}

/// Holds the proved program to the second program on one case, whole and in pieces of 1, 7 and 64 events.
pub fn hold(case: &Case) {
    let expected = by_second(case);
    for most in [usize::MAX, 1, 7, 64] {
        let found = by_archive(case, most);
        if found != expected {
            panic!("{}", difference(case, most, &expected, &found));
        }
    }
}

/// Where two runs of a case first differ, in words.
fn difference(case: &Case, most: usize, expected: &Left, found: &Left) -> String {
    let place = expected
        .answers
        .iter()
        .zip(&found.answers)
        .position(|(one, other)| one != other);
    let answer = match place {
        Some(at) => format!(
            "answer {at} to event {} is {:02X}h, not {:02X}h",
            case.events[at], found.answers[at], expected.answers[at]
        ),
        None => "all answers agree".to_string(),
    };
    let image = expected
        .image
        .iter()
        .zip(&found.image)
        .position(|(one, other)| one != other);
    let memory = expected
        .memory
        .iter()
        .zip(&found.memory)
        .position(|(one, other)| one != other);
    format!(
        "{}, at most {most} events a call: {answer}; image differs at {image:?}, memory at {memory:?}",
        case.name
    )
}
