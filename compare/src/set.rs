// SPDX-License-Identifier: Apache-2.0
//! One to four parts of the larger family on one line, on both programs.

use crate::family::{first_difference, image_of};
use crate::image::IMAGE_BYTES;
use fm3130_sys::{fm31_set_check, fm31_set_run};
use second::family::{run_set, Member, Set, Size, State};
use second::generate::SetList;

/// Where an image has the supplies, 0 for main power, and the phase, 0 for no transfer.
const SUPPLIES: usize = 25;
const PHASE: usize = 26;

/// The buffers of a set, as C has them: the plan, the images one after the other, and four memories.
#[derive(Clone, Debug, PartialEq, Eq)]
pub struct Buffers {
    pub plan: Vec<u8>,
    pub images: Vec<u8>,
    pub memories: [Vec<u8>; 4],
}

impl Buffers {
    /// The buffers of some members; a place that is not on the line has an empty memory.
    pub fn of(members: &[Member]) -> Buffers {
        let mut memories: [Vec<u8>; 4] = Default::default();
        for (memory, member) in memories.iter_mut().zip(members) {
            memory.clone_from(&member.memory);
        }
        Buffers {
            plan: members.iter().map(plan_byte).collect(),
            images: images_of(members.iter().map(|member| member.state)),
            memories,
        }
    }

    /// The buffers that a set of the second program has become.
    pub fn after(plan: &[u8], set: &Set) -> Buffers {
        let mut memories: [Vec<u8>; 4] = Default::default();
        for (memory, device) in memories.iter_mut().zip(&set.devices) {
            memory.clone_from(&device.memory);
        }
        Buffers {
            plan: plan.to_vec(),
            images: images_of(set.states().into_iter()),
            memories,
        }
    }
}

/// A device's byte of the plan: bits 1 and 0 its selects, bit 2 its size.
fn plan_byte(member: &Member) -> u8 {
    let size = match member.size {
        Size::Kilobits64 => 0,
        Size::Kilobits256 => 4,
    };
    size + member.selects
}

fn images_of(states: impl Iterator<Item = State>) -> Vec<u8> {
    states.flat_map(|state| image_of(&state)).collect()
}

/// Whether a set can be made; the number.
pub fn check(buffers: &Buffers) -> u64 {
    let [one, two, three, four] = &buffers.memories;
    fm31_set_check(&buffers.plan, &buffers.images, one, two, three, four)
}

/// A list of events on a set; the number.
pub fn run(buffers: &mut Buffers, events: &[u8], answers: &mut [u8]) -> u64 {
    let [one, two, three, four] = &mut buffers.memories;
    let (plan, images) = (&buffers.plan, &mut buffers.images);
    fm31_set_run(plan, images, one, two, three, four, events, answers)
}

/// The number for one of the second program's. It takes a state by value and asks by 11 that a device without main power is
/// in no transfer; of an image that is a limit (docs/IMAGE.md), and number 2, after 9 and 1.
pub fn number_of(second: u8, buffers: &Buffers) -> u64 {
    let mut images = buffers.images.chunks_exact(IMAGE_BYTES);
    let is_unpowered = |image: &[u8]| image[SUPPLIES] != 0 && image[PHASE] != 0;
    match second {
        9 | 1 => u64::from(second),
        _ if images.any(is_unpowered) => 2,
        _ => u64::from(second),
    }
}

/// Holds the proved program to the second program on one list for a set that can be made.
pub fn hold_made(list: &SetList) {
    let made = check(&Buffers::of(&list.members()));
    assert_eq!(made, 0, "{}/{}", list.family, list.name);
    hold(list);
}

/// Holds the proved program to the second program on one list, whole and in pieces of 1, 7 and 64 events. The devices may be
/// inside a transfer when the list begins.
pub fn hold(list: &SetList) {
    let begin = Buffers::of(&list.members());
    let ran = run_set(list.members(), &list.events, list.events.len())
        .expect("a list of the generators is accepted");
    let expected_answers = ran.answers;
    let expected = Buffers::after(&begin.plan, &ran.set);
    for most in [usize::MAX, 1, 7, 64] {
        let mut found = begin.clone();
        let mut answers = vec![0xEE; list.events.len()];
        for (events, answers) in list.events.chunks(most).zip(answers.chunks_mut(most)) {
            assert_eq!(run(&mut found, events, answers), 0);
        }
        assert!(
            answers == expected_answers && found == expected,
            "{}/{}, at most {most} events a call: answers differ at {:?}, images at {:?} of {}",
            list.family,
            list.name,
            first_difference(&expected_answers, &answers),
            first_difference(&expected.images, &found.images),
            IMAGE_BYTES * begin.plan.len(),
        );
    }
}
