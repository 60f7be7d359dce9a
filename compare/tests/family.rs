// SPDX-License-Identifier: Apache-2.0
//! The larger family on both programs, at both sizes: lists whole and in pieces, single events, refusals, the viewer.

use compare::family::{self, by_archive, by_second, hold, image_of, is_accepted};
use compare::image::IMAGE_BYTES;
use second::family::{Size, State, SIZES};
use second::generate::{
    any_family_state, count_family_events, family_any_phase, family_calls, family_exhaustive,
    family_random, family_structured, family_views, FamilyCall, FamilyList, RandomSource,
};

fn hold_all(lists: &[FamilyList], least: usize) {
    lists.iter().for_each(hold);
    let events = count_family_events(lists);
    assert!(events >= least, "{events} events are fewer than {least}");
}

#[test]
fn exhaustive_families_agree() {
    for size in SIZES {
        hold_all(&family_exhaustive(size), 500_000);
    }
}

#[test]
fn structured_lists_agree() {
    for size in SIZES {
        hold_all(&family_structured(size, 7, 3_000_000), 2_500_000);
    }
}

#[test]
fn random_lists_agree() {
    for size in SIZES {
        hold_all(&family_random(size, 11, 3_000_000), 2_900_000);
    }
}

/// States that the limits admit: any addresses, under every supply, inside any byte.
#[test]
fn lists_on_states_in_any_phase_agree() {
    for size in SIZES {
        hold_all(&family_any_phase(size, 43, 1_000_000), 900_000);
    }
}

#[test]
fn another_list_is_noticed() {
    let list = family_structured(Size::Kilobits256, 7, 20_000).swap_remove(3);
    let mut other = list.clone();
    let edge = other
        .events
        .iter()
        .rposition(|event| *event == 2)
        .expect("a list has a low clock");
    other.events[edge] = 3;
    assert_eq!(by_archive(&list, usize::MAX), by_second(&list));
    assert_ne!(by_archive(&list, usize::MAX), by_second(&other));
}

#[test]
fn both_begin_with_the_same_image() {
    let mut image = [0xEE; IMAGE_BYTES];
    assert_eq!(family::fresh(&mut image), 0);
    assert_eq!(image, image_of(&State::fresh()));
    for length in [0, 63, 65, 8192] {
        let mut other = vec![0xEE; length];
        assert_eq!(family::fresh(&mut other), 2);
        assert!(other.iter().all(|byte| *byte == 0xEE));
    }
}

/// Every event of a list by itself: its answer, and what it leaves.
#[test]
fn single_events_agree() {
    for size in SIZES {
        for list in family_random(size, 31, 300_000) {
            let mut device = list.device();
            let (mut image, mut memory) = (image_of(&list.state), list.memory());
            for (place, event) in list.events.iter().enumerate() {
                let answer = device.event(*event);
                let mut told = [0xEE; 2];
                let number =
                    family::step(size, &mut image, &mut memory, u64::from(*event), &mut told);
                assert_eq!(
                    (number, told, image),
                    (0, [answer, 0xEE], image_of(&State::of(&device))),
                    "{size:?} {}/{}, event {place}",
                    list.family,
                    list.name
                );
            }
            assert!(
                memory == device.memory,
                "{}/{}: memory",
                list.family,
                list.name
            );
        }
    }
}

/// A call of the list run: the second program's number; nothing written under a refusal, and nothing past the answers.
fn hold_call(call: &FamilyCall) {
    let before = image_of(&call.state);
    let (mut image, mut memory) = (before, vec![7; call.memory_bytes]);
    let mut answers = vec![0xEE; call.room];
    let number = family::run(
        call.size,
        &mut image,
        &mut memory,
        &call.events,
        &mut answers,
    );
    let unwritten = vec![7; call.memory_bytes];
    match second::family::run(
        call.size,
        Some(call.state),
        &unwritten,
        &call.events,
        call.room,
    ) {
        Ok(left) => {
            assert_eq!(number, 0, "{}", call.name);
            assert_eq!(image, image_of(&left.state), "{}", call.name);
            assert_eq!(memory, left.memory, "{}", call.name);
            let (told, past) = answers.split_at(call.events.len());
            assert_eq!(told, left.answers, "{}", call.name);
            assert!(past.iter().all(|byte| *byte == 0xEE), "{}", call.name);
        }
        Err(expected) => {
            assert_eq!(number, u64::from(expected), "{}", call.name);
            assert!(
                image == before && memory == unwritten && answers.iter().all(|byte| *byte == 0xEE),
                "{}: a refusal wrote something",
                call.name
            );
        }
    }
}

#[test]
fn calls_are_refused_by_the_same_number_and_write_nothing() {
    for size in SIZES {
        family_calls(size).iter().for_each(hold_call);
    }
}

#[test]
fn single_events_are_refused_in_order_and_write_nothing() {
    let fresh = image_of(&State::fresh());
    for size in SIZES {
        let right = size.bytes();
        for (image_bytes, memory_bytes, event, told_bytes, number) in [
            (63, right - 1, 10, 0, 1),
            (63, right, 10, 0, 2),
            (64, right, 10, 0, 3),
            (64, right, u64::MAX, 1, 3),
            (64, right, 256, 1, 3),
            (64, right, 9, 0, 4),
            (64, right, 9, 1, 0),
        ] {
            let mut image = fresh[..image_bytes].to_vec();
            let (mut memory, mut told) = (vec![7; memory_bytes], vec![0xEE; told_bytes]);
            assert_eq!(
                family::step(size, &mut image, &mut memory, event, &mut told),
                number
            );
            if number != 0 {
                assert!(image == fresh[..image_bytes] && told.iter().all(|byte| *byte == 0xEE));
                assert!(memory.iter().all(|byte| *byte == 7));
            }
        }
    }
}

/// From states on the way of random lists, every value of every byte of an image.
#[test]
fn every_value_of_every_image_byte_is_accepted_or_refused_as_documented() {
    let mut source = RandomSource::new(5);
    for size in SIZES {
        let mut memory = vec![0; size.bytes()];
        let mut accepted = 0;
        for _ in 0..40 {
            let image = image_of(&any_family_state(&mut source, size));
            assert!(is_accepted(size, &image));
            for place in 0..IMAGE_BYTES {
                for value in 0..=255 {
                    let mut changed = image;
                    changed[place] = value;
                    let expected = is_accepted(size, &changed);
                    let number = family::run(size, &mut changed, &mut memory, &[], &mut []);
                    assert_eq!(number, if expected { 0 } else { 2 }, "{place} {value}");
                    accepted += u32::from(expected);
                }
            }
        }
        assert!(accepted > 40 * 2_000, "{accepted}");
    }
}

#[test]
fn views_have_the_same_numbers() {
    for size in SIZES {
        for view in family_views(size) {
            let (image, memory) = (vec![1; view.image_bytes], vec![2; view.memory_bytes]);
            let (expected, _) = second::family::view(
                size,
                &image,
                &memory,
                view.selector,
                view.start,
                view.length,
            );
            let number = family::view_number(
                size,
                &image,
                &memory,
                view.selector,
                view.start,
                view.length,
            );
            assert_eq!(number, u64::from(expected), "{view:?}");
        }
    }
}
