// SPDX-License-Identifier: Apache-2.0
//! Every list of the second program's generators on both programs: answers, image and memory, whole and in pieces.

use compare::lists::{by_archive, by_second, hold, Case};
use second::generate::{
    count_events, count_handed_in_events, exhaustive, handed_in, handed_in_any_phase,
    handed_in_random, random, structured, HandedInList, List,
};

fn hold_all(lists: &[List], least: usize) {
    lists.iter().map(Case::of).for_each(|case| hold(&case));
    let events = count_events(lists);
    assert!(events >= least, "{events} events are fewer than {least}");
}

fn hold_handed_in(lists: &[HandedInList], least: usize) {
    lists
        .iter()
        .map(Case::handed_in)
        .for_each(|case| hold(&case));
    let events = count_handed_in_events(lists);
    assert!(events >= least, "{events} events are fewer than {least}");
}

#[test]
fn exhaustive_families_agree() {
    hold_all(&exhaustive(), 5_800_000);
}

#[test]
fn structured_lists_agree() {
    hold_all(&structured(7, 12_000_000), 10_000_000);
}

#[test]
fn random_lists_agree() {
    hold_all(&random(11, 12_000_000), 11_900_000);
}

/// Only a state handed in can have an invalid core.
#[test]
fn lists_on_states_handed_in_agree() {
    hold_handed_in(&handed_in(), 500_000);
    hold_handed_in(&handed_in_random(13, 2_000_000), 1_900_000);
}

/// States that the limits admit and no fresh device may ever reach: any addresses, under every supply, inside any byte.
#[test]
fn lists_on_states_in_any_phase_agree() {
    let lists = handed_in_any_phase(41, 2_000_000);
    lists
        .iter()
        .map(Case::in_any_phase)
        .for_each(|case| hold(&case));
    let events: usize = lists.iter().map(|list| list.events.len()).sum();
    assert!(events >= 1_900_000, "{events} events are few");
}

#[test]
fn another_list_is_noticed() {
    let list = structured(7, 20_000).swap_remove(3);
    let mut other = list.clone();
    let clock = other
        .events
        .iter()
        .rposition(|event| *event == 2)
        .expect("a list has a low clock");
    other.events[clock] = 3;
    let (one, another) = (Case::of(&list), Case::of(&other));
    assert_eq!(by_archive(&one, usize::MAX), by_second(&one));
    assert_ne!(by_archive(&one, usize::MAX), by_second(&another));
}
