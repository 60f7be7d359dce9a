// SPDX-License-Identifier: Apache-2.0
//! One to four parts on one line, on both programs: lists whole and in pieces, and what is refused.

use compare::set::{check, hold, hold_made, number_of, run, Buffers};
use second::family::{run_set, Set};
use second::generate::{
    set_any_phase, set_calls, set_exhaustive, set_random, set_runs, SetCall, SetList,
};

fn count_events(lists: &[SetList]) -> usize {
    lists.iter().map(|list| list.events.len()).sum()
}

/// Sets sound or faulty, between transfers, inside transfers that a made set can come to, and inside others.
fn calls() -> Vec<SetCall> {
    let mut calls = set_calls();
    calls.extend(set_runs());
    calls
}

/// How often a number was given.
#[derive(Default)]
struct Tally([usize; 12]);

impl Tally {
    fn add(&mut self, number: u64) {
        self.0[number as usize] += 1;
    }

    /// Each of these numbers was given at least so often, and no other.
    fn hold(&self, numbers: &[usize], least: usize) {
        for (number, times) in self.0.iter().enumerate() {
            let is_meant = numbers.contains(&number);
            let is_so = if is_meant {
                *times >= least
            } else {
                *times == 0
            };
            assert!(is_so, "number {number} was given {times} times");
        }
    }
}

#[test]
fn exhaustive_families_agree() {
    let lists = set_exhaustive();
    lists.iter().for_each(hold_made);
    assert!(lists.len() > 4_000, "{}", lists.len());
}

#[test]
fn random_lists_agree() {
    let lists = set_random(17, 600_000);
    lists.iter().for_each(hold_made);
    let events = count_events(&lists);
    assert!(events > 500_000, "{events}");
}

/// Lists that begin inside a transfer of a set that was made.
#[test]
fn lists_that_begin_in_any_phase_agree() {
    let lists = set_any_phase(19, 600_000);
    lists.iter().for_each(hold);
    let inside = |list: &&SetList| check(&Buffers::of(&list.members())) == 11;
    let inside = lists.iter().filter(inside).count();
    assert!(inside > lists.len() / 4, "{inside} of {}", lists.len());
    let events = count_events(&lists);
    assert!(events > 100_000, "{events}");
}

#[test]
fn sets_are_refused_by_the_same_number() {
    let mut given = Tally::default();
    for call in calls() {
        let buffers = Buffers::of(&call.members());
        let found = check(&buffers);
        let expected = Set::make(call.members()).err().unwrap_or(0);
        assert_eq!(found, number_of(expected, &buffers), "{}", call.name);
        given.add(found);
    }
    given.hold(&[0, 1, 2, 9, 10, 11], 10);
}

/// A list run on a set that may be inside a transfer: the same number, and nothing written under a refusal.
#[test]
fn list_runs_are_refused_by_the_same_number_and_write_nothing() {
    let mut given = Tally::default();
    for call in calls() {
        let begin = Buffers::of(&call.members());
        let mut found = begin.clone();
        let mut answers = vec![0xEE; call.room];
        let number = run(&mut found, &call.events, &mut answers);
        match run_set(call.members(), &call.events, call.room) {
            Ok(expected) => {
                assert_eq!(number, 0, "{}", call.name);
                let written = &answers[..expected.answers.len()];
                assert_eq!(written, expected.answers, "{}", call.name);
                let expected = Buffers::after(&begin.plan, &expected.set);
                assert!(found == expected, "{}: the sets differ", call.name);
            }
            Err(expected) => {
                assert_eq!(number, number_of(expected, &begin), "{}", call.name);
                let is_kept = found == begin && answers.iter().all(|byte| *byte == 0xEE);
                assert!(is_kept, "{}: a refusal wrote something", call.name);
            }
        }
        given.add(number);
    }
    given.hold(&[0, 1, 2, 3, 4, 9, 10, 11], 10);
}

/// Number 9 exactly if there are not one to four devices, sound ones or not.
#[test]
fn a_set_of_none_or_more_than_four_is_refused() {
    let call = set_calls().swap_remove(0);
    let one = Buffers::of(&call.members()[..1]);
    for count in 0..=6 {
        let mut sound = one.clone();
        sound.plan = (0..count as u8).map(|place| place % 4).collect();
        sound.images = one.images[..64].repeat(count);
        sound.memories = std::array::from_fn(|_| vec![0; 8192]);
        let mut faulty = sound.clone();
        if let Some(last) = faulty.images.last_mut() {
            *last ^= 1;
        }
        faulty.memories[0].pop();
        let is_count = (1..=4).contains(&count);
        for (buffers, number) in [(sound, 0), (faulty, 1)] {
            let expected = if is_count { number } else { 9 };
            assert_eq!(check(&buffers), expected, "{count} devices");
            assert_eq!(run(&mut buffers.clone(), &[], &mut []), expected);
        }
    }
}
