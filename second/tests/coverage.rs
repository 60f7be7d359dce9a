// SPDX-License-Identifier: Apache-2.0
//! The generated lists really reach what they are meant to reach.

mod facts;
mod snapshot;

use facts::{
    facts_of, facts_of_handed_in, missing, required_facts, ticks_with_an_invalid_core, Situation,
};
use second::generate::{self, List, Script};

#[test]
fn exhaustive_lists_reach_everything_required() {
    let facts = facts_of(&generate::exhaustive());
    assert_eq!(missing(&facts, &required_facts()), []);
}

#[test]
fn structured_lists_reach_everything_required() {
    let facts = facts_of(&generate::structured(1, 1_000_000));
    assert_eq!(missing(&facts, &required_facts()), []);
}

#[test]
fn random_lists_reach_everything_required() {
    let facts = facts_of(&generate::random(1, 2_500_000));
    assert_eq!(missing(&facts, &required_facts()), []);
}

/// 02, number 6: "A core can then be invalid only by an image or state handed
/// in."
#[test]
fn only_states_handed_in_reach_an_invalid_core() {
    let required = ticks_with_an_invalid_core();
    let handed_in = facts_of_handed_in(&generate::handed_in());
    assert_eq!(missing(&handed_in, &required), []);
    let by_chance = facts_of_handed_in(&generate::handed_in_random(1, 500_000));
    assert_eq!(missing(&by_chance, &required), []);
    for lists in [
        generate::exhaustive(),
        generate::structured(2, 1_000_000),
        generate::random(2, 1_000_000),
    ] {
        assert_eq!(missing(&facts_of(&lists), &required), required);
    }
}

#[test]
fn the_coverage_test_can_fail() {
    let required = required_facts();
    let nothing = facts_of(&[]);
    assert_eq!(missing(&nothing, &required), required);
    let mut script = Script::new();
    script.memory_write(0x0123, &[1, 2, 3]);
    let poor = List::from_script("poor", String::new(), 0, script);
    let lacking = missing(&facts_of(&[poor]), &required);
    assert!(lacking.contains(&(Situation::UnknownSlaveByte, 0)));
    assert!(lacking.contains(&(Situation::AFRaisedDuringAReadOfControl, 3)));
    assert!(lacking.contains(&(Situation::WrapByWrite, 0)));
    assert!(!lacking.contains(&(Situation::MemoryByteStoredUnderProtection, 0)));
}

#[test]
fn without_ticks_the_coverage_is_missed() {
    let mut lists = generate::structured(1, 100_000);
    for list in lists.iter_mut() {
        list.events.retain(|event| *event != 4);
    }
    let lacking = missing(&facts_of(&lists), &required_facts());
    assert!(lacking.contains(&(Situation::FlagsRaised, 2)));
    assert!(lacking.contains(&(Situation::FieldRolledOver, 0)));
}

/// A Start while off, power back, and then clocks without a Start.
#[test]
fn a_start_while_off_is_tried() {
    for (family, lists) in [
        ("cuts", generate::exhaustive()),
        ("cut-transactions", generate::structured(1, 300_000)),
    ] {
        let tried = lists
            .iter()
            .filter(|list| list.family == family)
            .any(|list| {
                list.events
                    .windows(4)
                    .any(|part| part == [0, 7, 3, 2] || part == [0, 7, 3, 3])
            });
        assert!(tried, "{family}");
    }
}
