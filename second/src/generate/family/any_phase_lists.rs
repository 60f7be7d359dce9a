// SPDX-License-Identifier: Apache-2.0
//! Lists that begin in states handed in of any phase, for one part and for a set.
//! Without main power there is no transfer; both addresses may be any under every
//! supply.

use super::random_lists::family_random;
use super::random_parts::{any_family_state, any_transactions};
use super::set_lists::{set_random, SetList};
use super::FamilyList;
use crate::bus::Power;
use crate::family::{Size, State};
use crate::generate::fill_memory;
use crate::generate::random_source::RandomSource;
use crate::generate::starting_state::{begin_with, power_back};

/// A state of any phase: what some first events of a transaction leave of any state
/// between transfers and of some memory. A list has a memory of its own, so that
/// the byte being sent need not be the one at its address.
pub fn any_family_state_in_any_phase(source: &mut RandomSource, size: Size) -> State {
    let mut memory = vec![0; size.bytes()];
    fill_memory(source.next_number(), &mut memory);
    let mut device = any_family_state(source, size).device(size, memory);
    let mut all = any_transactions(source, size);
    let (_, chosen) = all.remove(source.below(all.len()));
    let length = source.below(chosen.events.len() + 1);
    device.run(&chosen.events[..length]);
    State::of(&device)
}

/// The lists of [`family_random`], each in a state of its own of any phase.
pub fn family_any_phase(size: Size, seed: u64, approximate_events: usize) -> Vec<FamilyList> {
    let mut source = RandomSource::new(!seed);
    let mut lists = family_random(size, seed, approximate_events);
    for list in &mut lists {
        list.state = any_family_state_in_any_phase(&mut source, size);
        if list.state.power != Power::On && source.chance(50) {
            begin_with(&power_back(&mut source), &mut list.events);
        }
    }
    lists
}

/// The most events before the set is handed in.
const EVENTS_BEFORE: usize = 60;

/// The lists of [`set_random`] without some of their first events; the devices are
/// handed in as those events leave them, with the memories from before.
pub fn set_any_phase(seed: u64, approximate_events: usize) -> Vec<SetList> {
    let mut source = RandomSource::new(!seed);
    let mut lists = set_random(seed, approximate_events);
    for list in &mut lists {
        let before = source.below(EVENTS_BEFORE + 1).min(list.events.len());
        let mut set = list.set();
        for event in list.events.drain(..before) {
            set.event(event);
        }
        for (place, state) in list.places.iter_mut().zip(set.states()) {
            place.state = state;
        }
    }
    lists
}
