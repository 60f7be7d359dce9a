// SPDX-License-Identifier: Apache-2.0
//! Lists that begin in a state handed in of any phase. Without main power there
//! is no transfer; both addresses may be any under every supply.

use super::random_lists::random;
use super::random_source::RandomSource;
use super::starting_state::{any_state, begin_with, power_back};
use super::transactions::random_transactions;
use super::{fill_memory, List};
use crate::device::{Device, Power};
use crate::state::State;

/// One list of events, to be run on a device in the given state, whose memory
/// is preset by `memory_seed` (see [`fill_memory`]).
#[derive(Clone, Debug, PartialEq, Eq)]
pub struct AnyPhaseList {
    pub family: &'static str,
    pub name: String,
    pub memory_seed: u64,
    pub state: State,
    pub events: Vec<u8>,
}

impl AnyPhaseList {
    /// The device that the list is to be run on.
    pub fn device(&self) -> Device {
        let mut device = self.state.device(vec![0; crate::MEMORY_BYTES]);
        fill_memory(self.memory_seed, &mut device.memory);
        device
    }
}

/// A state of any phase: what some first events of a transaction leave of any state
/// between transfers and of some memory. A list has a memory of its own, so that
/// the byte being sent need not be the one at its address.
pub fn any_state_in_any_phase(source: &mut RandomSource) -> State {
    let mut device = any_state(source).device();
    fill_memory(source.next_number(), &mut device.memory);
    let mut all = random_transactions(source);
    let events = all.remove(source.below(all.len())).script.events;
    let length = source.below(events.len() + 1);
    device.run(&events[..length]);
    State::of(&device)
}

/// Random lists with about so many events in all, each in a state of its own of any
/// phase.
pub fn handed_in_any_phase(seed: u64, approximate_events: usize) -> Vec<AnyPhaseList> {
    let mut source = RandomSource::new(!seed);
    random(seed, approximate_events)
        .into_iter()
        .map(|list| in_any_phase(&mut source, list))
        .collect()
}

fn in_any_phase(source: &mut RandomSource, mut list: List) -> AnyPhaseList {
    let state = any_state_in_any_phase(source);
    if state.power != Power::On && source.chance(50) {
        begin_with(&power_back(source), &mut list.events);
    }
    AnyPhaseList {
        family: list.family,
        name: list.name,
        memory_seed: list.memory_seed,
        state,
        events: list.events,
    }
}
