// SPDX-License-Identifier: Apache-2.0
//! Lists for the larger family, for a chosen size; see [`generate`](super) for
//! their numbers.

mod any_phase_lists;
mod bus_lists;
mod calls;
mod counter_lists;
mod fixed;
mod lock_lists;
mod power_lists;
mod random_lists;
mod random_parts;
mod register_lists;
mod set_calls;
mod set_lists;
mod set_runs;
mod structured_lists;

pub use any_phase_lists::{any_family_state_in_any_phase, family_any_phase, set_any_phase};
pub use calls::{family_calls, family_views, FamilyCall, FamilyView};
pub use random_lists::family_random;
pub use random_parts::any_family_state;
pub use set_calls::{set_calls, SetCall, SetCallPlace};
pub use set_lists::{
    addressed_to, count_set_events, select_arrangements, set_exhaustive, set_random, SetList,
    SetPlace,
};
pub use set_runs::set_runs;
pub use structured_lists::family_structured;

use super::script::Script;
use super::{fill_memory, RandomSource};
use crate::family::{Device, Size, State};

/// One list of events, to be run on a part of this size in this state, whose
/// memory is preset by `memory_seed` (see [`fill_memory`]).
#[derive(Clone, Debug, PartialEq, Eq)]
pub struct FamilyList {
    pub size: Size,
    pub family: &'static str,
    pub name: String,
    pub memory_seed: u64,
    pub state: State,
    pub events: Vec<u8>,
}

impl FamilyList {
    /// The memory before the first event.
    pub fn memory(&self) -> Vec<u8> {
        let mut memory = vec![0; self.size.bytes()];
        fill_memory(self.memory_seed, &mut memory);
        memory
    }

    /// The device that the list is to be run on.
    pub fn device(&self) -> Device {
        self.state.device(self.size, self.memory())
    }
}

/// The number of events of some lists together.
pub fn count_family_events(lists: &[FamilyList]) -> usize {
    lists.iter().map(|list| list.events.len()).sum()
}

/// The small exhaustive families for a size; see the modules for what each tries.
pub fn family_exhaustive(size: Size) -> Vec<FamilyList> {
    let mut lists = Vec::new();
    lists.extend(bus_lists::slave_bytes(size));
    lists.extend(bus_lists::companion_addresses(size));
    lists.extend(bus_lists::memory_address_bytes(size));
    lists.extend(bus_lists::write_protection(size));
    lists.extend(bus_lists::data_byte_cuts(size));
    lists.extend(bus_lists::address_wraps(size));
    lists.extend(bus_lists::cuts(size));
    lists.extend(bus_lists::insertions(size));
    lists.extend(bus_lists::pairs_of_events(size));
    lists.extend(register_lists::register_values(size));
    lists.extend(register_lists::flags_kept(size));
    lists.extend(counter_lists::counter_tops(size));
    lists.extend(counter_lists::long_counts(size));
    lists.extend(counter_lists::edges_everywhere(size));
    lists.extend(counter_lists::edges_in_counter_writes(size));
    lists.extend(counter_lists::count_controls(size));
    lists.extend(counter_lists::frozen_reads(size));
    lists.extend(counter_lists::writes_while_frozen(size));
    lists.extend(lock_lists::locks_inside_writes(size));
    lists.extend(lock_lists::locks_and_protection(size));
    lists.extend(lock_lists::locks_and_supplies(size));
    lists.extend(power_lists::power_sequences(size));
    lists.extend(power_lists::power_everywhere(size));
    lists.extend(power_lists::handed_in(size));
    lists.extend(power_lists::handed_in_addresses(size));
    lists
}

/// Lists of one family under construction.
struct Lists {
    size: Size,
    family: &'static str,
    memory_seed: u64,
    lists: Vec<FamilyList>,
}

impl Lists {
    fn new(size: Size, family: &'static str, memory_seed: u64) -> Lists {
        Lists {
            size,
            family,
            memory_seed,
            lists: Vec::new(),
        }
    }

    /// A list on a fresh device.
    fn add(&mut self, name: String, script: Script) {
        self.add_in(State::fresh(), name, script);
    }

    /// A list on a device in some state.
    fn add_in(&mut self, state: State, name: String, script: Script) {
        self.lists.push(FamilyList {
            size: self.size,
            family: self.family,
            name,
            memory_seed: self.memory_seed,
            state,
            events: script.events,
        });
    }
}

/// A list of a structured or random family; some are preset to all 0.
fn list_by_chance(
    source: &mut RandomSource,
    size: Size,
    family: &'static str,
    name: String,
    state: State,
    script: Script,
) -> FamilyList {
    let memory_seed = if source.chance(20) {
        0
    } else {
        source.next_number() | 1
    };
    FamilyList {
        size,
        family,
        name,
        memory_seed,
        state,
        events: script.events,
    }
}
