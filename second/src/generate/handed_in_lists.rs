// SPDX-License-Identifier: Apache-2.0
//! Lists that begin in a state handed in. 02, number 6: "A core can then be
//! invalid only by an image or state handed in."

use super::random_lists::random;
use super::random_source::RandomSource;
use super::sample_calendars::{invalid_calendars, leap_day, valid_calendars};
use super::script::Script;
use super::starting_state::{any_state, begin_with, power_back, StartingState};
use super::{fill_memory, List};
use crate::calendar::{calendar_from_numbers, Calendar};
use crate::device::{Device, Power};
use crate::registers::{OSCILLATOR_HALTED, STORED_BITS};

/// One list of events, to be run on a device in the given state, whose memory
/// is preset by `memory_seed` (see [`fill_memory`]).
#[derive(Clone, Debug, PartialEq, Eq)]
pub struct HandedInList {
    pub family: &'static str,
    pub name: String,
    pub memory_seed: u64,
    pub state: StartingState,
    pub events: Vec<u8>,
}

impl HandedInList {
    /// A list made of a script; its memory is preset.
    pub fn new(
        family: &'static str,
        name: String,
        state: StartingState,
        script: Script,
    ) -> HandedInList {
        HandedInList {
            family,
            name,
            memory_seed: 20,
            state,
            events: script.events,
        }
    }

    /// The device that the list is to be run on.
    pub fn device(&self) -> Device {
        let mut device = self.state.device();
        fill_memory(self.memory_seed, &mut device.memory);
        device
    }
}

/// The number of events of some lists together.
pub fn count_handed_in_events(lists: &[HandedInList]) -> usize {
    lists.iter().map(|list| list.events.len()).sum()
}

/// The exhaustive families of lists with states handed in.
pub fn handed_in() -> Vec<HandedInList> {
    let mut lists = core_bytes();
    lists.extend(cores_and_settings());
    lists.extend(registers_and_controls());
    lists.extend(supplies_and_addresses());
    lists
}

fn all_samples() -> Vec<Calendar> {
    let mut calendars = invalid_calendars();
    calendars.extend(valid_calendars());
    calendars
}

fn noon() -> Calendar {
    calendar_from_numbers((12, 0, 0), 4, (10, 11, 12))
}

/// Every byte that each field of the core can hold, the others being those of
/// 29/02/96; a tick, the registers, another tick, the registers.
fn core_bytes() -> Vec<HandedInList> {
    let mut lists = Vec::new();
    for place in 0..7 {
        let stored = STORED_BITS[0x02 + place];
        for value in 0..=stored {
            let mut bytes = leap_day().to_bytes();
            bytes[place] = value;
            let state = StartingState::running(0x00, noon(), Calendar::from_bytes(bytes));
            let mut script = Script::new();
            script.tick().companion_read(0x00, 9);
            script.tick().companion_read(0x00, 9);
            let name = format!("core byte of {:02X}h is {value:02X}h", place + 2);
            lists.push(HandedInList::new("core-bytes", name, state, script));
        }
    }
    lists
}

/// Every sample in the core, with every W and R, with the oscillator running
/// and halted, and with every supply.
fn cores_and_settings() -> Vec<HandedInList> {
    let mut lists = Vec::new();
    for (number, core) in all_samples().into_iter().enumerate() {
        for settings in 0..24_u8 {
            let mut state = StartingState::running(settings % 4, noon(), core);
            if settings / 4 % 2 == 1 {
                state.registers[0x01] |= OSCILLATOR_HALTED;
            }
            state.power = [Power::On, Power::Backup, Power::Gone][usize::from(settings / 8)];
            let mut script = Script::new();
            script.ticks(2).power_returned().tick();
            script.read_all_registers();
            script.companion_write(0x00, &[0x03]);
            script.companion_read(0x01, 8);
            let name = format!("sample {number}, settings {settings}");
            lists.push(HandedInList::new("core-samples", name, state, script));
        }
    }
    lists
}

/// Every sample in 02h to 08h, with every W and R before and after a write of
/// 00h.
fn registers_and_controls() -> Vec<HandedInList> {
    let mut lists = Vec::new();
    for (number, shown) in all_samples().into_iter().enumerate() {
        for settings in 0..16_u8 {
            let state = StartingState::running(0xF0 | (settings / 4), shown, noon());
            let mut script = Script::new();
            script.companion_write(0x00, &[settings % 4, 0x15]);
            script.companion_read_current(15);
            script.tick().companion_read(0x02, 7);
            let name = format!("sample {number}, {} to {}", settings / 4, settings % 4);
            lists.push(HandedInList::new("register-samples", name, state, script));
        }
    }
    lists
}

/// Every supply with addresses that no loss of power leaves.
fn supplies_with_addresses() -> Vec<StartingState> {
    let mut states = Vec::new();
    for power in [Power::On, Power::Backup, Power::Gone] {
        for memory_address in [0x0000, 0x0332, 0x1FFF] {
            for companion_address in [0x00, 0x08, 0x0E] {
                states.push(StartingState {
                    power,
                    memory_address,
                    companion_address,
                    ..StartingState::running(0x00, noon(), noon())
                });
            }
        }
    }
    states
}

/// Every supply and addresses with every two events out of tick, 5, 6 and 7; then
/// power returns, and what is read shows both addresses.
fn supplies_and_addresses() -> Vec<HandedInList> {
    let mut lists = Vec::new();
    for (number, state) in supplies_with_addresses().into_iter().enumerate() {
        for pair in 0..16_u8 {
            let mut script = Script::new();
            script.event(4 + pair / 4).event(4 + pair % 4);
            script.power_returned().memory_read_current(1);
            script.companion_read_current(2);
            let name = format!("state {number}, pair {pair}");
            lists.push(HandedInList::new(
                "supplies-and-addresses",
                name,
                state,
                script,
            ));
        }
    }
    lists
}

/// Random lists with about so many events in all, each in a state of its own.
pub fn handed_in_random(seed: u64, approximate_events: usize) -> Vec<HandedInList> {
    let mut source = RandomSource::new(!seed);
    random(seed, approximate_events)
        .into_iter()
        .map(|list| in_any_state(&mut source, list))
        .collect()
}

fn in_any_state(source: &mut RandomSource, mut list: List) -> HandedInList {
    let state = any_state(source);
    if state.power != Power::On && source.chance(50) {
        begin_with(&power_back(source), &mut list.events);
    }
    HandedInList {
        family: list.family,
        name: list.name,
        memory_seed: list.memory_seed,
        state,
        events: list.events,
    }
}
