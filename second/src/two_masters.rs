// SPDX-License-Identifier: Apache-2.0
//! A handheld on the same chip: two masters and one bus (02, number 8).
//!
//! Who holds the bus stands beside the state as a byte: nobody 0, the first
//! master 1, the second 2. A read from the current address has no assurance: the
//! other master moves that address.

use crate::device::{
    CLOCK_HIGH, POWER_LOST_WITHOUT_BACKUP, POWER_LOST_WITH_BACKUP, POWER_RETURNED, START, STOP,
};
use crate::refusal;
use crate::state::State;
use crate::MEMORY_BYTES;

/// Nobody holds the bus.
pub const NOBODY: u8 = 0;
/// The first master, or that it holds the bus.
pub const FIRST_MASTER: u8 = 1;
/// "The maintainer's handheld becomes a second master."
pub const SECOND_MASTER: u8 = 2;

/// What an answered call leaves.
#[derive(Clone, Debug, PartialEq, Eq)]
pub struct Answered {
    pub bus: u8,
    pub state: State,
    pub memory: Vec<u8>,
    pub answers: Vec<u8>,
}

/// "A master asks for the bus. An ask while the other holds it ... is refused
/// with a new number 7". The bus byte after the ask; the holder may ask again.
pub fn ask(bus: u8, master: u8) -> Result<u8, u8> {
    if !exist(bus, master) {
        return Err(refusal::WRONG_STATE);
    }
    if bus != NOBODY && bus != master {
        return Err(refusal::BUS_NOT_HELD);
    }
    Ok(master)
}

/// A list of events by one master. `image` is the state that an image holds, or
/// none if no well-formed state writes it; `room` is the length of the answers'
/// buffer.
pub fn call(
    bus: u8,
    master: u8,
    image: Option<State>,
    memory: &[u8],
    events: &[u8],
    room: usize,
) -> Result<Answered, u8> {
    if memory.len() != MEMORY_BYTES {
        return Err(refusal::WRONG_MEMORY);
    }
    let state = match image {
        Some(state) if state.is_well_formed() && exist(bus, master) => state,
        _ => return Err(refusal::WRONG_STATE),
    };
    if events.iter().any(|event| *event > POWER_RETURNED) {
        return Err(refusal::UNKNOWN_EVENT);
    }
    // "tested after number 3 and before number 4"
    if needs_the_bus(events) && bus != master {
        return Err(refusal::BUS_NOT_HELD);
    }
    if room < events.len() {
        return Err(refusal::ANSWERS_TOO_SHORT);
    }
    Ok(run(bus, state, memory, events))
}

fn run(bus: u8, state: State, memory: &[u8], events: &[u8]) -> Answered {
    let mut device = state.device(memory.to_vec());
    let answers = device.run(events);
    Answered {
        bus: if frees_the_bus(events) { NOBODY } else { bus },
        state: State::of(&device),
        memory: device.memory,
        answers,
    }
}

/// There are two masters; the bus is held by one of them or by nobody.
fn exist(bus: u8, master: u8) -> bool {
    bus <= SECOND_MASTER && (FIRST_MASTER..=SECOND_MASTER).contains(&master)
}

/// "a call with any event 0 to 3"; "Ticks and power events belong to neither."
fn needs_the_bus(events: &[u8]) -> bool {
    events.iter().any(|event| *event <= CLOCK_HIGH)
}

/// "The bus is freed when an answered call ends whose last Stop, event 5 or event
/// 6 has no Start after it."
fn frees_the_bus(events: &[u8]) -> bool {
    let ends = [STOP, POWER_LOST_WITH_BACKUP, POWER_LOST_WITHOUT_BACKUP];
    let last_end = events.iter().rposition(|event| ends.contains(event));
    last_end.is_some_and(|place| !events[place..].contains(&START))
}
