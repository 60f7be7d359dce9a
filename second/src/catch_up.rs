// SPDX-License-Identifier: Apache-2.0
//! Catching up after sleep (02, number 7): by plain counting, and by day numbers.

use crate::calendar::Calendar;
use crate::day_numbers;
use crate::device::{Power, TICK};
use crate::refusal;
use crate::state::State;

/// "up to 31,622,400 ticks": 366 days.
pub const MOST_TICKS: u32 = 31_622_400;

/// "a larger n is refused by number 8, after number 2, and changes nothing"
fn refusal_of(state: &State, ticks: u32) -> Option<u8> {
    if !state.is_well_formed() {
        Some(refusal::WRONG_STATE)
    } else if ticks > MOST_TICKS {
        Some(refusal::TOO_MANY_TICKS)
    } else {
        None
    }
}

/// "One call for n ticks must leave registers, core, AF and CF exactly as n
/// single ticks would": here they are n single ticks.
pub fn catch_up_plainly(state: State, ticks: u32) -> Result<State, u8> {
    if let Some(number) = refusal_of(&state, ticks) {
        return Err(number);
    }
    // a tick does not look at the memory
    let mut device = state.device(Vec::new());
    for _ in 0..ticks {
        device.event(TICK);
    }
    Ok(State::of(&device))
}

/// The same by day numbers, in a time that hardly depends on n.
pub fn catch_up(state: State, ticks: u32) -> Result<State, u8> {
    if let Some(number) = refusal_of(&state, ticks) {
        return Err(number);
    }
    let mut after = state;
    let mut core = state.core.to_bytes();
    let supplied = state.power != Power::Gone;
    day_numbers::catch_up(&mut after.registers, &mut core, supplied, ticks);
    after.core = Calendar::from_bytes(core);
    Ok(after)
}
