// SPDX-License-Identifier: Apache-2.0
//! The next line: whether the FM3130 pulls the line of the next Clock low, and
//! that of the one after it, told before they come, so that a controller that
//! plays the part can drive its pin in time.
//!
//! It is asked by trying the Clocks: bit 0 of the answer to event 3, and so on.

use crate::device::{Device, CLOCK_HIGH, CLOCK_LOW};
use crate::host::line_is_high;
use crate::refusal;
use crate::state::State;
use crate::MEMORY_BYTES;

/// Whether the device itself pulls a line low.
#[derive(Clone, Copy, Debug, PartialEq, Eq)]
pub struct NextLine {
    /// Whether the device pulls the line of the next Clock low.
    pub next: bool,
    /// Whether it would pull the one after it, if that next Clock is low.
    pub after_low: bool,
    /// And if it is high.
    pub after_high: bool,
}

/// Read-only, refused by 1 and 2 as the others. `image` is the state that an
/// image holds, or none if no well-formed state writes it.
pub fn next_line(image: Option<State>, memory: &[u8]) -> Result<NextLine, u8> {
    if memory.len() != MEMORY_BYTES {
        return Err(refusal::WRONG_MEMORY);
    }
    match image {
        Some(state) if state.is_well_formed() => {
            Ok(next_line_of(&mut state.device(memory.to_vec())))
        }
        _ => Err(refusal::WRONG_STATE),
    }
}

/// The same of a device; it is left as it was.
pub fn next_line_of(device: &mut Device) -> NextLine {
    NextLine {
        next: pulls_last(device, &[CLOCK_HIGH]),
        after_low: pulls_last(device, &[CLOCK_LOW, CLOCK_HIGH]),
        after_high: pulls_last(device, &[CLOCK_HIGH, CLOCK_HIGH]),
    }
}

/// Tries some Clocks, the last with the master's line high; says whether the
/// device pulls the last one low. Of two Clocks one at most is a byte's eighth,
/// so they store one memory byte at most, the one at the current address; with
/// it and the state put back, the device is as it was.
fn pulls_last(device: &mut Device, clocks: &[u8]) -> bool {
    let before = State::of(device);
    let place = usize::from(before.memory_address);
    let byte = device.memory[place];
    let answers = device.run(clocks);
    device.memory[place] = byte;
    before.put_into(device);
    !line_is_high(answers[clocks.len() - 1])
}
