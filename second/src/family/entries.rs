// SPDX-License-Identifier: Apache-2.0
//! The entries of the family with their refusals, for a chosen size: one event,
//! a list of events, the viewer.

use super::device::{Device, EDGE_ON_CNT2};
use super::registers::REGISTER_COUNT;
use super::state::State;
use crate::refusal;
use crate::size::Size;

/// "state image (64 bytes)".
pub const IMAGE_BYTES: usize = 64;

/// What an answered list leaves. The count is the number of answers.
#[derive(Clone, Debug, PartialEq, Eq)]
pub struct Answered {
    pub state: State,
    pub memory: Vec<u8>,
    pub answers: Vec<u8>,
}

/// What one event leaves.
#[derive(Clone, Debug, PartialEq, Eq)]
pub struct Stepped {
    pub number: u8,
    pub state: State,
    pub memory: Vec<u8>,
    pub answer: u8,
}

/// "Number 1 then means the wrong length for the chosen size."
fn refuse_memory(size: Size, memory: &[u8]) -> Result<(), u8> {
    if memory.len() == size.bytes() {
        Ok(())
    } else {
        Err(refusal::WRONG_MEMORY)
    }
}

/// "number 3 starts at 10 for this part"
fn refuse_events(events: &[u8]) -> Result<(), u8> {
    if events.iter().all(|event| *event <= EDGE_ON_CNT2) {
        Ok(())
    } else {
        Err(refusal::UNKNOWN_EVENT)
    }
}

/// The device that numbers 1 to 3 let through, with its memory.
fn accepted(size: Size, image: Option<State>, memory: &[u8], events: &[u8]) -> Result<Device, u8> {
    refuse_memory(size, memory)?;
    let state = match image {
        Some(state) if state.is_well_formed(size) => state,
        _ => return Err(refusal::WRONG_STATE),
    };
    refuse_events(events)?;
    Ok(state.device(size, memory.to_vec()))
}

/// A list of events. `image` is the state that an image holds, or none if no
/// state writes it; `room` is the length of the answers' buffer. A refusal
/// leaves everything as it was.
pub fn run(
    size: Size,
    image: Option<State>,
    memory: &[u8],
    events: &[u8],
    room: usize,
) -> Result<Answered, u8> {
    let mut device = accepted(size, image, memory, events)?;
    if room < events.len() {
        return Err(refusal::ANSWERS_TOO_SHORT);
    }
    let answers = device.run(events);
    Ok(Answered {
        state: State::of(&device),
        memory: device.memory,
        answers,
    })
}

/// One event. "A refused single event returns its state unchanged with answer
/// byte 1."
pub fn step(size: Size, state: State, memory: &[u8], event: u8) -> Stepped {
    match accepted(size, Some(state), memory, &[event]) {
        Ok(mut device) => {
            let answer = device.event(event);
            Stepped {
                number: 0,
                state: State::of(&device),
                memory: device.memory,
                answer,
            }
        }
        Err(number) => Stepped {
            number,
            state,
            memory: memory.to_vec(),
            answer: 1,
        },
    }
}

/// The viewer: its number, and "a part of the caller's memory or of those" 16
/// bytes. "The viewer gives an empty part of memory under every number but 0."
pub fn view<'a>(
    size: Size,
    image: &'a [u8],
    memory: &'a [u8],
    selector: u64,
    start: u64,
    length: u64,
) -> (u8, &'a [u8]) {
    match viewed(size, image, memory, selector, start, length) {
        Ok(part) => (0, part),
        Err(number) => (number, &memory[..0]),
    }
}

fn viewed<'a>(
    size: Size,
    image: &'a [u8],
    memory: &'a [u8],
    selector: u64,
    start: u64,
    length: u64,
) -> Result<&'a [u8], u8> {
    refuse_memory(size, memory)?;
    // "the viewer tests length only"
    if image.len() != IMAGE_BYTES {
        return Err(refusal::WRONG_STATE);
    }
    let chosen = match selector {
        0 => memory,
        1 => &image[..REGISTER_COUNT],
        _ => return Err(refusal::UNKNOWN_SELECTOR),
    };
    // "start + length (exact sum) passes the end of the chosen bytes"
    let end = u128::from(start) + u128::from(length);
    if end > chosen.len() as u128 {
        return Err(refusal::PAST_THE_END);
    }
    Ok(&chosen[start as usize..end as usize])
}
