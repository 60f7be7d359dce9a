// SPDX-License-Identifier: Apache-2.0
//! Calls that are refused, or just not: every number, every limit, every order.

use crate::bus::{LogicalDevice, Phase};
use crate::family::{Size, State};

/// One call of the list run: what it is given.
#[derive(Clone, Debug, PartialEq, Eq)]
pub struct FamilyCall {
    pub name: String,
    pub size: Size,
    pub state: State,
    pub memory_bytes: usize,
    pub events: Vec<u8>,
    pub room: usize,
}

/// One call of the viewer: what it is given.
#[derive(Clone, Copy, Debug, PartialEq, Eq)]
pub struct FamilyView {
    pub size: Size,
    pub image_bytes: usize,
    pub memory_bytes: usize,
    pub selector: u64,
    pub start: u64,
    pub length: u64,
}

/// A list of ten events that changes something at either end.
const EVENTS: [u8; 10] = [8, 0, 3, 2, 3, 2, 4, 1, 9, 8];

/// Every number by itself, every state on and over a limit, every unknown event at
/// every place, and every set of faults together.
pub fn family_calls(size: Size) -> Vec<FamilyCall> {
    let mut calls = wrong_memories(size);
    calls.extend(states_at_the_limits(size));
    calls.extend(unknown_events(size));
    calls.extend(rooms(size));
    calls.extend(sets_of_faults(size));
    calls
}

fn good_call(size: Size, name: String) -> FamilyCall {
    FamilyCall {
        name,
        size,
        state: State::fresh(),
        memory_bytes: size.bytes(),
        events: EVENTS.to_vec(),
        room: EVENTS.len(),
    }
}

fn wrong_memories(size: Size) -> Vec<FamilyCall> {
    [0, 1, 8191, 8192, 8193, 32_767, 32_768, 32_769, 65_536]
        .into_iter()
        .map(|bytes| FamilyCall {
            memory_bytes: bytes,
            ..good_call(size, format!("{bytes} bytes"))
        })
        .collect()
}

fn states_at_the_limits(size: Size) -> Vec<FamilyCall> {
    let mut states = addresses_at_the_limits();
    states.extend(every_register_bit());
    states.extend(every_number_of_clocks());
    let mut state = State::fresh();
    state.snapshot = [0xFF; 4];
    states.push((String::from("a snapshot while RC is 0"), state));
    states
        .into_iter()
        .map(|(name, state)| FamilyCall {
            state,
            ..good_call(size, name)
        })
        .collect()
}

fn addresses_at_the_limits() -> Vec<(String, State)> {
    let mut states = Vec::new();
    for address in [0x1FFF, 0x2000, 0x7FFF, 0x8000, 0xFFFF] {
        let mut state = State::fresh();
        state.memory_address = address;
        states.push((format!("memory address {address:04X}h"), state));
    }
    for address in 0..=255_u8 {
        let mut state = State::fresh();
        state.companion_address = address;
        states.push((format!("companion address {address:02X}h"), state));
    }
    states
}

/// Every bit of every register set, those that the map fixes at 0 too.
fn every_register_bit() -> Vec<(String, State)> {
    let mut states = Vec::new();
    for place in 0..16 {
        for bit in 0..8 {
            let mut state = State::fresh();
            state.registers[place] |= 1 << bit;
            states.push((format!("bit {bit} of {:02X}h", place + 9), state));
        }
    }
    states
}

/// 0 to 10 clocks of a slave byte D0h and of a byte sent.
fn every_number_of_clocks() -> Vec<(String, State)> {
    let mut states = Vec::new();
    for clocks in 0..=10_u8 {
        for phase in [Phase::SlaveByte, Phase::ReadData(LogicalDevice::Companion)] {
            let mut state = State::fresh();
            state.transfer.phase = phase;
            state.transfer.clocks = clocks;
            if phase == Phase::SlaveByte {
                let received = usize::from(clocks.min(8));
                for place in 0..received {
                    state.transfer.received_bits[place] = 0xD0 >> (7 - place) & 1 == 1;
                }
            }
            states.push((format!("{clocks} clocks in {phase:?}"), state));
        }
    }
    states
}

fn unknown_events(size: Size) -> Vec<FamilyCall> {
    let mut calls = Vec::new();
    for event in 0..=255_u8 {
        for place in 0..EVENTS.len() {
            let mut call = good_call(size, format!("event {event} at {place}"));
            call.events[place] = event;
            calls.push(call);
        }
    }
    calls
}

fn rooms(size: Size) -> Vec<FamilyCall> {
    let mut calls = Vec::new();
    for count in 0..=EVENTS.len() {
        for room in 0..=EVENTS.len() + 1 {
            let mut call = good_call(size, format!("{count} events, room {room}"));
            call.events.truncate(count);
            call.room = room;
            calls.push(call);
        }
    }
    calls
}

fn sets_of_faults(size: Size) -> Vec<FamilyCall> {
    let mut calls = Vec::new();
    for faults in 0..16_u8 {
        let mut call = good_call(size, format!("faults {faults:04b}"));
        if faults & 1 != 0 {
            call.memory_bytes -= 1;
        }
        if faults & 2 != 0 {
            call.state.companion_address = 0x08;
        }
        if faults & 4 != 0 {
            call.events[9] = 10;
        }
        if faults & 8 != 0 {
            call.room -= 1;
        }
        calls.push(call);
    }
    calls
}

/// Views of both parts: starts and lengths around their ends, unknown selectors,
/// wrong lengths of image and memory, sums that no machine word holds.
pub fn family_views(size: Size) -> Vec<FamilyView> {
    let bytes = size.bytes() as u64;
    let edges = [0, 1, 15, 16, 17, bytes - 1, bytes, bytes + 1, 1 << 32];
    let mut numbers = edges.to_vec();
    numbers.extend([u64::MAX - 16, u64::MAX - 1, u64::MAX]);
    let mut views = Vec::new();
    for selector in [0, 1, 2, 255, 256, u64::MAX] {
        for &start in &numbers {
            for &length in &numbers {
                for image_bytes in [63, 64, 65] {
                    for memory_bytes in [size.bytes() - 1, size.bytes()] {
                        views.push(FamilyView {
                            size,
                            image_bytes,
                            memory_bytes,
                            selector,
                            start,
                            length,
                        });
                    }
                }
            }
        }
    }
    views
}
