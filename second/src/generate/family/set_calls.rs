// SPDX-License-Identifier: Apache-2.0
//! Sets that are refused, or just not, when they are made or when a list is run
//! on them.

use crate::bus::{LogicalDevice, Phase, Transfer};
use crate::family::{Member, Size, State, SIZES};

/// A set to be made and a list to be run on it.
#[derive(Clone, Debug, PartialEq, Eq)]
pub struct SetCall {
    pub name: String,
    pub places: Vec<SetCallPlace>,
    pub events: Vec<u8>,
    pub room: usize,
}

/// One device of the set; its memory is so many bytes of 0.
#[derive(Clone, Copy, Debug, PartialEq, Eq)]
pub struct SetCallPlace {
    pub size: Size,
    pub selects: u8,
    pub state: State,
    pub memory_bytes: usize,
}

impl SetCall {
    /// What the set is made of.
    pub fn members(&self) -> Vec<Member> {
        let places = self.places.iter();
        places
            .map(|place| Member {
                size: place.size,
                selects: place.selects,
                state: place.state,
                memory: vec![0; place.memory_bytes],
            })
            .collect()
    }
}

/// A list that changes something in the first device.
const EVENTS: [u8; 8] = [8, 0, 3, 2, 4, 1, 9, 8];

/// Every arrangement of one to four selects, equal or not; every fault in every
/// device; every set of faults together; every unknown event; every room.
pub fn set_calls() -> Vec<SetCall> {
    let mut calls = all_selects();
    calls.extend(faults_in_each_device());
    calls.extend(sets_of_faults());
    calls.extend(events_and_rooms());
    calls
}

/// A fresh device; those with odd selects have 256Kb.
pub fn fresh_place(selects: u8) -> SetCallPlace {
    let size = SIZES[usize::from(selects % 2)];
    SetCallPlace {
        size,
        selects,
        state: State::fresh(),
        memory_bytes: size.bytes(),
    }
}

fn call(name: String, places: Vec<SetCallPlace>) -> SetCall {
    SetCall {
        name,
        places,
        events: EVENTS.to_vec(),
        room: EVENTS.len(),
    }
}

/// All 4 + 16 + 64 + 256 lists of selects, of which 64 have no equal ones.
fn all_selects() -> Vec<SetCall> {
    let mut calls = Vec::new();
    for count in 1..=4 {
        for number in 0..4_u32.pow(count) {
            let selects = (0..count).map(|place| (number >> (2 * place) & 3) as u8);
            let places: Vec<SetCallPlace> = selects.map(fresh_place).collect();
            let name = format!("{count} devices, selects {number:08b}");
            calls.push(call(name, places));
        }
    }
    calls
}

/// A transfer under way.
fn inside_a_transfer() -> Transfer {
    Transfer {
        phase: Phase::ReadData(LogicalDevice::Companion),
        clocks: 3,
        ..Transfer::none()
    }
}

/// The faults of one device: a memory too short, a companion address outside, the
/// selects of another, a transfer under way.
pub fn put_fault(places: &mut [SetCallPlace], place: usize, fault: usize) {
    match fault {
        0 => places[place].memory_bytes -= 1,
        1 => places[place].state.companion_address = 0x08,
        2 => places[place].selects = places[(place + 1) % places.len()].selects,
        _ => places[place].state.transfer = inside_a_transfer(),
    }
}

fn faults_in_each_device() -> Vec<SetCall> {
    let mut calls = Vec::new();
    for count in 1..=4_u8 {
        for place in 0..usize::from(count) {
            for fault in 0..4 {
                let mut places: Vec<SetCallPlace> = (0..count).map(fresh_place).collect();
                put_fault(&mut places, place, fault);
                let name = format!("{count} devices, fault {fault} in {place}");
                calls.push(call(name, places));
            }
            let mut places: Vec<SetCallPlace> = (0..count).map(fresh_place).collect();
            places[place].memory_bytes += 1;
            let name = format!("{count} devices, too long a memory in {place}");
            calls.push(call(name, places));
        }
    }
    calls
}

/// Every set of the six faults, each in another device, so that a number is given
/// only if none before it is due in any device.
fn sets_of_faults() -> Vec<SetCall> {
    let mut calls = Vec::new();
    for faults in 0..64_u8 {
        for turn in 0..4 {
            let mut made = call(
                format!("faults {faults:06b}, from {turn}"),
                (0..4).map(fresh_place).collect(),
            );
            for fault in (0..4).filter(|fault| faults >> fault & 1 == 1) {
                put_fault(&mut made.places, (turn + 3 * fault) % 4, fault);
            }
            if faults & 16 != 0 {
                made.events[7] = 16;
            }
            if faults & 32 != 0 {
                made.room -= 1;
            }
            calls.push(made);
        }
    }
    calls
}

fn events_and_rooms() -> Vec<SetCall> {
    let mut calls = Vec::new();
    for count in 1..=4_u8 {
        let places: Vec<SetCallPlace> = (0..count).map(fresh_place).collect();
        for event in 0..=255_u8 {
            let mut made = call(format!("{count} devices, event {event}"), places.clone());
            made.events[usize::from(event) % 8] = event;
            calls.push(made);
        }
        for room in 0..=EVENTS.len() + 1 {
            let mut made = call(format!("{count} devices, room {room}"), places.clone());
            made.room = room;
            calls.push(made);
        }
    }
    calls
}
