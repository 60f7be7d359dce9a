// SPDX-License-Identifier: Apache-2.0
//! Four on a wire (02, number 12): one to four parts of the family share one
//! line, each with its two select bits.

use super::device::{Device, EDGE_ON_CNT1};
use super::state::State;
use crate::bus::{Phase, Power, Transfer, POWER_RETURNED};
use crate::refusal;
use crate::size::Size;

/// "up to four devices"
pub const MOST_DEVICES: usize = 4;

/// What a device of a set is made of: "each with its two select bits (slave byte
/// bits 2 and 1) in its record".
#[derive(Clone, Debug, PartialEq, Eq)]
pub struct Member {
    pub size: Size,
    pub selects: u8,
    pub state: State,
    pub memory: Vec<u8>,
}

/// One to four devices on one line.
#[derive(Clone, Debug, PartialEq, Eq)]
pub struct Set {
    pub devices: Vec<Device>,
}

/// What an answered list leaves of a set. The count is the number of answers.
#[derive(Clone, Debug, PartialEq, Eq)]
pub struct SetAnswered {
    pub set: Set,
    pub answers: Vec<u8>,
}

/// A list of events on devices handed in, a set that was made before and may be
/// inside a transfer: refused by 9, 1, 2, 3, 4, 10 and 11, each asked of all
/// devices before the next. `room` is the length of the answers' buffer.
pub fn run_set(members: Vec<Member>, events: &[u8], room: usize) -> Result<SetAnswered, u8> {
    refuse_members(&members)?;
    refuse_events(members.len(), events, room)?;
    let mut set = Set::standing(members)?;
    let answers = events.iter().map(|event| set.event(*event)).collect();
    Ok(SetAnswered { set, answers })
}

impl Set {
    /// A set is made: "Equal selects, or a device not between transfers, are
    /// refused when the set is made." Refused by 9, 1, 2, 10 and 11.
    pub fn make(members: Vec<Member>) -> Result<Set, u8> {
        refuse_members(&members)?;
        let set = Set::of_different_selects(members)?;
        if !set.devices.iter().all(Device::between_transfers) {
            return Err(refusal::NOT_BETWEEN_TRANSFERS);
        }
        Ok(set)
    }

    /// The set of some members, one that was made before and may be inside a
    /// transfer: refused by 9, 1, 2, 10 and 11.
    pub fn of(members: Vec<Member>) -> Result<Set, u8> {
        refuse_members(&members)?;
        Set::standing(members)
    }

    /// The set that stands as one that was made and then given events.
    fn standing(members: Vec<Member>) -> Result<Set, u8> {
        let set = Set::of_different_selects(members)?;
        if !stand_as_in_a_set_that_was_made(&set.devices) {
            return Err(refusal::NOT_BETWEEN_TRANSFERS);
        }
        Ok(set)
    }

    fn of_different_selects(members: Vec<Member>) -> Result<Set, u8> {
        if selects_are_equal(&members) {
            return Err(refusal::EQUAL_SELECTS);
        }
        let devices = members.into_iter().map(Member::device).collect();
        Ok(Set { devices })
    }

    /// One event and its answer: the line. "the line is low if any pulls it low"
    /// (or the master).
    pub fn event(&mut self, event: u8) -> u8 {
        if event > POWER_RETURNED {
            return self.edge(event);
        }
        // every device gets the event, whatever the others answer
        let answers: Vec<u8> = self
            .devices
            .iter_mut()
            .map(|one| one.event(event))
            .collect();
        u8::from(answers.iter().all(|answer| *answer == 1))
    }

    /// "a counter edge names its device": 8 and 9 the first, 10 and 11 the
    /// second, and so on.
    fn edge(&mut self, event: u8) -> u8 {
        let number = usize::from(event - EDGE_ON_CNT1);
        self.devices[number / 2].event(EDGE_ON_CNT1 + (number % 2) as u8)
    }

    /// A list of events; `room` is the length of the answers' buffer. Refused by 3
    /// and 4, which changes nothing.
    pub fn run(&mut self, events: &[u8], room: usize) -> Result<Vec<u8>, u8> {
        refuse_events(self.devices.len(), events, room)?;
        Ok(events.iter().map(|event| self.event(*event)).collect())
    }

    /// The states of the devices.
    pub fn states(&self) -> Vec<State> {
        self.devices.iter().map(State::of).collect()
    }
}

impl Member {
    fn device(self) -> Device {
        self.state
            .selected_device(self.size, self.selects, self.memory)
    }
}

/// 9 "up to four devices", whatever else is wrong with them; then 1, then 2.
fn refuse_members(members: &[Member]) -> Result<(), u8> {
    if !(1..=MOST_DEVICES).contains(&members.len()) {
        return Err(refusal::NOT_ONE_TO_FOUR_DEVICES);
    }
    if !members.iter().all(has_its_memory) {
        return Err(refusal::WRONG_MEMORY);
    }
    if !members.iter().all(is_well_formed) {
        return Err(refusal::WRONG_STATE);
    }
    Ok(())
}

/// Number 3 from the first byte that names no device of the set, then 4.
fn refuse_events(devices: usize, events: &[u8], room: usize) -> Result<(), u8> {
    let first_unknown = usize::from(EDGE_ON_CNT1) + 2 * devices;
    if events
        .iter()
        .any(|event| usize::from(*event) >= first_unknown)
    {
        return Err(refusal::UNKNOWN_EVENT);
    }
    if room < events.len() {
        return Err(refusal::ANSWERS_TOO_SHORT);
    }
    Ok(())
}

/// No two devices get in each other's way, and none has a transfer without main
/// power. No events lead a set out of this that was made between transfers: a
/// Start finds all powered devices alike, and no slave byte names two of them.
fn stand_as_in_a_set_that_was_made(devices: &[Device]) -> bool {
    let no_transfer_while_off = |one: &Device| one.power == Power::On || one.between_transfers();
    devices.iter().all(no_transfer_while_off)
        && (0..devices.len()).all(|place| {
            let mut earlier = devices[..place].iter();
            earlier.all(|one| are_clear_of_each_other(one, &devices[place]))
        })
}

fn are_clear_of_each_other(one: &Device, other: &Device) -> bool {
    one.between_transfers()
        || other.between_transfers()
        || are_in_the_same_slave_byte(&one.transfer, &other.transfer)
}

/// The same clocks done, at most seven, and the same bits received so far.
fn are_in_the_same_slave_byte(one: &Transfer, other: &Transfer) -> bool {
    let received = usize::from(one.clocks);
    one.phase == Phase::SlaveByte
        && other.phase == Phase::SlaveByte
        && one.clocks == other.clocks
        && received <= 7
        && one.received_bits[..received] == other.received_bits[..received]
}

fn has_its_memory(member: &Member) -> bool {
    member.memory.len() == member.size.bytes()
}

fn is_well_formed(member: &Member) -> bool {
    member
        .state
        .is_well_formed_with(member.size, member.selects)
}

fn selects_are_equal(members: &[Member]) -> bool {
    (0..members.len()).any(|place| {
        members[..place]
            .iter()
            .any(|earlier| earlier.selects == members[place].selects)
    })
}
