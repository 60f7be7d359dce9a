// SPDX-License-Identifier: Apache-2.0
//! A run that begins inside a byte: what an earlier run has done of it.

use fm3130::{Phase, Side};

use super::happening::BusClock;
use crate::chip::State;

/// The clocks of a byte that were done before the run, and the states that tell its meaning.
#[derive(Default)]
pub struct Earlier {
    /// The clocks.
    pub clocks: Vec<BusClock>,
    /// The state before the first of them; none if there are none.
    pub first: Option<State>,
    /// The state after the eighth, if it is among them.
    pub eighth: Option<State>,
}

/// What was done of the byte under way. The state keeps the bits, so the clocks can be made again;
/// only a line that the master held low while the device sent is not known any more.
pub fn earlier_clocks(state: &State) -> Earlier {
    if state.phase == Phase::Idle || state.clocks == 0 {
        return Earlier::default();
    }
    let is_sent = matches!(state.phase, Phase::Read(_));
    let clocks = (0..state.clocks).map(|clock| {
        let bit = bit_of(state, is_sent, clock);
        BusClock {
            master_is_high: is_sent || bit,
            line_is_high: bit,
            device_pulls: is_sent && !bit,
        }
    });
    Earlier {
        clocks: clocks.collect(),
        first: Some(state_before_byte(state)),
        eighth: (state.clocks == 8).then_some(*state),
    }
}

/// One bit of the byte under way. A byte sent is whole from the start; of a byte received only the
/// bits so far are there, the last one lowest.
fn bit_of(state: &State, is_sent: bool, clock: u8) -> bool {
    let lowest = if is_sent { 7 } else { state.clocks - 1 };
    (state.byte >> (lowest - clock)) & 1 == 1
}

/// The state as it was before the byte's first clock, as far as the byte's meaning needs it: after
/// eight clocks of a data byte its address has stepped on already.
fn state_before_byte(state: &State) -> State {
    let mut before = *state;
    before.clocks = 0;
    before.byte = 0;
    match state.phase {
        Phase::Write(Side::Memory) | Phase::Read(Side::Memory) if state.clocks == 8 => {
            let last = (state.part.memory_bytes() - 1) as u16;
            before.memory_address = state.memory_address.checked_sub(1).unwrap_or(last);
        }
        Phase::Write(Side::Companion) | Phase::Read(Side::Companion) if state.clocks == 8 => {
            let (first, last) = state.part.registers();
            before.companion_address = match state.companion_address {
                address if address == first => last,
                address => address - 1,
            };
        }
        _ => {}
    }
    before
}

#[cfg(test)]
mod tests {
    use super::*;
    use crate::chip::{trial, Chip};
    use fm3130::{event, Answer};

    /// Follows the byte under way from its first clock on.
    #[derive(Default)]
    struct Followed {
        first: Option<State>,
        /// The level of the wire at each clock, where the master left it to the sender.
        levels: Vec<Option<bool>>,
    }

    impl Followed {
        fn clock(&mut self, before: State, event: u8, answer: Answer) {
            if before.clocks == 0 || before.clocks == 8 {
                *self = Followed::default();
            }
            self.first.get_or_insert(before);
            let is_held = event == event::CLOCK_LOW && matches!(before.phase, Phase::Read(_));
            self.levels
                .push((!is_held).then_some(answer.line_is_high()));
        }

        /// Compares what was seen with what the state alone can tell.
        fn compare(&self, state: &State) {
            let earlier = earlier_clocks(state);
            let (seen, told) = (self.first.unwrap(), earlier.first.unwrap());
            assert_eq!(seen.phase, told.phase);
            let is_address = matches!(
                seen.phase,
                Phase::SecondAddressByte | Phase::CompanionAddressByte
            );
            // An address byte sets an address; before that it means nothing.
            if !is_address {
                assert_eq!(seen.memory_address, told.memory_address);
                assert_eq!(seen.companion_address, told.companion_address);
            }
            assert_eq!(earlier.clocks.len(), usize::from(state.clocks));
            for (level, clock) in self.levels.iter().zip(&earlier.clocks) {
                assert!(level.is_none_or(|level| level == clock.line_is_high));
            }
            assert_eq!(earlier.eighth.is_some(), state.clocks == 8);
        }
    }

    /// Follows a list on a fresh device; returns the number of states compared.
    fn compare_all(mut chip: Chip, events: &[u8]) -> u64 {
        let mut compared = 0;
        let mut followed = Followed::default();
        for event in events {
            let before = chip.state();
            let answer = trial::step(&mut chip, *event);
            if *event == event::CLOCK_LOW || *event == event::CLOCK_HIGH {
                followed.clock(before, *event, answer);
            }
            let state = chip.state();
            if state.phase != Phase::Idle && state.clocks > 0 {
                followed.compare(&state);
                compared += 1;
            }
        }
        compared
    }

    #[test]
    fn what_was_done_of_a_byte_is_told_by_the_state_alone() {
        for part in trial::PARTS {
            let lists = second::generate::random(17, 60_000).into_iter();
            let compared: u64 = lists
                .map(|list| {
                    let events = trial::with_edges(part, &list.events);
                    compare_all(Chip::fresh(part), &events)
                })
                .sum();
            assert!(compared > 10_000, "{part}: {compared}");
        }
    }
}
