// SPDX-License-Identifier: Apache-2.0
//! A set of devices on one line does the events of a run.
//!
//! Observers see one state at a time. Of a set it is that of the device that takes part: the one that an
//! edge names, and on the bus the one that stays in the transfer.

use fm3130::family::{event, Set};
use fm3130::{Answer, Phase, Rolled};

use super::moment::{Moment, TickRun};
use super::play::{refused, Outputs, Player};
use crate::chip::State;
use crate::failure::Outcome;

impl Player for Set {
    fn play_chunk(&mut self, chunk: &[u8], answers: &mut [u8], outputs: &mut Outputs) -> Outcome {
        if outputs.observers.is_empty() {
            return self.run_into(chunk, answers).map_err(refused);
        }
        for (event, answer) in chunk.iter().zip(answers) {
            let before = states(self);
            *answer = self.step(*event).map_err(refused)?;
            show(*event, *answer, &before, &states(self), outputs)?;
        }
        Ok(())
    }

    /// No part of the family has a clock, so ticks change nothing.
    fn sleep_through(&mut self, ticks: u64, outputs: &mut Outputs) -> Outcome {
        let states = states(self);
        show_ticks(ticks, &states[0], &states[0], outputs)
    }
}

/// The state of each device, by its place; there is at least one.
fn states(set: &Set) -> Vec<State> {
    set.members().iter().map(State::of_member).collect()
}

/// Shows an event to all observers.
fn show(
    event: u8,
    answer: u8,
    before: &[State],
    after: &[State],
    outputs: &mut Outputs,
) -> Outcome {
    let (place, event) = match event.checked_sub(event::EDGE_1) {
        Some(edge) => (usize::from(edge / 2), event::EDGE_1 + edge % 2),
        None => (place_on_the_bus(before, after), event),
    };
    let (before, after) = (&before[place], &after[place]);
    if event == event::TICK {
        return show_ticks(1, before, after, outputs);
    }
    let moment = Moment {
        event,
        answer: Answer(answer),
        before: *before,
        after: *after,
        lamps: None,
    };
    for observer in &mut outputs.observers {
        observer.moment(&moment)?;
    }
    Ok(())
}

/// Shows ticks to all observers.
fn show_ticks(count: u64, before: &State, after: &State, outputs: &mut Outputs) -> Outcome {
    let run = TickRun {
        count,
        before: *before,
        after: *after,
        rolled: Rolled::Nothing,
        pin_changes: Vec::new(),
        lamps: None,
    };
    for observer in &mut outputs.observers {
        observer.ticks(&run)?;
    }
    Ok(())
}

/// The place of the device that an event on the bus is about: one that is in a transfer after it, else
/// one that was before it. After the eighth clock of a slave byte at most one is.
fn place_on_the_bus(before: &[State], after: &[State]) -> usize {
    let in_transfer = |state: &State| state.phase != Phase::Idle;
    let found = after.iter().position(in_transfer);
    found
        .or_else(|| before.iter().position(in_transfer))
        .unwrap_or(0)
}

#[cfg(test)]
mod tests {
    use super::*;
    use fm3130::family::{Member, Select, Size};

    /// Four fresh devices, both sizes, their select bits in another order than their places.
    fn four() -> Set {
        let size = |select: Select| match select.bits() {
            0 | 1 => Size::Kb64,
            _ => Size::Kb256,
        };
        let selects = [Select::TWO, Select::ZERO, Select::THREE, Select::ONE];
        Set::new(selects.map(|select| Member::fresh(size(select), select))).unwrap()
    }

    /// The events of the generators, with every select in slave bytes: after a Start, the clocks of bits 2
    /// and 1 are those of a number that goes on.
    fn with_selects(events: &[u8]) -> Vec<u8> {
        let (mut since_start, mut select) = (usize::MAX, 0_u8);
        let mut changed = Vec::new();
        for event in events {
            let is_clock = [event::CLOCK_LOW, event::CLOCK_HIGH].contains(event);
            since_start = match *event {
                event::START => 0,
                _ if is_clock => since_start.saturating_add(1),
                _ => since_start,
            };
            if *event == event::START {
                select = (select + 1) % 4;
            }
            changed.push(match since_start {
                6 if is_clock => event::clock(select & 2 != 0),
                7 if is_clock => event::clock(select & 1 != 0),
                _ => *event,
            });
        }
        changed
    }

    /// Whether some device pulls the next clock, seen by leaving the line high.
    fn pulls_by_trial(set: &Set) -> bool {
        set.clone().step(event::CLOCK_HIGH) == Ok(0)
    }

    #[test]
    fn who_pulls_agrees_with_a_trial_on_random_lists() {
        let mut pulled = [0; 4];
        for list in second::generate::random(11, 40_000) {
            let mut set = four();
            for event in with_selects(&list.events) {
                let is_clock = [event::CLOCK_LOW, event::CLOCK_HIGH].contains(&event);
                let (pulls, before) = (is_clock && pulls_by_trial(&set), states(&set));
                let answer = set.step(event).unwrap();
                let after = states(&set);
                let place = place_on_the_bus(&before, &after);
                let moment = Moment {
                    event,
                    answer: Answer(answer),
                    before: before[place],
                    after: after[place],
                    lamps: None,
                };
                if is_clock {
                    assert_eq!(moment.device_pulls(), pulls);
                    pulled[place] += u64::from(pulls);
                }
            }
        }
        assert!(pulled.iter().all(|count| *count > 100), "{pulled:?}");
    }
}
