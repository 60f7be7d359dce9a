// SPDX-License-Identifier: Apache-2.0
//! One event and all that is known about it.

use fm3130::{event, Answer, Phase, Pin, Report, Rolled};

use crate::chip::State;

/// An event that is no tick: what was before, what the device answered, what is after.
#[derive(Clone, Copy, Debug)]
pub struct Moment {
    /// The event byte.
    pub event: u8,
    /// The answer byte.
    pub answer: Answer,
    /// The state before the event.
    pub before: State,
    /// The state after the event.
    pub after: State,
    /// The lamps after it, where a run keeps the proving record.
    pub lamps: Option<Report>,
}

impl Moment {
    /// The level that the master gives its line; it is released in all but one event.
    pub fn master_is_high(&self) -> bool {
        self.event != event::CLOCK_LOW
    }

    /// Whether the device itself pulls the line low. Where the master releases it, the answer says
    /// so; where the master pulls too, it follows from the byte under way.
    pub fn device_pulls(&self) -> bool {
        if self.master_is_high() {
            return !self.answer.line_is_high();
        }
        match (self.before.phase, self.before.clocks) {
            (Phase::Idle, _) | (Phase::Read(_), 8) => false,
            // The byte is fixed by the first clock, so it is the state after that has it.
            (Phase::Read(_), clocks) => (self.after.byte << clocks) & 0x80 == 0,
            // A byte that is not acknowledged has ended the transfer: eight clocks done means that
            // the device acknowledges.
            (_, clocks) => clocks == 8,
        }
    }
}

/// Ticks without any other event between them.
#[derive(Clone, Debug)]
pub struct TickRun {
    /// How many.
    pub count: u64,
    /// The state before the first.
    pub before: State,
    /// The state after the last.
    pub after: State,
    /// The highest field of the calendar that one of them changed.
    pub rolled: Rolled,
    /// The ticks, counted from 1, after which the pin was another than before.
    pub pin_changes: Vec<(u64, Pin)>,
    /// The lamps after the last, where a run keeps the proving record.
    pub lamps: Option<Report>,
}

#[cfg(test)]
mod tests {
    use super::*;
    use crate::chip::{trial, Chip};

    /// What the line would be if the master released it: an honest test of who pulls.
    fn pulls_by_trial(chip: &Chip) -> bool {
        !trial::step(&mut chip.clone(), event::CLOCK_HIGH).line_is_high()
    }

    /// Compares who pulls at every Clock of a list; returns how often it is the device.
    fn pulls_of(mut chip: Chip, events: &[u8]) -> u64 {
        let mut pulled = 0;
        for event in events {
            let is_clock = *event == event::CLOCK_LOW || *event == event::CLOCK_HIGH;
            let pulls = is_clock && pulls_by_trial(&chip);
            let before = chip.state();
            let moment = Moment {
                event: *event,
                answer: trial::step(&mut chip, *event),
                before,
                after: chip.state(),
                lamps: None,
            };
            if is_clock {
                assert_eq!(moment.device_pulls(), pulls);
                pulled += u64::from(pulls);
            }
        }
        pulled
    }

    #[test]
    fn who_pulls_agrees_with_a_trial_on_random_lists() {
        for part in trial::PARTS {
            let mut pulled = 0;
            for list in second::generate::random(7, 100_000) {
                let mut memory = list.device().memory.to_vec();
                memory.resize(part.memory_bytes(), 0x35);
                let fresh = Chip::fresh(part);
                let chip = Chip::from_parts(part, fresh.image(), &memory).unwrap();
                pulled += pulls_of(chip, &trial::with_edges(part, &list.events));
            }
            assert!(pulled > 1000, "{part}: {pulled}");
        }
    }
}
