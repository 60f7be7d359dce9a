// SPDX-License-Identifier: Apache-2.0
//! From items to events.

use fm3130::{event, family};

use super::item::{Action, Expected, Item, Ninth};
use super::problem::Place;
use crate::amount::Tally;

/// Some events, done so many times.
#[derive(Clone, Debug, PartialEq, Eq)]
pub struct Step {
    /// The events, at least one.
    pub events: Vec<u8>,
    /// How often, at least once.
    pub times: u64,
}

impl Step {
    /// The number of events.
    fn total(&self) -> u64 {
        self.times.saturating_mul(self.events.len() as u64)
    }
}

/// What a script expects, so many times, from one of its events on.
#[derive(Clone, Copy, Debug, PartialEq, Eq)]
pub struct Expectation {
    /// The first event of the byte; for the pin, the one that it is looked at before. The first of a plan is 0.
    pub first: u64,
    /// For how many bytes, one after the other.
    pub times: u64,
    /// What is expected.
    pub expected: Expected,
    /// Where it is written.
    pub place: Place,
}

/// The events of a script. A repeat stays a number, so that a long script is a small plan.
#[derive(Clone, Debug, Default, PartialEq, Eq)]
pub struct Plan {
    /// The steps in order.
    pub steps: Vec<Step>,
    /// What is expected, in order.
    pub expectations: Vec<Expectation>,
}

impl Plan {
    /// The plan of some items.
    pub fn of(items: &[Item]) -> Plan {
        let mut plan = Plan::default();
        // The events of the steps so far, counted once each.
        let (mut first, mut counted) = (0u64, 0);
        for (index, item) in items.iter().enumerate() {
            let added = plan.steps[counted..].iter().map(Step::total);
            first = added.fold(first, u64::saturating_add);
            counted = plan.steps.len();
            if let Some(expected) = item.expected {
                plan.expectations.push(Expectation {
                    first,
                    times: item.times,
                    expected,
                    place: item.place,
                });
            }
            match item.action {
                Action::Look => {}
                Action::Read(ninth) => {
                    plan.read(
                        item.times,
                        acknowledges_last(ninth, &items[index + 1..]),
                        ninth,
                    );
                }
                ref action => plan.add(events_of(action), item.times),
            }
        }
        plan
    }

    /// The number of events.
    pub fn total(&self) -> u64 {
        total_of(&self.steps)
    }

    /// How many events of each kind there are.
    pub fn tally(&self) -> Tally {
        tally_of(&self.steps)
    }

    fn add(&mut self, events: Vec<u8>, times: u64) {
        if times > 0 {
            self.steps.push(Step { events, times });
        }
    }

    /// Reads so many bytes. A plain `r` acknowledges all but perhaps the last.
    fn read(&mut self, times: u64, acknowledges_last: bool, ninth: Ninth) {
        if ninth == Ninth::ByWhatFollows && !acknowledges_last {
            self.add(event::read_byte(true).to_vec(), times - 1);
            self.add(event::read_byte(false).to_vec(), 1);
        } else {
            self.add(event::read_byte(acknowledges_last).to_vec(), times);
        }
    }
}

/// The number of events of some steps.
pub fn total_of(steps: &[Step]) -> u64 {
    steps.iter().map(Step::total).fold(0, u64::saturating_add)
}

/// How many events of each kind some steps have.
pub fn tally_of(steps: &[Step]) -> Tally {
    let mut tally = Tally::default();
    for step in steps {
        for event in &step.events {
            tally.add(*event, step.times);
        }
    }
    tally
}

/// What the master does after the last byte of a read, by the items that follow it.
fn acknowledges_last(ninth: Ninth, following: &[Item]) -> bool {
    let next = following.iter().find(|item| item.action.is_on_the_bus());
    match ninth {
        Ninth::Acknowledge => true,
        Ninth::Release => false,
        Ninth::ByWhatFollows => {
            !next.is_some_and(|item| matches!(item.action, Action::Start | Action::Stop))
        }
    }
}

/// The events of an action that is no read.
fn events_of(action: &Action) -> Vec<u8> {
    match action {
        Action::Start => vec![event::START],
        Action::Stop => vec![event::STOP],
        Action::Write(byte) => event::written_byte(*byte).to_vec(),
        Action::Read(_) => event::read_byte(true).to_vec(),
        Action::Clocks(levels) => levels.iter().map(|level| event::clock(*level)).collect(),
        Action::Tick => vec![event::TICK],
        Action::PowerLost => vec![event::POWER_LOST_WITH_BACKUP],
        Action::PowerGone => vec![event::POWER_LOST_WITHOUT_BACKUP],
        Action::PowerReturned => vec![event::POWER_RETURNED],
        Action::FirstEdge => vec![family::event::EDGE_1],
        Action::SecondEdge => vec![family::event::EDGE_2],
        Action::EdgeOfDevice(event) => vec![*event],
        Action::Look => Vec::new(),
    }
}

#[cfg(test)]
mod tests {
    use super::*;
    use crate::chip::Part;
    use crate::script::parse::parse;
    use fm3130::family::Size;

    const COUNTING: Part = Part::Family(Size::Kb64);

    /// All events of a text.
    fn events(text: &str) -> Vec<u8> {
        let plan = Plan::of(&parse(text, COUNTING).unwrap());
        let events: Vec<u8> = plan
            .steps
            .iter()
            .flat_map(|step| step.events.repeat(step.times as usize))
            .collect();
        assert_eq!(events.len() as u64, plan.total());
        events
    }

    #[test]
    fn the_exact_run_of_01() {
        assert_eq!(events("[ A0 ]"), [0, 3, 2, 3, 2, 2, 2, 2, 2, 3, 1]);
    }

    #[test]
    fn every_kind_of_event() {
        assert_eq!(
            events("[ ] {01} t lost gone power"),
            [0, 1, 2, 3, 4, 5, 6, 7]
        );
        assert_eq!(events("{10}:2 t*3"), [3, 2, 3, 2, 4, 4, 4]);
        assert_eq!(events("c1*3 c2"), [8, 8, 8, 9]);
    }

    #[test]
    fn the_last_read_before_start_or_stop_is_not_acknowledged() {
        let ninths = |text: &str| -> Vec<u8> {
            let all = events(text);
            let clocks: Vec<u8> = all.into_iter().filter(|e| (2..=3).contains(e)).collect();
            clocks.chunks(9).map(|byte| byte[8]).collect()
        };
        assert_eq!(ninths("r:3 ]"), [2, 2, 3]);
        assert_eq!(ninths("r r r ["), [2, 2, 3]);
        assert_eq!(ninths("r t lost ]"), [3]);
        assert_eq!(ninths("r c1 r c2*2 ]"), [2, 3]);
        assert_eq!(ninths("r r"), [2, 2]);
        assert_eq!(ninths("r+ ] R r- r+"), [2, 3, 3, 2]);
        assert_eq!(ninths("r:2 R:2 ]"), [2, 2, 3, 3]);
    }

    #[test]
    fn expectations_know_their_first_event() {
        let items = parse("[ A0+ r=5A:3 t pin=low ] pin=high", Part::Fm3130).unwrap();
        let plan = Plan::of(&items);
        let places: Vec<(u64, u64)> = plan
            .expectations
            .iter()
            .map(|one| (one.first, one.times))
            .collect();
        assert_eq!(places, [(1, 1), (10, 3), (38, 1), (39, 1)]);
        assert_eq!(plan.total(), 39);
    }

    #[test]
    fn a_long_repeat_is_a_small_plan() {
        let plan = Plan::of(&parse("t*4294967295 t*4294967295", Part::Fm3130).unwrap());
        assert_eq!(plan.steps.len(), 2);
        assert_eq!(plan.total(), 8_589_934_590);
        assert_eq!(plan.tally().events(), 8_589_934_590);
    }
}
