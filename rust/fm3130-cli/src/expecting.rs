// SPDX-License-Identifier: Apache-2.0
//! What a script expects, held beside what happens.
//!
//! A byte that is read must be sent by the device, and an acknowledge must be the device's own: a line that nobody
//! pulls is neither.

use fm3130::{Phase, Pin};

use crate::bus::{Moment, Observer, TickRun};
use crate::failure::{Failure, Outcome};
use crate::script::{Expectation, Expected, Problem, Script};

/// The clocks of a byte.
const CLOCKS_OF_A_BYTE: u64 = 9;

/// The most expectations that are shown as not met.
const MOST_SHOWN: usize = 10;

/// Holds what a script expects beside its run.
pub struct Holding<'run> {
    expectations: &'run [Expectation],
    /// The expectation that is next or under way.
    next: usize,
    /// The events done.
    done: u64,
    byte: ByteSeen,
    held: Held,
}

/// What came of the expectations so far.
pub struct Held {
    /// How many there were; a repeated one counts each time.
    pub count: u64,
    /// Those that were not met: each once, with how it was not met first.
    pub unmet: Vec<Problem>,
    /// The ACS pin at the end.
    pub pin: Pin,
}

impl Held {
    /// Nothing where all were met; else a failure that shows those that were not.
    pub fn into_outcome(self, script: &Script) -> Outcome {
        outcome_of(&self.unmet, script)
    }
}

/// Nothing where there are no expectations that were not met; else a failure that shows them.
pub fn outcome_of(unmet: &[Problem], script: &Script) -> Outcome {
    match unmet.is_empty() {
        true => Ok(()),
        false => Err(Failure::Unmet(shown_in(unmet, script).join("\n"))),
    }
}

/// Expectations that were not met, each with its line and a mark.
pub fn shown_in(unmet: &[Problem], script: &Script) -> Vec<String> {
    let (first, more) = unmet.split_at(unmet.len().min(MOST_SHOWN));
    let mut shown: Vec<String> = first.iter().map(|one| script.shown(one)).collect();
    if !more.is_empty() {
        shown.push(format!("{}: and {} more", script.name, more.len()));
    }
    shown
}

/// The byte under way.
#[derive(Default)]
struct ByteSeen {
    value: u8,
    /// Whether the device sends it.
    is_sent: bool,
    is_acknowledged: bool,
}

impl ByteSeen {
    /// Takes the clock of a byte with a number, 0 to 8.
    fn take(&mut self, clock: u64, moment: &Moment) {
        let line_is_high = moment.answer.line_is_high();
        let before = &moment.before;
        let sends = matches!(before.phase, Phase::Read(_));
        if clock == 0 {
            *self = ByteSeen {
                is_sent: sends && before.clocks == 0,
                ..ByteSeen::default()
            };
        }
        if clock < 8 {
            self.value = self.value << 1 | u8::from(line_is_high);
            return;
        }
        // Eight clocks of a byte that it receives: the device is still in the transfer, and pulls.
        let receives = before.phase != Phase::Idle && !sends;
        self.is_acknowledged = receives && before.clocks == 8 && !line_is_high;
    }
}

impl<'run> Holding<'run> {
    /// Holds expectations of a run that begins with a pin.
    pub fn new(expectations: &'run [Expectation], pin: Pin) -> Holding<'run> {
        Holding {
            expectations,
            next: 0,
            done: 0,
            byte: ByteSeen::default(),
            held: Held {
                count: 0,
                unmet: Vec::new(),
                pin,
            },
        }
    }

    /// Whether there is anything to hold.
    pub fn expects(&self) -> bool {
        !self.expectations.is_empty()
    }

    /// What came of them, after the run.
    pub fn into_held(mut self) -> Held {
        self.settle();
        self.held
    }

    fn current(&self) -> Option<&'run Expectation> {
        self.expectations.get(self.next)
    }

    /// Looks at the pin where that is expected now, and leaves what is over.
    fn settle(&mut self) {
        while let Some(one) = self.current() {
            match one.expected {
                Expected::Pin(pin) if one.first <= self.done => {
                    self.held.count += 1;
                    if pin != self.held.pin {
                        let seen = self.held.pin;
                        let words = format!("expected the ACS pin: {pin}; seen: {seen}");
                        self.held.unmet.push(Problem::new(one.place, words, ""));
                    }
                }
                Expected::Pin(_) => return,
                _ if self.done < one.first + CLOCKS_OF_A_BYTE * one.times => return,
                _ => {}
            }
            self.next += 1;
        }
    }

    /// A byte is whole: compares it with what is expected of it.
    fn compare(&mut self, one: &Expectation) {
        self.held.count += 1;
        let seen = &self.byte;
        let words = match one.expected {
            Expected::Byte(byte) if seen.is_sent && seen.value == byte => return,
            Expected::Byte(byte) if seen.is_sent => {
                format!("expected {byte:02X}h, seen {:02X}h", seen.value)
            }
            Expected::Byte(byte) => format!("expected {byte:02X}h, and nobody sends"),
            Expected::Acknowledge(wanted) if seen.is_acknowledged == wanted => return,
            Expected::Acknowledge(true) => "expected an acknowledge, seen none".to_string(),
            Expected::Acknowledge(false) => "expected no acknowledge, seen one".to_string(),
            Expected::Pin(_) => return,
        };
        let time = (self.done - one.first) / CLOCKS_OF_A_BYTE + 1;
        let repeat = match one.times {
            1 => String::new(),
            times => format!(", the first time at {time} of {times}"),
        };
        let is_told = |problem: &Problem| problem.place == one.place;
        if !self.held.unmet.last().is_some_and(is_told) {
            let problem = Problem::new(one.place, words + &repeat, "");
            self.held.unmet.push(problem);
        }
    }
}

impl Observer for Holding<'_> {
    fn moment(&mut self, moment: &Moment) -> Outcome {
        self.settle();
        if let Some(one) = self.current().filter(|one| one.first <= self.done) {
            let clock = (self.done - one.first) % CLOCKS_OF_A_BYTE;
            self.byte.take(clock, moment);
            if clock + 1 == CLOCKS_OF_A_BYTE {
                self.compare(one);
            }
        }
        self.done += 1;
        self.held.pin = moment.after.pin();
        Ok(())
    }

    /// The pin may be looked at between two ticks of a run.
    fn ticks(&mut self, run: &TickRun) -> Outcome {
        let begin = self.done;
        for (tick, pin) in &run.pin_changes {
            self.done = begin + tick - 1;
            self.settle();
            self.held.pin = *pin;
        }
        self.done = begin + run.count - 1;
        self.settle();
        self.done += 1;
        self.held.pin = run.after.pin();
        Ok(())
    }

    fn finish(&mut self) -> Outcome {
        self.settle();
        Ok(())
    }
}
