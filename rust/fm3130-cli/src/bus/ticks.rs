// SPDX-License-Identifier: Apache-2.0
//! What a run of ticks did.

use std::fmt;

use fm3130::{registers, Pin, Power, Report, Rolled};

use super::moment::TickRun;
use crate::chip::{Companion, State};

/// What a run of ticks did.
#[derive(Clone, Debug, PartialEq, Eq)]
pub struct TickReport {
    /// How many.
    pub count: u64,
    /// The state before the first.
    pub before: State,
    /// The state after the last.
    pub after: State,
    /// The highest field of the calendar that one of them changed.
    pub rolled: Rolled,
    /// The ticks, counted from 1, after which the pin was another than before.
    pub pin_changes: Vec<(u64, Pin)>,
    /// The clocks of the byte under way, if there is one.
    pub inside: Option<usize>,
    /// The lamps after the last, where a run keeps the proving record.
    pub lamps: Option<Report>,
}

impl TickReport {
    /// The report of one part of a run.
    pub fn of(run: &TickRun, inside: Option<usize>) -> TickReport {
        TickReport {
            count: run.count,
            before: run.before,
            after: run.after,
            rolled: run.rolled,
            pin_changes: run.pin_changes.clone(),
            inside,
            lamps: run.lamps,
        }
    }

    /// Adds the next part of the same run.
    pub fn extend(&mut self, run: &TickRun) {
        let later = run
            .pin_changes
            .iter()
            .map(|(tick, pin)| (self.count + tick, *pin));
        self.pin_changes.extend(later);
        self.count += run.count;
        self.after = run.after;
        self.lamps = run.lamps;
        self.rolled = self.rolled.max(run.rolled);
    }

    /// Why the calendar stood still.
    fn reason_of_standstill(&self) -> &'static str {
        let halted = self.before.register(registers::CALIBRATION as u8) & registers::OSCEN != 0;
        if let Companion::Counters(_) = self.before.companion {
            "this part has no clock"
        } else if self.before.power == Power::None {
            "no supply"
        } else if halted {
            "the oscillator is halted"
        } else {
            "the calendar is not valid"
        }
    }

    /// What passed: where several ticks turned the seconds alone, it was more than one of them.
    fn passed(&self) -> String {
        match self.rolled {
            Rolled::Seconds if self.count > 1 => "seconds passed".to_string(),
            rolled => rolled.to_string(),
        }
    }

    /// The flags that the ticks set.
    fn flags_set(&self) -> Vec<&'static str> {
        let control = registers::CONTROL as u8;
        let rose = !self.before.register(control) & self.after.register(control);
        [(registers::AF, "AF set"), (registers::CF, "CF set")]
            .into_iter()
            .filter(|(flag, _)| rose & flag != 0)
            .map(|(_, words)| words)
            .collect()
    }
}

impl fmt::Display for TickReport {
    fn fmt(&self, formatter: &mut fmt::Formatter<'_>) -> fmt::Result {
        let plural = if self.count == 1 { "" } else { "s" };
        write!(formatter, "{} tick{plural}", self.count)?;
        if self.count >= MINUTE {
            write!(formatter, " ({})", span(self.count))?;
        }
        if let Some(clocks) = self.inside {
            write!(formatter, " after {clocks} clocks of a byte")?;
        }
        let (before, after) = match (self.before.core(), self.after.core()) {
            (Some(before), Some(after)) if self.rolled != Rolled::Nothing => (before, after),
            _ => return write!(formatter, ": {}", self.reason_of_standstill()),
        };
        write!(formatter, ": {before} -> {after}, {}", self.passed())?;
        for words in self.flags_set() {
            write!(formatter, ", {words}")?;
        }
        for (tick, pin) in &self.pin_changes {
            write!(formatter, "; ACS pin after tick {tick}: {pin}")?;
        }
        Ok(())
    }
}

/// The seconds of a minute; shorter times are not put into words.
const MINUTE: u64 = 60;

/// So many seconds as days, hours, minutes and seconds, leaving out what there is none of.
fn span(seconds: u64) -> String {
    let parts = [
        (seconds / 86_400, "day"),
        (seconds / 3_600 % 24, "hour"),
        (seconds / MINUTE % 60, "minute"),
        (seconds % MINUTE, "second"),
    ];
    let words: Vec<String> = parts
        .into_iter()
        .filter(|(number, _)| *number > 0)
        .map(|(number, unit)| format!("{number} {unit}{}", if number == 1 { "" } else { "s" }))
        .collect();
    words.join(", ")
}

#[cfg(test)]
mod tests {
    use super::*;
    use fm3130::{event, Device, PinFunction};

    fn run(device: &mut Device, count: u64, pin_changes: Vec<(u64, Pin)>) -> TickRun {
        let before = State::from(device.state());
        let rolled = (0..count)
            .map(|_| device.step_told(event::TICK).unwrap().rolled)
            .max();
        TickRun {
            count,
            before,
            after: State::from(device.state()),
            rolled: rolled.unwrap_or(Rolled::Nothing),
            pin_changes,
            lamps: None,
        }
    }

    #[test]
    fn a_span_leaves_out_what_there_is_none_of() {
        assert_eq!(span(60), "1 minute");
        assert_eq!(span(86_401), "1 day, 1 second");
        assert_eq!(span(31_622_400), "366 days");
        assert_eq!(
            span(31_000_000),
            "358 days, 19 hours, 6 minutes, 40 seconds"
        );
    }

    #[test]
    fn a_halted_clock_is_said_to_be_halted() {
        let mut device = Device::fresh();
        let report = TickReport::of(&run(&mut device, 1, vec![]), Some(4));
        assert_eq!(
            report.to_string(),
            "1 tick after 4 clocks of a byte: the oscillator is halted"
        );
    }

    #[test]
    fn parts_of_a_run_are_one_report() {
        let mut device = Device::fresh();
        let mut events = vec![event::START];
        for byte in [0xD0, 0x01, 0x00] {
            events.extend(event::written_byte(byte));
        }
        device.run(&events).unwrap();
        let alarm = Pin {
            function: PinFunction::Alarm,
            alarm: true,
        };
        let mut report = TickReport::of(&run(&mut device, 50, vec![]), None);
        report.extend(&run(&mut device, 15, vec![(3, alarm)]));
        assert_eq!(
            report.to_string(),
            "65 ticks (1 minute, 5 seconds): 00:00:00, 01/01/00, day 1 -> 00:01:05, 01/01/00, day 1, a minute passed; \
             ACS pin after tick 53: alarm, pulled low"
        );
    }
}
