// SPDX-License-Identifier: Apache-2.0
//! What a run of edges on a counter's pin did.

use std::fmt;

use fm3130::family::{event, Counts};
use fm3130::Power;

use crate::chip::{Companion, State};

/// Edges on one pin without any other event between them.
#[derive(Clone, Debug, PartialEq, Eq)]
pub struct EdgeReport {
    /// The event byte, which says the pin.
    pub event: u8,
    /// How many.
    pub count: u64,
    /// The state before the first.
    pub before: State,
    /// The state after the last.
    pub after: State,
    /// The clocks of the byte under way, if there is one.
    pub inside: Option<usize>,
}

impl EdgeReport {
    /// The pin's name.
    pub fn pin(&self) -> &'static str {
        match self.event {
            event::EDGE_1 => "CNT1",
            _ => "CNT2",
        }
    }

    /// The edges as a script writes them.
    pub fn notation(&self) -> String {
        let word = word_of(self.event);
        let named = match self.before.select {
            Some(select) => format!("{word}@{select}"),
            None => word.to_string(),
        };
        match self.count {
            1 => named,
            count => format!("{named}*{count}"),
        }
    }

    /// Why the edges do not count, if they do not.
    fn reason_of_standstill(&self) -> Option<&'static str> {
        match self.before.companion {
            _ if self.before.power == Power::None => Some("not counted, no supply"),
            Companion::Counters(state) if state.is_joined() && self.event == event::EDGE_2 => {
                Some("not counted, CC is 1 and CNT2 is not used")
            }
            Companion::Counters(_) => None,
            Companion::Clock { .. } => Some("not counted, there are no counters"),
        }
    }

    /// What the edges count, and from where to where.
    fn movement(&self) -> String {
        let (before, after) = (counts(&self.before), counts(&self.after));
        match self.before.companion {
            Companion::Counters(state) if state.is_joined() => {
                let (from, to) = (before.pair(), after.pair());
                format!("both counters as one {from} -> {to} ({to:08X}h)")
            }
            _ if self.event == event::EDGE_1 => {
                let (from, to) = (before.one(), after.one());
                format!("counter 1 {from} -> {to} ({to:04X}h)")
            }
            _ => {
                let (from, to) = (before.two(), after.two());
                format!("counter 2 {from} -> {to} ({to:04X}h)")
            }
        }
    }

    /// The count after the edges, in a few letters for a drawing.
    pub fn label(&self) -> String {
        if self.reason_of_standstill().is_some() {
            return "not counted".to_string();
        }
        let after = counts(&self.after);
        match self.before.companion {
            Companion::Counters(state) if state.is_joined() => format!("{:08X}h", after.pair()),
            _ if self.event == event::EDGE_1 => format!("count {:04X}h", after.one()),
            _ => format!("count {:04X}h", after.two()),
        }
    }
}

/// The word of a script for an edge.
pub fn word_of(event: u8) -> &'static str {
    match event {
        event::EDGE_1 => "c1",
        _ => "c2",
    }
}

/// The counters of a state; zeros where it has none.
fn counts(state: &State) -> Counts {
    state.counts().unwrap_or_default()
}

impl fmt::Display for EdgeReport {
    fn fmt(&self, formatter: &mut fmt::Formatter<'_>) -> fmt::Result {
        let plural = if self.count == 1 { "" } else { "s" };
        write!(formatter, "{} edge{plural} on {}", self.count, self.pin())?;
        if let Some(clocks) = self.inside {
            write!(formatter, " after {clocks} clocks of a byte")?;
        }
        match self.reason_of_standstill() {
            Some(reason) => write!(formatter, ": {reason}"),
            None => write!(formatter, ": {}", self.movement()),
        }
    }
}

#[cfg(test)]
mod tests {
    use super::*;
    use crate::chip::{Chip, Part};
    use fm3130::family::{registers, Fm3164, Size};

    /// What is said of some edges on a device.
    fn said(device: &Fm3164, event: u8, count: u64) -> String {
        let mut chip = Chip::Fm3164(device.clone());
        let before = chip.state();
        let events = vec![event; count as usize];
        chip.run_into(&events, &mut vec![0; events.len()]).unwrap();
        let report = EdgeReport {
            event,
            count,
            before,
            after: chip.state(),
            inside: None,
        };
        report.to_string()
    }

    #[test]
    fn counts_are_told_from_where_to_where() {
        let mut device = Fm3164::fresh();
        let words = said(&device, event::EDGE_1, 1);
        assert_eq!(words, "1 edge on CNT1: counter 1 0 -> 1 (0001h)");
        device
            .write_registers(registers::COUNTER_1_LOW, &[0xFE, 0xFF, 0xFF, 0xFF])
            .unwrap();
        let words = said(&device, event::EDGE_1, 3);
        assert_eq!(words, "3 edges on CNT1: counter 1 65534 -> 1 (0001h)");
        let words = said(&device, event::EDGE_2, 1);
        assert_eq!(words, "1 edge on CNT2: counter 2 65535 -> 0 (0000h)");
        device
            .write_registers(registers::COUNTING, &[registers::CC])
            .unwrap();
        let words = said(&device, event::EDGE_1, 2);
        assert_eq!(
            words,
            "2 edges on CNT1: both counters as one 4294967294 -> 0 (00000000h)"
        );
        let words = said(&device, event::EDGE_2, 2);
        assert_eq!(
            words,
            "2 edges on CNT2: not counted, CC is 1 and CNT2 is not used"
        );
        device.step(event::POWER_LOST_WITHOUT_BACKUP).unwrap();
        let words = said(&device, event::EDGE_1, 1);
        assert_eq!(words, "1 edge on CNT1: not counted, no supply");
    }

    #[test]
    fn notation_and_label_are_short() {
        let state = Chip::fresh(Part::Family(Size::Kb64)).state();
        let report = EdgeReport {
            event: event::EDGE_2,
            count: 7,
            before: state,
            after: state,
            inside: Some(3),
        };
        assert_eq!(
            (report.notation(), report.label()),
            ("c2*7".into(), "count 0000h".into())
        );
        assert!(report.to_string().contains(" after 3 clocks of a byte: "));
    }
}
