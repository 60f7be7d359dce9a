// SPDX-License-Identifier: Apache-2.0
//! How much a command is about to write, known and said before it begins.
//!
//! A script is short and may stand for thousands of millions of events: `t*4294967295` is one word.

use fm3130::event;
use fm3130::family::event::EDGE_1;

use crate::arguments::wrong;
use crate::failure::Outcome;
use crate::output::say_aside;

/// The option that lets a command write as much as it is told to.
pub const OPTION: &str = "--large";

/// More is written only where the option is given.
const MOST_BYTES: u64 = 100_000_000;

/// About what a byte or a run takes in words, and what a Start, a Stop or a power event does.
const BYTES_OF_A_LINE: u64 = 45;
const BYTES_OF_A_SHORT_LINE: u64 = 22;

/// About what an edge of a counter's pin takes in a waveform, and what any other event but a tick does.
const BYTES_OF_AN_EDGE: u64 = 25;
const BYTES_OF_AN_EVENT: u64 = 40;

/// The clocks of a byte, which are told together.
const CLOCKS_OF_A_BYTE: u64 = 9;

/// How many events there are, as far as the size of what is written depends on it.
#[derive(Clone, Copy, Debug, Default, PartialEq, Eq)]
pub struct Tally {
    clocks: u64,
    ticks: u64,
    edges: u64,
    /// Runs of ticks and of edges on one pin: each is told as one.
    runs: u64,
    /// Starts, Stops and power events.
    others: u64,
    last: Option<u8>,
}

impl Tally {
    /// Adds an event that comes so many times.
    pub fn add(&mut self, event: u8, times: u64) {
        let counted = match event {
            event::CLOCK_LOW | event::CLOCK_HIGH => &mut self.clocks,
            event::TICK => &mut self.ticks,
            EDGE_1.. => &mut self.edges,
            _ => &mut self.others,
        };
        *counted = counted.saturating_add(times);
        let is_told_in_runs = event == event::TICK || event >= EDGE_1;
        if is_told_in_runs && self.last != Some(event) {
            self.runs = self.runs.saturating_add(1);
        }
        self.last = Some(event);
    }

    /// All of them.
    pub fn events(&self) -> u64 {
        [self.clocks, self.ticks, self.edges, self.others]
            .into_iter()
            .fold(0, u64::saturating_add)
    }

    /// About the bytes of what happens, in words.
    pub fn words(&self) -> u64 {
        let lines = self.clocks.div_ceil(CLOCKS_OF_A_BYTE);
        let lines = lines.saturating_add(self.runs);
        let short = self.others.saturating_mul(BYTES_OF_A_SHORT_LINE);
        short.saturating_add(lines.saturating_mul(BYTES_OF_A_LINE))
    }

    /// About the bytes of a waveform; a run of ticks is one pulse.
    pub fn waveform(&self) -> u64 {
        let edges = self.edges.saturating_mul(BYTES_OF_AN_EDGE);
        let events = self
            .clocks
            .saturating_add(self.others)
            .saturating_add(self.runs);
        edges.saturating_add(events.saturating_mul(BYTES_OF_AN_EVENT))
    }
}

/// Something that is about to be written.
pub struct Amount {
    /// Where it goes.
    name: String,
    bytes: u64,
    is_exact: bool,
}

impl Amount {
    /// Of so many bytes.
    pub fn exactly(name: impl Into<String>, bytes: u64) -> Amount {
        Amount {
            name: name.into(),
            bytes,
            is_exact: true,
        }
    }

    /// Of about so many.
    pub fn about(name: impl Into<String>, bytes: u64) -> Amount {
        Amount {
            is_exact: false,
            ..Amount::exactly(name, bytes)
        }
    }

    fn size(&self) -> String {
        match self.is_exact {
            true => format!("{} bytes", self.bytes),
            false => format!("about {} MB", self.bytes / 1_000_000),
        }
    }
}

/// Says how much is about to be written, where it is much, and refuses it unless it is asked for.
pub fn test(amounts: &[Amount], is_asked_for: bool) -> Outcome {
    for amount in amounts.iter().filter(|one| one.bytes > MOST_BYTES) {
        let (name, size) = (&amount.name, amount.size());
        if !is_asked_for {
            let words = format!("{name}: {size} would be written; more than 100 MB need {OPTION}");
            return Err(wrong(words));
        }
        say_aside(&format!("{name}: {size} are written"));
    }
    Ok(())
}

#[cfg(test)]
mod tests {
    use super::*;

    #[test]
    fn ticks_and_edges_are_told_in_runs() {
        let mut tally = Tally::default();
        for (event, times) in [
            (0, 1),
            (2, 18),
            (4, 5_000),
            (4, 5_000),
            (8, 300),
            (9, 1),
            (1, 1),
        ] {
            tally.add(event, times);
        }
        assert_eq!(tally.events(), 10_321);
        assert_eq!(tally.runs, 3);
        assert_eq!(tally.words(), (2 + 3) * 45 + 2 * 22);
        assert_eq!(tally.waveform(), 301 * 25 + (18 + 2 + 3) * 40);
        tally.add(0, u64::MAX);
        assert_eq!((tally.events(), tally.words()), (u64::MAX, u64::MAX));
    }

    #[test]
    fn what_is_large_needs_the_option() {
        let test = |bytes, is_asked_for| test(&[Amount::exactly("file", bytes)], is_asked_for);
        assert!(test(100_000_000, false).is_ok());
        assert!(test(100_000_001, true).is_ok());
        let said = test(100_000_001, false).unwrap_err().to_string();
        assert!(
            said.starts_with("file: 100000001 bytes would be written"),
            "{said}"
        );
        assert_eq!(Amount::about("file", 171_999_999).size(), "about 171 MB");
    }
}
