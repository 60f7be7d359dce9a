// SPDX-License-Identifier: Apache-2.0
//! Event bytes back to a script, with a comment on every line.
//!
//! The lines are a script of exactly the same events. No device is asked: what is said is what the
//! master does, and a byte counts as read if the slave byte before it asks for reading.

use fm3130::event;
use fm3130::family::event::{EDGE_1, EDGE_2};

use crate::bus;

/// The clocks of a byte.
const CLOCKS_OF_A_BYTE: usize = 9;

/// What the next byte is, as far as the master's side tells.
#[derive(Clone, Copy, PartialEq, Eq)]
enum Expected {
    /// No Start yet: clocks stay clocks.
    Nothing,
    SlaveByte,
    Written,
    Read,
}

/// Puts events together to lines.
pub struct Listing {
    /// The number of events taken.
    taken: u64,
    /// The levels of the clocks not yet listed.
    clocks: Vec<bool>,
    /// The clocks of the byte under way that are listed already, since something came between.
    listed: usize,
    /// The slave byte's bits among those.
    slave_bits: u32,
    /// The ticks or edges not yet listed, and how many: they are put together.
    run: Option<(u8, u64)>,
    expected: Expected,
}

impl Listing {
    /// A listing of no events yet.
    pub fn new() -> Listing {
        Listing {
            taken: 0,
            clocks: Vec::new(),
            listed: 0,
            slave_bits: 0,
            run: None,
            expected: Expected::Nothing,
        }
    }

    /// Takes an event; gives the lines that are complete by it.
    pub fn take(&mut self, event: u8) -> Vec<String> {
        match event {
            event::CLOCK_LOW | event::CLOCK_HIGH => self.take_clock(event == event::CLOCK_HIGH),
            event::TICK | EDGE_1 | EDGE_2 => self.take_repeated(event),
            other => self.take_other(other),
        }
    }

    /// A clock; the ninth completes a byte.
    fn take_clock(&mut self, level: bool) -> Vec<String> {
        let mut lines: Vec<String> = self.list_run().into_iter().collect();
        self.clocks.push(level);
        self.taken += 1;
        if self.listed + self.clocks.len() == CLOCKS_OF_A_BYTE {
            lines.extend(self.list_clocks());
            self.byte_is_over();
        }
        lines
    }

    /// A tick or an edge; those of one kind stand on one line.
    fn take_repeated(&mut self, event: u8) -> Vec<String> {
        let mut lines: Vec<String> = self.list_clocks().into_iter().collect();
        if self.run.is_some_and(|(before, _)| before != event) {
            lines.extend(self.list_run());
        }
        let (_, count) = self.run.get_or_insert((event, 0));
        *count += 1;
        self.taken += 1;
        lines
    }

    fn take_other(&mut self, event: u8) -> Vec<String> {
        let mut lines = self.finish();
        self.taken += 1;
        lines.push(self.single(event));
        lines
    }

    /// The lines of what is not yet listed.
    pub fn finish(&mut self) -> Vec<String> {
        let mut lines: Vec<String> = self.list_clocks().into_iter().collect();
        lines.extend(self.list_run());
        lines
    }

    /// A line; the comment says at which event it begins.
    fn line(&self, events: u64, notation: &str, words: &str) -> String {
        let begin = self.taken - events;
        format!("{notation:<12} # {begin:>8}  {words}")
    }

    fn list_run(&mut self) -> Option<String> {
        let (event, count) = self.run.take()?;
        let (notation, one, many) = match event {
            event::TICK => ("t", "tick", "ticks"),
            EDGE_1 => (bus::word_of(event), "edge on CNT1", "edges on CNT1"),
            _ => (bus::word_of(event), "edge on CNT2", "edges on CNT2"),
        };
        Some(match count {
            1 => self.line(1, notation, one),
            _ => self.line(count, &format!("{notation}*{count}"), many),
        })
    }

    /// An event that stands alone; it begins a new count of clocks.
    fn single(&mut self, event: u8) -> String {
        let (notation, words) = match event {
            event::START => ("[", "Start"),
            event::STOP => ("]", "Stop"),
            event::POWER_LOST_WITH_BACKUP => ("lost", "main power lost, backup present"),
            event::POWER_LOST_WITHOUT_BACKUP => ("gone", "main power lost, no backup"),
            _ => ("power", "main power returned"),
        };
        if event == event::START || event == event::STOP {
            self.byte_is_over();
            self.expected = match event {
                event::START => Expected::SlaveByte,
                _ => Expected::Nothing,
            };
        }
        self.line(1, notation, words)
    }

    /// The next clock is the first of a byte.
    fn byte_is_over(&mut self) {
        if self.expected == Expected::SlaveByte && self.listed == CLOCKS_OF_A_BYTE {
            // The eighth bit asks for reading; the ninth is the acknowledge.
            let reads = self.slave_bits & 2 != 0;
            self.expected = if reads {
                Expected::Read
            } else {
                Expected::Written
            };
        }
        self.listed = 0;
        self.slave_bits = 0;
    }

    /// The clocks so far as one line: a byte if they are whole and the script has a word for it.
    fn list_clocks(&mut self) -> Option<String> {
        let clocks = std::mem::take(&mut self.clocks);
        if clocks.is_empty() {
            return None;
        }
        let (notation, words) = self.notation(&clocks);
        self.listed += clocks.len();
        for level in &clocks {
            self.slave_bits = self.slave_bits << 1 | u32::from(*level);
        }
        Some(self.line(clocks.len() as u64, &notation, &words))
    }

    fn notation(&self, clocks: &[bool]) -> (String, String) {
        let is_whole = clocks.len() == CLOCKS_OF_A_BYTE;
        let byte = clocks
            .iter()
            .take(8)
            .fold(0u8, |byte, level| byte << 1 | u8::from(*level));
        let ninth_is_high = clocks.last() == Some(&true);
        match (self.expected, is_whole, ninth_is_high) {
            (Expected::Read, true, true) if byte == 0xFF => {
                ("R".into(), "read, not acknowledged".into())
            }
            (Expected::Read, true, false) if byte == 0xFF => {
                ("r+".into(), "read, acknowledged".into())
            }
            (Expected::SlaveByte, true, true) => {
                let words = format!("slave byte: {}", bus::named_by(byte));
                (format!("{byte:02X}"), words)
            }
            (Expected::Written, true, true) => (format!("{byte:02X}"), "byte written".into()),
            _ => (braces(clocks), self.words_of_clocks(clocks.len())),
        }
    }

    fn words_of_clocks(&self, clocks: usize) -> String {
        let plural = if clocks == 1 { "" } else { "s" };
        match self.expected {
            Expected::Nothing => format!("{clocks} clock{plural} outside a transfer"),
            _ => format!("{clocks} clock{plural} of a byte"),
        }
    }
}

/// Clocks as a script writes them.
fn braces(clocks: &[bool]) -> String {
    let digits: String = clocks
        .iter()
        .map(|level| if *level { '1' } else { '0' })
        .collect();
    format!("{{{digits}}}")
}

#[cfg(test)]
mod tests {
    use super::*;

    /// The notation of every line, without its comment.
    fn notations(events: &[u8]) -> Vec<String> {
        let mut listing = Listing::new();
        let mut lines = Vec::new();
        for event in events {
            lines.extend(listing.take(*event));
        }
        lines.extend(listing.finish());
        let notation = |line: &String| line.split('#').next().unwrap().trim().to_string();
        lines.iter().map(notation).collect()
    }

    #[test]
    fn a_read_is_listed_as_a_read() {
        let mut events = vec![event::START];
        events.extend(event::written_byte(0xD1));
        events.extend(event::read_byte(true));
        events.extend(event::read_byte(false));
        events.push(event::STOP);
        assert_eq!(notations(&events), ["[", "D1", "r+", "R", "]"]);
    }

    #[test]
    fn a_line_says_at_which_event_it_begins() {
        let mut listing = Listing::new();
        let mut events = vec![event::START];
        events.extend(event::written_byte(0xA0));
        events.extend([event::TICK, event::TICK, event::STOP]);
        let lines: Vec<String> = events.iter().flat_map(|one| listing.take(*one)).collect();
        let begin = |line: &String| line.split_whitespace().nth(2).unwrap().to_string();
        let begins: Vec<String> = lines.iter().map(begin).collect();
        assert_eq!(begins, ["0", "1", "10", "12"]);
    }

    #[test]
    fn ticks_inside_a_byte_keep_their_place() {
        let mut events = vec![0];
        events.extend([3, 2, 3, 2, 4, 4, 2, 2, 2, 2, 3]);
        events.extend(event::written_byte(0x12));
        assert_eq!(notations(&events), ["[", "{1010}", "t*2", "{00001}", "12"]);
    }

    #[test]
    fn edges_are_put_together_by_their_pins() {
        let events = [8, 8, 9, 4, 4, 8, 0, 3, 8, 9, 9, 2];
        assert_eq!(
            notations(&events),
            ["c1*2", "c2", "t*2", "c1", "[", "{1}", "c1", "c2*2", "{0}"]
        );
    }

    #[test]
    fn a_held_acknowledge_and_stray_clocks_stay_clocks() {
        let mut events = vec![2, 3, 0];
        events.extend([3, 2, 3, 2, 2, 2, 2, 2, 2]);
        assert_eq!(notations(&events), ["{01}", "[", "{101000000}"]);
    }
}
