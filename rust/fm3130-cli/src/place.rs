// SPDX-License-Identifier: Apache-2.0
//! Where an event stands in a list, as a script's reader counts: transactions, bytes, clocks.

use std::fmt;

use fm3130::{event, Phase, Power, State};

/// The clocks of a byte.
const CLOCKS_OF_A_BYTE: usize = 9;

/// The place of an event. Transactions, bytes and clocks are counted from 1; a repeated Start goes on
/// in its transaction.
#[derive(Clone, Copy, Debug, PartialEq, Eq)]
pub struct Place {
    /// The event byte.
    pub event: u8,
    /// The transaction that the event belongs to, or that came last; 0 before the first.
    pub transaction: usize,
    /// Whether a transaction is under way at the event, a Start and a Stop included.
    pub is_inside: bool,
    /// The byte of the transaction that is under way or came last; 0 before the first.
    pub byte: usize,
    /// The clocks of that byte done, the event's own included.
    pub clock: usize,
    /// Where the event's byte begins, or the event itself: its index in the list.
    pub byte_begin: usize,
    /// Where the transaction under way begins, or the event itself: its index in the list.
    pub transaction_begin: usize,
}

impl Place {
    /// The place of one event of a list that begins in a state; the index must be one of the list's.
    #[cfg(test)]
    pub fn of(events: &[u8], index: usize, state: &State) -> Option<Place> {
        let mut place = Place::before(state);
        for (at, event) in events.get(..=index)?.iter().enumerate() {
            place.take(*event, at);
        }
        Some(place)
    }

    /// Before the first event: a transfer may be under way already.
    pub fn before(state: &State) -> Place {
        let is_inside = state.phase != Phase::Idle && state.power == Power::On;
        Place {
            event: 0,
            transaction: usize::from(is_inside),
            is_inside,
            byte: usize::from(is_inside),
            clock: if is_inside {
                usize::from(state.clocks)
            } else {
                0
            },
            byte_begin: 0,
            transaction_begin: 0,
        }
    }

    /// The next event, and where it stands.
    pub fn take(&mut self, event: u8, at: usize) {
        let after_stop = self.event == event::STOP;
        self.event = event;
        match event {
            event::START if self.is_inside && !after_stop => self.byte_is_over(at),
            event::START => {
                self.transaction += 1;
                self.byte = 0;
                self.transaction_begin = at;
                self.is_inside = true;
                self.byte_is_over(at);
            }
            event::STOP => {
                self.leave(after_stop, at);
                self.byte_is_over(at);
            }
            event::CLOCK_LOW | event::CLOCK_HIGH => self.take_clock(at, after_stop),
            _ => {
                self.leave(after_stop, at);
                if event != event::TICK && event != event::POWER_RETURNED {
                    self.leave(true, at);
                }
            }
        }
    }

    fn take_clock(&mut self, at: usize, after_stop: bool) {
        self.leave(after_stop, at);
        if self.clock == 0 || self.clock == CLOCKS_OF_A_BYTE {
            self.byte += 1;
            self.clock = 0;
            self.byte_begin = at;
        }
        self.clock += 1;
        if !self.is_inside {
            self.transaction_begin = self.byte_begin;
        }
    }

    /// A Stop is inside its transaction; what follows it is not.
    fn leave(&mut self, is_over: bool, at: usize) {
        if is_over {
            self.is_inside = false;
            self.byte = 0;
            self.byte_is_over(at);
            self.transaction_begin = at;
        }
    }

    fn byte_is_over(&mut self, at: usize) {
        self.clock = 0;
        self.byte_begin = at;
    }

    /// Whether the event is a Clock.
    pub fn is_clock(&self) -> bool {
        self.event == event::CLOCK_LOW || self.event == event::CLOCK_HIGH
    }

    /// After which byte, and how many of its clocks, an event that is no Clock comes.
    fn after(&self) -> String {
        match (self.byte, self.clock) {
            (0, _) => String::new(),
            (byte, 0 | CLOCKS_OF_A_BYTE) => format!(", after byte {byte}"),
            (byte, clock) => format!(", after clock {clock} of byte {byte}"),
        }
    }
}

/// An event in words.
pub fn event_words(event: u8) -> &'static str {
    match event {
        event::START => "Start",
        event::STOP => "Stop",
        event::CLOCK_LOW => "Clock, the master's line low",
        event::CLOCK_HIGH => "Clock, the master's line released",
        event::TICK => "tick",
        event::POWER_LOST_WITH_BACKUP => "main power lost, backup present",
        event::POWER_LOST_WITHOUT_BACKUP => "main power lost, no backup",
        _ => "main power returned",
    }
}

impl fmt::Display for Place {
    fn fmt(&self, formatter: &mut fmt::Formatter<'_>) -> fmt::Result {
        if !self.is_inside {
            let clock = if self.is_clock() {
                format!(
                    ", clock {}",
                    self.clock + CLOCKS_OF_A_BYTE * (self.byte - 1)
                )
            } else {
                String::new()
            };
            return match self.transaction {
                0 => write!(formatter, "before the first transaction{clock}"),
                last => write!(formatter, "after transaction {last}{clock}"),
            };
        }
        write!(formatter, "transaction {}", self.transaction)?;
        if self.is_clock() {
            let ninth = if self.clock == CLOCKS_OF_A_BYTE {
                ", the acknowledge"
            } else {
                ""
            };
            return write!(
                formatter,
                ", byte {}, clock {}{ninth}",
                self.byte, self.clock
            );
        }
        match self.event {
            event::START if self.byte == 0 => formatter.write_str(", its Start"),
            event::START => write!(formatter, ", a repeated Start{}", self.after()),
            event::STOP => write!(formatter, ", its Stop{}", self.after()),
            _ => formatter.write_str(&self.after()),
        }
    }
}

#[cfg(test)]
mod tests {
    use super::*;
    use fm3130::Device;

    /// The words of every event of a list on a fresh device.
    fn words(events: &[u8]) -> Vec<String> {
        let state = Device::fresh().state();
        (0..events.len())
            .map(|index| Place::of(events, index, &state).unwrap().to_string())
            .collect()
    }

    #[test]
    fn transactions_bytes_and_clocks_are_counted_from_1() {
        let mut events = vec![event::TICK, event::START];
        events.extend(event::written_byte(0xA0));
        events.extend([event::CLOCK_LOW, event::TICK, event::START]);
        events.extend(event::written_byte(0xA1));
        events.extend([event::STOP, event::CLOCK_HIGH, event::START]);
        let words = words(&events);
        assert_eq!(words[0], "before the first transaction");
        assert_eq!(words[1], "transaction 1, its Start");
        assert_eq!(words[2], "transaction 1, byte 1, clock 1");
        assert_eq!(words[10], "transaction 1, byte 1, clock 9, the acknowledge");
        assert_eq!(words[11], "transaction 1, byte 2, clock 1");
        assert_eq!(words[12], "transaction 1, after clock 1 of byte 2");
        assert_eq!(words[13], "transaction 1, a repeated Start, after byte 2");
        assert_eq!(words[14], "transaction 1, byte 3, clock 1");
        assert_eq!(words[23], "transaction 1, its Stop, after byte 3");
        assert_eq!(words[24], "after transaction 1, clock 1");
        assert_eq!(words[25], "transaction 2, its Start");
    }

    #[test]
    fn a_loss_of_power_ends_a_transaction() {
        let words = words(&[0, 3, 5, 7, 3, 0, 1, 0]);
        assert_eq!(words[2], "after transaction 1");
        assert_eq!(words[3], "after transaction 1");
        assert_eq!(words[4], "after transaction 1, clock 1");
        assert_eq!(words[5], "transaction 2, its Start");
        assert_eq!(words[6], "transaction 2, its Stop");
        assert_eq!(words[7], "transaction 3, its Start");
    }

    #[test]
    fn a_list_may_begin_inside_a_byte() {
        let mut device = Device::fresh();
        device.run(&[0, 3, 2, 3]).unwrap();
        let place = Place::of(&[2, 2, 2, 2, 2, 3], 5, &device.state()).unwrap();
        assert_eq!(
            place.to_string(),
            "transaction 1, byte 1, clock 9, the acknowledge"
        );
        assert_eq!((place.byte_begin, place.transaction_begin), (0, 0));
        assert_eq!(Place::of(&[2], 1, &device.state()), None);
    }
}
