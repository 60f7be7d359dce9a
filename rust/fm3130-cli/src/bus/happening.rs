// SPDX-License-Identifier: Apache-2.0
//! What happened, in pieces that a reader thinks in.

use fm3130::family::Select;
use fm3130::Power;

use super::edges::EdgeReport;
use super::ticks::TickReport;
use crate::chip::Part;

/// One clock.
#[derive(Clone, Copy, Debug, PartialEq, Eq)]
pub struct BusClock {
    /// The level of the master's line; high is released.
    pub master_is_high: bool,
    /// The level of the wire.
    pub line_is_high: bool,
    /// Whether the device pulls the wire low.
    pub device_pulls: bool,
}

/// Who sends the eight bits of a byte.
#[derive(Clone, Copy, Debug, PartialEq, Eq)]
pub enum Direction {
    /// The master sends, the device listens.
    Write,
    /// The device sends.
    Read,
    /// The master sends and nobody listens.
    Unheard,
}

/// Up to nine clocks that belong together.
#[derive(Clone, Debug, PartialEq, Eq)]
pub struct BusByte {
    /// The clocks, one to nine. Fewer than nine: the byte was cut.
    pub clocks: Vec<BusClock>,
    /// Who sends.
    pub direction: Direction,
    /// The device of a set that hears or sends it, if one does.
    pub device: Option<Select>,
    /// True for clocks that follow no Start.
    pub is_stray: bool,
    /// What the byte means, in words.
    pub meaning: String,
    /// The same in a few letters, for a drawing.
    pub label: String,
}

impl BusByte {
    /// The bits on the wire before the ninth clock, high bit first.
    pub fn value(&self) -> u8 {
        self.clocks
            .iter()
            .take(8)
            .fold(0, |byte, clock| byte << 1 | u8::from(clock.line_is_high))
    }

    /// The bits on the wire at every clock as digits.
    pub fn digits(&self) -> String {
        self.clocks
            .iter()
            .map(|clock| if clock.line_is_high { '1' } else { '0' })
            .collect()
    }

    /// The ninth clock.
    pub fn ninth(&self) -> Option<&BusClock> {
        self.clocks.get(8)
    }

    /// True when whoever takes the byte acknowledges it: the device by pulling the line itself, or
    /// the master in a read.
    pub fn is_acknowledged(&self) -> bool {
        self.ninth().is_some_and(|clock| match self.direction {
            Direction::Write => clock.device_pulls,
            Direction::Read => !clock.master_is_high,
            Direction::Unheard => false,
        })
    }
}

/// A power event.
#[derive(Clone, Copy, Debug, PartialEq, Eq)]
pub struct PowerChange {
    /// The event byte.
    pub event: u8,
    /// The supplies before.
    pub before: Power,
    /// The part, which loses registers of its own.
    pub part: Part,
    /// The clocks of a byte under way that goes on after the event.
    pub inside: Option<usize>,
}

/// One thing that happened.
#[derive(Clone, Debug, PartialEq, Eq)]
pub enum Happening {
    /// A Start; repeated if no Stop came since the last one.
    Start {
        /// Whether a transfer was under way on the wires.
        is_repeated: bool,
    },
    /// A Stop.
    Stop,
    /// A byte, whole or cut.
    Byte(BusByte),
    /// Ticks.
    Ticks(TickReport),
    /// Edges on a counter's pin.
    Edges(EdgeReport),
    /// A power event.
    Power(PowerChange),
}
