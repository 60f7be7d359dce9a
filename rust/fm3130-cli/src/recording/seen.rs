// SPDX-License-Identifier: Apache-2.0
//! What wires show: an event, who gives the line its level, the pin.

use fm3130::{Pin, PinFunction};

/// A wire that is looked at.
#[derive(Clone, Copy, Debug, PartialEq, Eq)]
pub enum Wire {
    /// SCL
    Clock,
    /// SDA
    Data,
    /// A pulse for each second, or one for many, where a comment says how many.
    Tick,
    /// Main power.
    MainPower,
    /// Main power or backup.
    Supplied,
    /// The ACS pin.
    Pin,
    /// The pin's function, high bit and low bit.
    FunctionHigh,
    FunctionLow,
}

/// How many there are.
pub const WIRES: usize = 8;

/// An event as the wires show it, the level of SDA at it, and the pin after it.
#[derive(Clone, Copy, Debug, PartialEq, Eq)]
pub struct Seen {
    /// The event byte.
    pub event: u8,
    /// The line of the answer byte: the level at a Clock, and high for others.
    pub line_is_high: bool,
    /// How often it comes, at least once; only of ticks more.
    pub times: u64,
    /// Whose the level is.
    pub giver: Giver,
    /// The pin after the event, as far as wires show it.
    pub pin: PinSeen,
}

/// What wires show of the ACS pin.
#[derive(Clone, Copy, Debug, Default, PartialEq, Eq)]
pub struct PinSeen {
    /// Whether it is pulled low.
    pub is_low: Option<bool>,
    /// Its function.
    pub function: Option<PinFunction>,
}

impl PinSeen {
    /// What some levels show.
    pub fn of(levels: &[Option<bool>; WIRES]) -> PinSeen {
        let level = |wire: Wire| levels[wire as usize];
        let function = match (level(Wire::FunctionHigh), level(Wire::FunctionLow)) {
            (Some(false), Some(false)) => Some(PinFunction::Released),
            (Some(false), Some(true)) => Some(PinFunction::Alarm),
            (Some(true), Some(false)) => Some(PinFunction::SquareWave),
            (Some(true), Some(true)) => Some(PinFunction::Calibration),
            _ => None,
        };
        PinSeen {
            is_low: level(Wire::Pin).map(|is_high| !is_high),
            function,
        }
    }

    /// Whether anything of it can be held to a pin that the rules give: what a square wave is at a moment tells
    /// nothing.
    pub fn is_judged(&self, right: Pin) -> bool {
        let is_steady = matches!(right.function, PinFunction::Alarm | PinFunction::Released);
        self.function.is_some() || self.is_low.is_some() && is_steady
    }

    /// An answer byte in which the pin is the one that was seen, as far as it was.
    pub fn in_answer(&self, right: u8) -> u8 {
        let pin = fm3130::Answer(right).pin();
        let function = match self.function.unwrap_or(pin.function) {
            PinFunction::Released => 0,
            PinFunction::Alarm => 1,
            PinFunction::SquareWave => 2,
            PinFunction::Calibration => 3,
        };
        let alarm = match self.is_low {
            Some(is_low) if self.is_judged(pin) => is_low,
            _ => pin.alarm,
        };
        right & 1 | function << 1 | u8::from(alarm) << 3
    }
}

/// Who gives the line its level at an event, by the protocol.
#[derive(Clone, Copy, Debug, PartialEq, Eq)]
pub enum Giver {
    /// The part: the master has let go, and the level is an answer.
    Part,
    /// The master, which makes a condition or sends to the part.
    Master,
    /// Others: a transfer is under way, and the part has no share in it, or none any more.
    Others,
    /// Whoever it is, no transfer is under way.
    Anybody,
}
