// SPDX-License-Identifier: Apache-2.0
//! What a script is made of.

use fm3130::masters::Master;
use fm3130::{Pin, PinFunction};

use super::problem::Place;

/// What the master does at the ninth clock of a byte that it reads.
#[derive(Clone, Copy, Debug, PartialEq, Eq)]
pub enum Ninth {
    /// `r`: acknowledge, unless a Start or a Stop comes next on the bus.
    ByWhatFollows,
    /// `r+`: acknowledge.
    Acknowledge,
    /// `R` or `r-`: leave the line released.
    Release,
}

/// One thing that a script asks for.
#[derive(Clone, Debug, PartialEq, Eq)]
pub enum Action {
    /// `[`
    Start,
    /// `]`
    Stop,
    /// `A0` or `0xA0`
    Write(u8),
    /// `r`, `r+`, `R` or `r-`
    Read(Ninth),
    /// `{0110}`: single clocks with the master's line low or high.
    Clocks(Vec<bool>),
    /// `t`
    Tick,
    /// `lost`
    PowerLost,
    /// `gone`
    PowerGone,
    /// `power`
    PowerReturned,
    /// `c1`: an edge on CNT1.
    FirstEdge,
    /// `c2`: an edge on CNT2.
    SecondEdge,
    /// `c1@2` or `c2@2`: an edge of a device of a set; the event byte.
    EdgeOfDevice(u8),
    /// `pin=low`: nothing is done, and something is expected.
    Look,
}

impl Action {
    /// True for what is seen on the two wires.
    pub fn is_on_the_bus(&self) -> bool {
        !matches!(
            self,
            Action::Tick
                | Action::PowerLost
                | Action::PowerGone
                | Action::PowerReturned
                | Action::FirstEdge
                | Action::SecondEdge
                | Action::EdgeOfDevice(_)
                | Action::Look
        )
    }
}

/// What a script expects of the device.
#[derive(Clone, Copy, Debug, PartialEq, Eq)]
pub enum Expected {
    /// `r=5A`: the device sends this byte.
    Byte(u8),
    /// `A0+` or `A0-`: the device acknowledges the byte, or does not.
    Acknowledge(bool),
    /// `pin=low`: the ACS pin, after all that was done.
    Pin(Pin),
}

impl Expected {
    /// The words for the pin, and what each says.
    pub const PINS: [(&'static str, Pin); 5] = [
        ("low", pin(PinFunction::Alarm, true)),
        ("high", pin(PinFunction::Alarm, false)),
        ("released", pin(PinFunction::Released, false)),
        ("square", pin(PinFunction::SquareWave, false)),
        ("calibration", pin(PinFunction::Calibration, false)),
    ];
}

const fn pin(function: PinFunction, alarm: bool) -> Pin {
    Pin { function, alarm }
}

/// An action, how often it is done, at least once, and what is expected each time.
#[derive(Clone, Debug, PartialEq, Eq)]
pub struct Item {
    /// What is done.
    pub action: Action,
    /// How often.
    pub times: u64,
    /// What is expected.
    pub expected: Option<Expected>,
    /// Where it stands.
    pub place: Place,
}

/// What one of two masters does, up to the next turn.
#[derive(Clone, Debug, PartialEq, Eq)]
pub struct Turn {
    /// Whose turn it is: `a:` the rig's, `b:` the handheld's.
    pub master: Master,
    /// What is done.
    pub items: Vec<Item>,
    /// The items as they are written.
    pub words: String,
}
