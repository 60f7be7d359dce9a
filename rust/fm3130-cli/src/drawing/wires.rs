// SPDX-License-Identifier: Apache-2.0
//! The levels of the wires, which go on from cell to cell.

use fm3130::family::Select;
use fm3130::{Phase, Pin, PinFunction, Report};

use crate::bus::BusClock;
use crate::chip::{Part, State};

/// Who pulls SDA low.
#[derive(Clone, Copy, Debug, PartialEq, Eq)]
pub enum Puller {
    /// Nobody: the line is high.
    Nobody,
    /// The master.
    Master,
    /// The device; that of a set by its select bits.
    Device(Option<Select>),
    /// The master and a device.
    Both,
}

impl Puller {
    /// All of them.
    pub const ALL: [Puller; 8] = [
        Puller::Nobody,
        Puller::Master,
        Puller::Device(None),
        Puller::Both,
        Puller::Device(Some(Select::ZERO)),
        Puller::Device(Some(Select::ONE)),
        Puller::Device(Some(Select::TWO)),
        Puller::Device(Some(Select::THREE)),
    ];

    /// The place among all of them.
    pub fn place(self) -> usize {
        match self {
            Puller::Nobody => 0,
            Puller::Master => 1,
            Puller::Device(None) => 2,
            Puller::Both => 3,
            Puller::Device(Some(select)) => 4 + usize::from(select.bits()),
        }
    }

    /// Who pulls at a clock of a byte that a device of a set hears or sends, or the one device.
    pub fn at(clock: &BusClock, device: Option<Select>) -> Puller {
        match (clock.master_is_high, clock.device_pulls) {
            (true, false) => Puller::Nobody,
            (false, false) => Puller::Master,
            (true, true) => Puller::Device(device),
            (false, true) => Puller::Both,
        }
    }
}

/// The levels between two cells.
#[derive(Clone, Copy, Debug)]
pub struct Wires {
    /// SCL is high when the bus is free, and low inside a transfer.
    pub clock_is_high: bool,
    /// Who pulls SDA.
    pub puller: Puller,
    /// The ACS pin.
    pub pin: Pin,
    /// Whether the part has that pin, so that it is drawn.
    pub has_pin: bool,
    /// The lamps, where they are drawn.
    pub lamps: Option<Report>,
}

impl Wires {
    /// A free bus.
    pub fn free() -> Wires {
        Wires {
            clock_is_high: true,
            puller: Puller::Nobody,
            pin: Pin {
                function: PinFunction::Released,
                alarm: false,
            },
            has_pin: true,
            lamps: None,
        }
    }

    /// The wires of a run that begins in a state, and with some lamps.
    pub fn of(state: &State, lamps: Option<Report>) -> Wires {
        Wires {
            clock_is_high: state.phase == Phase::Idle,
            pin: state.pin(),
            has_pin: state.part == Part::Fm3130,
            lamps,
            ..Wires::free()
        }
    }
}

#[cfg(test)]
mod tests {
    use super::*;

    #[test]
    fn every_puller_has_its_own_place() {
        for (place, puller) in Puller::ALL.into_iter().enumerate() {
            assert_eq!(puller.place(), place);
        }
    }
}
