// SPDX-License-Identifier: Apache-2.0
//! The answer bytes, and the ACS pin that they tell of.

use std::fmt;

use crate::registers;

/// What an answer byte says.
///
/// ```
/// use fm3130::{Answer, PinFunction};
///
/// let answer = Answer(0x05);
/// assert!(answer.line_is_high());
/// assert_eq!(answer.pin().function, PinFunction::SquareWave);
/// ```
#[derive(Clone, Copy, Debug, PartialEq, Eq, Hash)]
pub struct Answer(pub u8);

impl Answer {
    /// Bit 0, the line: for a Clock, low if the master or the device pulls it low; for other events
    /// high.
    pub fn line_is_high(self) -> bool {
        self.0 & 1 == 1
    }

    /// Bits 1 to 3, the ACS pin after the event.
    pub fn pin(self) -> Pin {
        let function = match (self.0 >> 1) & 3 {
            0 => PinFunction::Released,
            1 => PinFunction::Alarm,
            2 => PinFunction::SquareWave,
            _ => PinFunction::Calibration,
        };
        Pin {
            function,
            alarm: self.0 & 8 != 0,
        }
    }
}

/// What the ACS pin is used for.
#[derive(Clone, Copy, Debug, PartialEq, Eq, Hash)]
pub enum PinFunction {
    /// The pin is left alone (Hi-Z).
    Released,
    /// The pin is the active-low alarm.
    Alarm,
    /// The pin gives a square wave.
    SquareWave,
    /// The pin gives the 512 Hz of calibration.
    Calibration,
}

/// The ACS pin.
///
/// ```
/// use fm3130::{Device, PinFunction};
///
/// let pin = Device::fresh().pin();
/// assert_eq!(pin.function, PinFunction::SquareWave);
/// assert!(!pin.is_pulled_low());
/// assert_eq!(pin.to_string(), "square wave");
/// ```
#[derive(Clone, Copy, Debug, PartialEq, Eq, Hash)]
pub struct Pin {
    /// What the pin is used for.
    pub function: PinFunction,
    /// True exactly when the function is alarm and AF is 1.
    pub alarm: bool,
}

impl Pin {
    /// The pin that registers give while some supply is there (01, "Pin function").
    pub(crate) fn by_registers(registers: &[u8; crate::REGISTER_COUNT]) -> Pin {
        let control = registers[registers::CONTROL];
        let setup = registers[registers::SETUP];
        let function = if control & registers::CAL != 0 {
            PinFunction::Calibration
        } else if setup & registers::AL_SW == 0 {
            PinFunction::SquareWave
        } else if control & registers::AEN != 0 {
            PinFunction::Alarm
        } else {
            PinFunction::Released
        };
        let alarm = function == PinFunction::Alarm && control & registers::AF != 0;
        Pin { function, alarm }
    }

    /// The pin of a device without any supply.
    pub(crate) fn without_supply() -> Pin {
        Pin {
            function: PinFunction::Released,
            alarm: false,
        }
    }

    /// True when the alarm pulls the pin low.
    pub fn is_pulled_low(self) -> bool {
        self.alarm
    }
}

impl fmt::Display for Pin {
    fn fmt(&self, formatter: &mut fmt::Formatter<'_>) -> fmt::Result {
        formatter.write_str(match (self.function, self.alarm) {
            (PinFunction::Released, _) => "released",
            (PinFunction::Alarm, true) => "alarm, pulled low",
            (PinFunction::Alarm, false) => "alarm, not raised",
            (PinFunction::SquareWave, _) => "square wave",
            (PinFunction::Calibration, _) => "calibration, 512 Hz",
        })
    }
}
