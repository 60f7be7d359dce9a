// SPDX-License-Identifier: Apache-2.0
//! A state by value: everything of a device but its memory, and the limits that
//! 01 sets to it. How an image's bytes after the registers hold it is not this
//! program's business.

use crate::bus::{Bus, Power, Transfer};
use crate::calendar::Calendar;
use crate::device::Device;
use crate::generate::StartingState;
use crate::registers::{calendar_registers, Registers, FIRST_CALENDAR, LAST_CALENDAR, STORED_BITS};
use crate::size::Size;

/// Everything of a device but its memory.
#[derive(Clone, Copy, Debug, PartialEq, Eq)]
pub struct State {
    pub registers: Registers,
    pub core: Calendar,
    pub power: Power,
    pub memory_address: u16,
    pub companion_address: u8,
    pub transfer: Transfer,
}

impl From<StartingState> for State {
    fn from(starting: StartingState) -> State {
        State::of(&starting.device())
    }
}

impl State {
    /// The state that a device is in.
    pub fn of(device: &Device) -> State {
        State {
            registers: device.registers,
            core: device.core,
            power: device.power,
            memory_address: device.memory_address,
            companion_address: device.companion_address,
            transfer: device.transfer,
        }
    }

    /// The device in this state with some memory.
    pub fn device(&self, memory: Vec<u8>) -> Device {
        Device {
            registers: self.registers,
            core: self.core,
            memory,
            power: self.power,
            memory_address: self.memory_address,
            companion_address: self.companion_address,
            transfer: self.transfer,
        }
    }

    /// Puts a device into this state; its memory stays.
    pub fn put_into(&self, device: &mut Device) {
        let memory = std::mem::take(&mut device.memory);
        *device = self.device(memory);
    }

    /// The contents of 02h to 08h.
    pub fn shown_calendar(&self) -> Calendar {
        calendar_registers(&self.registers)
    }

    /// "State limits (a state inside them is well-formed): memory address at
    /// most 8191, companion address at most 14, clocks within a byte 0 to 8,
    /// bits that the register map fixes at 0 are 0 (also in the calendar core)."
    pub fn is_well_formed(&self) -> bool {
        self.bus().is_within_limits::<Device>(Size::Kilobits64) && self.fixed_bits_are_zero()
    }

    fn bus(&self) -> Bus {
        Bus {
            selects: 0,
            power: self.power,
            memory_address: self.memory_address,
            companion_address: self.companion_address,
            transfer: self.transfer,
        }
    }

    fn fixed_bits_are_zero(&self) -> bool {
        let calendar_bits = &STORED_BITS[FIRST_CALENDAR..=LAST_CALENDAR];
        hold_only(&self.registers, &STORED_BITS) && hold_only(&self.core.to_bytes(), calendar_bits)
    }
}

/// Each byte holds stored bits only.
pub fn hold_only(bytes: &[u8], stored_bits: &[u8]) -> bool {
    let mut pairs = bytes.iter().zip(stored_bits);
    pairs.all(|(byte, stored)| byte & !stored == 0)
}
