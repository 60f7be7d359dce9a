// SPDX-License-Identifier: Apache-2.0
//! A state of the family by value: everything of a device but its size, its
//! selects and its memory; and the limits on it. How an image holds it is not
//! this program's business.

use super::device::Device;
use super::registers::{fresh_registers, Registers, Snapshot, STORED_BITS};
use crate::bus::{Bus, Part, Power, Transfer};
use crate::size::Size;
use crate::state::hold_only;

/// Everything of a device but its size, its selects and its memory.
#[derive(Clone, Copy, Debug, PartialEq, Eq)]
pub struct State {
    /// 09h to 18h; 0Dh to 10h are the running counters.
    pub registers: Registers,
    /// What reads of 0Dh to 10h send while RC is 1.
    pub snapshot: Snapshot,
    pub power: Power,
    pub memory_address: u16,
    pub companion_address: u8,
    pub transfer: Transfer,
}

impl State {
    /// The fresh state, the same for both sizes: POR and LB, "the companion
    /// address starts at 09h", "a fresh device has 0 elsewhere".
    pub fn fresh() -> State {
        let bus = Bus::fresh::<Device>();
        State {
            registers: fresh_registers(),
            snapshot: [0; 4],
            power: bus.power,
            memory_address: bus.memory_address,
            companion_address: bus.companion_address,
            transfer: bus.transfer,
        }
    }

    /// The state that a device is in.
    pub fn of(device: &Device) -> State {
        State {
            registers: device.registers,
            snapshot: device.snapshot,
            power: device.power,
            memory_address: device.memory_address,
            companion_address: device.companion_address,
            transfer: device.transfer,
        }
    }

    /// The device in this state, alone on its bus, with some memory.
    pub fn device(&self, size: Size, memory: Vec<u8>) -> Device {
        self.selected_device(size, 0, memory)
    }

    /// The device in this state that answers to some selects.
    pub fn selected_device(&self, size: Size, selects: u8, memory: Vec<u8>) -> Device {
        Device {
            size,
            selects,
            registers: self.registers,
            snapshot: self.snapshot,
            memory,
            power: self.power,
            memory_address: self.memory_address,
            companion_address: self.companion_address,
            transfer: self.transfer,
        }
    }

    /// "Its state limits are a memory address below that size, address bits
    /// above it being ignored, and a companion address in 09h to 18h." The rest
    /// is 01's: "clocks within a byte 0 to 8, bits that the register map fixes
    /// at 0 are 0". The snapshot has no limit.
    pub fn is_well_formed(&self, size: Size) -> bool {
        self.is_well_formed_with(size, 0)
    }

    /// The same for a device that answers to some selects.
    pub fn is_well_formed_with(&self, size: Size, selects: u8) -> bool {
        let device = self.selected_device(size, selects, Vec::new());
        device.bus().is_within_limits::<Device>(size) && hold_only(&self.registers, &STORED_BITS)
    }
}
