// SPDX-License-Identifier: Apache-2.0
//! A copy of a device without its memory.

use second::{Calendar, Device, Power, Transfer};

/// Everything of a device but its memory.
#[derive(Clone, Copy, Debug, PartialEq, Eq)]
pub struct Snapshot {
    pub registers: [u8; 15],
    pub core: Calendar,
    pub power: Power,
    pub memory_address: u16,
    pub companion_address: u8,
    pub transfer: Transfer,
}

pub fn snapshot(device: &Device) -> Snapshot {
    Snapshot {
        registers: device.registers,
        core: device.core,
        power: device.power,
        memory_address: device.memory_address,
        companion_address: device.companion_address,
        transfer: device.transfer,
    }
}
