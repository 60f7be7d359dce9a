// SPDX-License-Identifier: Apache-2.0
//! The part: its events and their answers. Transfers, memory and power are the
//! [`bus`](crate::bus)'s.

use super::registers::{self, Registers, Snapshot};
use super::state::State;
use crate::bus::{Bus, Part, Phase, Power, Transfer, POWER_RETURNED, START, TICK};
use crate::size::Size;

/// "Two new event bytes, 8 and 9, are already polarity-filtered edges on CNT1
/// and CNT2".
pub const EDGE_ON_CNT1: u8 = 8;
/// "Two new event bytes, 8 and 9, are already polarity-filtered edges on CNT1
/// and CNT2".
pub const EDGE_ON_CNT2: u8 = 9;

/// One part of the family.
#[derive(Clone, Debug, PartialEq, Eq)]
pub struct Device {
    pub size: Size,
    /// Bits 2 and 1 of the slave bytes that name it; 0 but in a set (02, number
    /// 12).
    pub selects: u8,
    pub registers: Registers,
    pub snapshot: Snapshot,
    pub memory: Vec<u8>,
    pub power: Power,
    pub memory_address: u16,
    pub companion_address: u8,
    pub transfer: Transfer,
}

impl Device {
    /// A fresh device; its memory is all 0.
    pub fn fresh(size: Size) -> Device {
        State::fresh().device(size, vec![0; size.bytes()])
    }

    /// One event and its answer byte: "answer bits 1 to 3 are 0", so the line
    /// alone.
    pub fn event(&mut self, event: u8) -> u8 {
        let mut line_is_high = true;
        match event {
            // "It has no calendar: ticks change nothing"
            TICK => {}
            START..=POWER_RETURNED => line_is_high = self.bus_event(event),
            EDGE_ON_CNT1 => self.edge(registers::count_on_cnt1),
            EDGE_ON_CNT2 => self.edge(registers::count_on_cnt2),
            _ => panic!("events are 0 to 9"),
        }
        u8::from(line_is_high)
    }

    /// The events of a list, one by one.
    pub fn run(&mut self, events: &[u8]) -> Vec<u8> {
        events.iter().map(|event| self.event(*event)).collect()
    }

    /// True when no transfer is under way.
    pub fn between_transfers(&self) -> bool {
        self.transfer.phase == Phase::BetweenTransfers
    }

    /// "Edges count while power or backup is present, during a write too (our
    /// ruling)."
    fn edge(&mut self, count: fn(&mut Registers)) {
        if self.power != Power::Gone {
            count(&mut self.registers);
        }
    }
}

impl Part for Device {
    const FIRST_COMPANION_ADDRESS: u8 = registers::FIRST_ADDRESS;
    const LAST_COMPANION_ADDRESS: u8 = registers::LAST_ADDRESS;

    fn size(&self) -> Size {
        self.size
    }

    fn memory(&self) -> &[u8] {
        &self.memory
    }

    fn memory_mut(&mut self) -> &mut [u8] {
        &mut self.memory
    }

    fn bus(&self) -> Bus {
        Bus {
            selects: self.selects,
            power: self.power,
            memory_address: self.memory_address,
            companion_address: self.companion_address,
            transfer: self.transfer,
        }
    }

    fn set_bus(&mut self, bus: Bus) {
        self.power = bus.power;
        self.memory_address = bus.memory_address;
        self.companion_address = bus.companion_address;
        self.transfer = bus.transfer;
    }

    fn protection(&self) -> u8 {
        registers::protection(&self.registers)
    }

    fn register_to_send(&self, address: u8) -> u8 {
        registers::register_to_send(&self.registers, &self.snapshot, address)
    }

    fn finish_reading(&mut self, address: u8, _byte_sent: u8) {
        registers::finish_reading(&mut self.registers, address);
    }

    /// Bytes for the locked serial number too "are acknowledged and not stored".
    fn refuses(&self, _address: u8, _byte: u8) -> bool {
        false
    }

    fn write_register(&mut self, address: u8, byte: u8) {
        registers::write_register(&mut self.registers, &mut self.snapshot, address, byte);
    }

    fn registers_lose_last_supply(&mut self) {
        registers::lose_last_supply(&mut self.registers, &mut self.snapshot);
    }

    fn set_power_on_reset(&mut self) {
        self.registers[registers::place(registers::FLAGS)] |= registers::POWER_ON_RESET;
    }
}
