// SPDX-License-Identifier: Apache-2.0
//! The FM3130: its events and their answers. Transfers, memory and power are the
//! [`bus`](crate::bus)'s.

use crate::bus::{Bus, Part};
use crate::calendar::Calendar;
use crate::registers::{self, PinFunction};
use crate::rolled::Rolled;
use crate::size::Size;
use crate::{MEMORY_BYTES, REGISTER_COUNT};

pub use crate::bus::{
    LogicalDevice, Phase, Power, Transfer, CLOCK_HIGH, CLOCK_LOW, POWER_LOST_WITHOUT_BACKUP,
    POWER_LOST_WITH_BACKUP, POWER_RETURNED, SLAVE_COMPANION_READ, SLAVE_COMPANION_WRITE,
    SLAVE_MEMORY_READ, SLAVE_MEMORY_WRITE, START, STOP, TICK,
};

/// The last address of the memory.
pub const LAST_MEMORY_ADDRESS: u16 = 0x1FFF;
/// The last address of the companion.
pub const LAST_COMPANION_ADDRESS: u8 = 0x0E;

/// One FM3130.
#[derive(Clone, Debug, PartialEq, Eq)]
pub struct Device {
    pub registers: [u8; REGISTER_COUNT],
    pub core: Calendar,
    pub memory: Vec<u8>,
    pub power: Power,
    /// "Each of the two devices has its own address."
    pub memory_address: u16,
    /// "Each of the two devices has its own address."
    pub companion_address: u8,
    pub transfer: Transfer,
}

impl Device {
    /// "The fresh state has these registers and core, power on, no transfer,
    /// both addresses 0." Its memory is all 0.
    pub fn fresh() -> Device {
        let bus = Bus::fresh::<Device>();
        Device {
            registers: registers::registers_without_supply(),
            core: registers::core_without_supply(),
            memory: vec![0; MEMORY_BYTES],
            power: bus.power,
            memory_address: bus.memory_address,
            companion_address: bus.companion_address,
            transfer: bus.transfer,
        }
    }

    /// One event and its answer byte; what a tick says is dropped.
    pub fn event(&mut self, event: u8) -> u8 {
        let (answer, _dropped) = self.event_told(event);
        answer
    }

    /// One event, its answer byte and what rolled over. 02, number 4: "Let the
    /// tick itself say the highest field that changed"; "answer bytes stay the
    /// same". All other events say nothing.
    pub fn event_told(&mut self, event: u8) -> (u8, Rolled) {
        let mut rolled = Rolled::Nothing;
        let mut line_is_high = true;
        match event {
            TICK => rolled = self.tick(),
            START..=POWER_RETURNED => line_is_high = self.bus_event(event),
            _ => panic!("events are 0 to 7"),
        }
        (self.answer(line_is_high), rolled)
    }

    /// The events of a list, one by one.
    pub fn run(&mut self, events: &[u8]) -> Vec<u8> {
        let mut answers = Vec::new();
        for event in events {
            answers.push(self.event(*event));
        }
        answers
    }

    /// The same, with what rolled over at each event.
    pub fn run_told(&mut self, events: &[u8]) -> Vec<(u8, Rolled)> {
        events.iter().map(|event| self.event_told(*event)).collect()
    }

    /// True when no transfer is under way.
    pub fn between_transfers(&self) -> bool {
        self.transfer.phase == Phase::BetweenTransfers
    }

    // ----- the answer -----

    /// "Bits 2 and 1 are the ACS pin's function after the event". "Bit 3 is 1
    /// exactly when the function is alarm and AF is 1. Bits 4 to 7 are 0."
    fn answer(&self, line_is_high: bool) -> u8 {
        let function = self.pin_function();
        let alarm_flag =
            registers::is_set(self.registers[registers::CONTROL], registers::ALARM_FLAG);
        let alarm_shown = function == PinFunction::Alarm && alarm_flag;
        u8::from(line_is_high) + 2 * function.number() + 8 * u8::from(alarm_shown)
    }

    /// "Released whenever power is lost with no backup."
    pub fn pin_function(&self) -> PinFunction {
        if self.power == Power::Gone {
            PinFunction::Released
        } else {
            registers::pin_function_by_registers(&self.registers)
        }
    }

    // ----- ticks -----

    /// "A tick counts if OSCEN is 0 and power or backup is present." "A tick
    /// that does not count changes nothing." 02, number 4: "A tick that does not
    /// count, or finds an invalid core, says nothing."
    fn tick(&mut self) -> Rolled {
        let supplied = self.power != Power::Gone;
        if supplied && registers::oscillator_runs(&self.registers) {
            registers::tick_that_counts(&mut self.registers, &mut self.core)
        } else {
            Rolled::Nothing
        }
    }
}

impl Part for Device {
    const FIRST_COMPANION_ADDRESS: u8 = 0x00;
    const LAST_COMPANION_ADDRESS: u8 = LAST_COMPANION_ADDRESS;

    fn size(&self) -> Size {
        Size::Kilobits64
    }

    fn memory(&self) -> &[u8] {
        &self.memory
    }

    fn memory_mut(&mut self) -> &mut [u8] {
        &mut self.memory
    }

    fn bus(&self) -> Bus {
        Bus {
            selects: 0,
            power: self.power,
            memory_address: self.memory_address,
            companion_address: self.companion_address,
            transfer: self.transfer,
        }
    }

    fn set_bus(&mut self, bus: Bus) {
        self.power = bus.power;
        self.memory_address = bus.memory_address;
        self.companion_address = bus.companion_address;
        self.transfer = bus.transfer;
    }

    fn protection(&self) -> u8 {
        registers::protection(&self.registers)
    }

    fn register_to_send(&self, address: u8) -> u8 {
        self.registers[usize::from(address)]
    }

    fn finish_reading(&mut self, address: u8, byte_sent: u8) {
        registers::finish_reading_register(&mut self.registers, usize::from(address), byte_sent);
    }

    fn refuses(&self, address: u8, byte: u8) -> bool {
        registers::is_refused(&self.registers, usize::from(address), byte)
    }

    fn write_register(&mut self, address: u8, byte: u8) {
        let address = usize::from(address);
        registers::write_register(&mut self.registers, &mut self.core, address, byte);
    }

    /// "registers become all 0 but OSCEN, POR and LB, which are 1, and day, date
    /// and month, which are 1; the core holds the same date".
    fn registers_lose_last_supply(&mut self) {
        self.registers = registers::registers_without_supply();
        self.core = registers::core_without_supply();
    }

    fn set_power_on_reset(&mut self) {
        self.registers[registers::CONTROL] |= registers::POWER_ON_RESET;
    }
}
