// SPDX-License-Identifier: Apache-2.0
//! States handed in: between transfers, within the limits of 01, but not always
//! ones that events reach from the fresh state.

use super::random_source::RandomSource;
use super::script::Script;
use super::transactions::{doubtful_calendar, plausible_alarm, plausible_calendar};
use crate::calendar::Calendar;
use crate::device::{Device, Power, LAST_MEMORY_ADDRESS};
use crate::registers::{Registers, OSCILLATOR_HALTED, STORED_BITS};

/// Everything of a device between transfers but its memory.
#[derive(Clone, Copy, Debug, PartialEq, Eq)]
pub struct StartingState {
    pub registers: Registers,
    pub core: Calendar,
    pub power: Power,
    pub memory_address: u16,
    pub companion_address: u8,
}

impl StartingState {
    /// "The fresh state".
    pub fn fresh() -> StartingState {
        let fresh = Device::fresh();
        StartingState {
            registers: fresh.registers,
            core: fresh.core,
            power: fresh.power,
            memory_address: fresh.memory_address,
            companion_address: fresh.companion_address,
        }
    }

    /// The oscillator runs, 00h holds `control`, 02h to 08h `shown`, and an
    /// alarm comes every second; all else is fresh.
    pub fn running(control: u8, shown: Calendar, core: Calendar) -> StartingState {
        let mut state = StartingState::fresh();
        state.registers[0x00] = control;
        state.registers[0x01] = 0x00;
        state.registers[0x02..=0x08].copy_from_slice(&shown.to_bytes());
        state.registers[0x09..=0x0D].copy_from_slice(&[0x80; 5]);
        state.core = core;
        state
    }

    /// The device in this state; its memory is all 0.
    pub fn device(&self) -> Device {
        let mut device = Device::fresh();
        device.registers = self.registers;
        device.core = self.core;
        device.power = self.power;
        device.memory_address = self.memory_address;
        device.companion_address = self.companion_address;
        device
    }
}

/// What a list on a device without main power may begin with: two power events or
/// ticks, power back, and reads that show both addresses.
pub fn power_back(source: &mut RandomSource) -> Script {
    let mut script = Script::new();
    for _ in 0..2 {
        script.event(source.pick(&[4, 5, 6, 6, 7]));
    }
    script.power_returned().memory_read_current(1);
    script.companion_read_current(1);
    script
}

/// Puts a beginning in place of a list's first events, so that its length stays.
pub fn begin_with(beginning: &Script, events: &mut [u8]) {
    for (event, first) in events.iter_mut().zip(&beginning.events) {
        *event = *first;
    }
}

/// "bits that the register map fixes at 0 are 0 (also in the calendar core)"
pub fn within_stored_bits(calendar: Calendar) -> Calendar {
    let mut bytes = calendar.to_bytes();
    for (byte, stored) in bytes.iter_mut().zip(&STORED_BITS[0x02..=0x08]) {
        *byte &= stored;
    }
    Calendar::from_bytes(bytes)
}

/// Seven bytes, valid more often than not.
pub fn any_calendar(source: &mut RandomSource) -> Calendar {
    let calendar = match source.below(10) {
        0..=5 => plausible_calendar(source),
        6..=8 => doubtful_calendar(source),
        _ => {
            let mut bytes = [0; 7];
            bytes.copy_from_slice(&source.bytes(7));
            Calendar::from_bytes(bytes)
        }
    };
    within_stored_bits(calendar)
}

/// Any state within the limits and between transfers; most often powered and
/// running. Both addresses may be any under every supply: 01's limits do not tie
/// them to the power. Without main power they are sometimes 0, as a loss of power
/// leaves them.
pub fn any_state(source: &mut RandomSource) -> StartingState {
    let mut state = StartingState::fresh();
    for (register, stored) in state.registers.iter_mut().zip(STORED_BITS) {
        *register = source.byte() & stored;
    }
    if source.chance(80) {
        state.registers[0x01] &= !OSCILLATOR_HALTED;
    }
    state.core = any_calendar(source);
    let shown = any_calendar(source);
    state.registers[0x02..=0x08].copy_from_slice(&shown.to_bytes());
    if source.chance(70) {
        let alarm = plausible_alarm(source, state.core);
        for (place, byte) in alarm.iter().enumerate() {
            state.registers[0x09 + place] = byte & STORED_BITS[0x09 + place];
        }
    }
    state.power = source.pick(&[Power::On, Power::On, Power::On, Power::Backup, Power::Gone]);
    if state.power == Power::On || source.chance(70) {
        state.memory_address = source.next_number() as u16 & LAST_MEMORY_ADDRESS;
        state.companion_address = source.below(15) as u8;
    }
    state
}
