// SPDX-License-Identifier: Apache-2.0
//! The FM3130 in plain Rust, as a programmer writes it who wants it fast: one state, changed in place, and a match on
//! the phase. The pin's bits are kept and renewed only where 00h, 0Eh or the supplies change. Nothing of it is proved.

use second::MEMORY_BYTES;

pub type Memory = [u8; MEMORY_BYTES];

#[derive(Clone, Copy, PartialEq, Eq)]
enum Power {
    On,
    Backup,
    Gone,
}

#[derive(Clone, Copy, PartialEq, Eq)]
enum Phase {
    Idle,
    Slave,
    AddressHigh,
    AddressLow,
    Pointer,
    WriteMemory,
    WriteCompanion,
    ReadMemory,
    ReadCompanion,
}

/// The device without its memory. A transfer exists only while main power is present.
#[derive(Clone)]
pub struct Device {
    registers: [u8; 15],
    core: [u8; 7],
    companion_address: u8,
    memory_address: u16,
    power: Power,
    phase: Phase,
    clocks: u8,
    byte: u8,
    first_address_byte: u8,
    pin: u8,
}

const LB: u8 = 0x80;
const AF: u8 = 0x40;
const CF: u8 = 0x20;
const POR: u8 = 0x10;
const AEN: u8 = 0x08;
const CAL: u8 = 0x04;
const W: u8 = 0x02;
const R: u8 = 0x01;
const OSCEN: u8 = 0x80;
const MATCH: u8 = 0x80;
const ALSW: u8 = 0x80;

const CONTROL: usize = 0;
const TRIM: usize = 1;
const ALARM: usize = 9;
const SETUP: usize = 14;

const SECONDS: usize = 0;
const MINUTES: usize = 1;
const HOURS: usize = 2;
const DAY: usize = 3;
const DATE: usize = 4;
const MONTH: usize = 5;
const YEAR: usize = 6;

const STORED_BITS: [u8; 15] = [
    0xFF, 0xBF, 0x7F, 0x7F, 0x3F, 0x07, 0x3F, 0x1F, 0xFF, 0xFF, 0xFF, 0xBF, 0xBF, 0x9F, 0xFF,
];
const PROTECTED_BELOW: [u16; 4] = [0, 0x0800, 0x1000, 0x2000];
const MONTH_LENGTHS: [u8; 13] = [0, 31, 28, 31, 30, 31, 30, 31, 31, 30, 31, 30, 31];
const REGISTERS_WITHOUT_SUPPLY: [u8; 15] = [LB | POR, OSCEN, 0, 0, 0, 1, 1, 1, 0, 0, 0, 0, 0, 0, 0];
const LAST_ADDRESS: u16 = 0x1FFF;

// ----- the calendar -----

fn number_of(bcd: u8) -> u8 {
    (bcd >> 4) * 10 + (bcd & 15)
}

fn is_number_between(bcd: u8, low: u8, top: u8) -> bool {
    bcd & 15 <= 9 && (low..=top).contains(&number_of(bcd))
}

fn month_length(core: &[u8; 7]) -> u8 {
    match (number_of(core[MONTH]), number_of(core[YEAR]) % 4) {
        (2, 0) => 29,
        (month, _) => MONTH_LENGTHS.get(usize::from(month)).copied().unwrap_or(0),
    }
}

fn is_valid(core: &[u8; 7]) -> bool {
    is_number_between(core[SECONDS], 0, 59)
        && is_number_between(core[MINUTES], 0, 59)
        && is_number_between(core[HOURS], 0, 23)
        && (1..=7).contains(&core[DAY])
        && is_number_between(core[MONTH], 1, 12)
        && is_number_between(core[YEAR], 0, 99)
        && is_number_between(core[DATE], 1, month_length(core))
}

/// A field one up, or back at `low` after `top`; whether it carries.
fn carries(field: &mut u8, low: u8, top: u8) -> bool {
    if number_of(*field) == top {
        *field = low;
        return true;
    }
    *field += if *field & 15 == 9 { 7 } else { 1 };
    false
}

/// The next second of a valid core; whether year 99 gave way to 00.
fn next_second(core: &mut [u8; 7]) -> bool {
    if !carries(&mut core[SECONDS], 0, 59)
        || !carries(&mut core[MINUTES], 0, 59)
        || !carries(&mut core[HOURS], 0, 23)
    {
        return false;
    }
    let length = month_length(core);
    carries(&mut core[DAY], 1, 7);
    carries(&mut core[DATE], 1, length)
        && carries(&mut core[MONTH], 1, 12)
        && carries(&mut core[YEAR], 0, 99)
}

fn agrees(alarm: u8, field: u8) -> bool {
    alarm & MATCH != 0 || alarm == field
}

fn phase_after_slave_byte(byte: u8) -> Phase {
    match byte {
        0xA0 => Phase::AddressHigh,
        0xA1 => Phase::ReadMemory,
        0xD0 => Phase::Pointer,
        0xD1 => Phase::ReadCompanion,
        _ => Phase::Idle,
    }
}

impl Device {
    pub fn fresh() -> Device {
        let mut device = Device {
            registers: REGISTERS_WITHOUT_SUPPLY,
            core: [0, 0, 0, 1, 1, 1, 0],
            companion_address: 0,
            memory_address: 0,
            power: Power::On,
            phase: Phase::Idle,
            clocks: 0,
            byte: 0,
            first_address_byte: 0,
            pin: 0,
        };
        device.renew_pin();
        device
    }

    /// All events, one by one.
    pub fn run(&mut self, memory: &mut Memory, events: &[u8], answers: &mut [u8]) {
        for (event, answer) in events.iter().zip(answers) {
            *answer = self.event(memory, *event);
        }
    }

    fn event(&mut self, memory: &mut Memory, event: u8) -> u8 {
        let mut line = 1;
        match event {
            0 => self.start(),
            1 => self.begin_byte(Phase::Idle),
            2 | 3 => line = self.clock(memory, event & 1),
            4 => self.tick(),
            5 => self.lose_main_power(),
            6 => self.lose_all_supplies(),
            _ => self.return_power(),
        }
        self.pin | line
    }

    // ----- the pin -----

    fn pin_function(&self) -> u8 {
        let control = self.registers[CONTROL];
        if self.power == Power::Gone {
            0
        } else if control & CAL != 0 {
            3
        } else if self.registers[SETUP] & ALSW == 0 {
            2
        } else {
            u8::from(control & AEN != 0)
        }
    }

    fn renew_pin(&mut self) {
        let function = self.pin_function();
        let rings = function == 1 && self.registers[CONTROL] & AF != 0;
        self.pin = function << 1 | u8::from(rings) << 3;
    }

    // ----- the bus -----

    fn begin_byte(&mut self, phase: Phase) {
        self.phase = phase;
        self.clocks = 0;
        self.byte = 0;
        self.first_address_byte = 0;
    }

    fn start(&mut self) {
        if self.power == Power::On {
            self.begin_byte(Phase::Slave);
        }
    }

    /// A Clock; the line.
    fn clock(&mut self, memory: &mut Memory, high: u8) -> u8 {
        match self.phase {
            Phase::Idle => high,
            Phase::ReadMemory | Phase::ReadCompanion => self.clock_sent(memory, high),
            _ => self.clock_received(memory, high),
        }
    }

    fn clock_received(&mut self, memory: &mut Memory, high: u8) -> u8 {
        if self.clocks == 8 {
            self.acknowledge();
            return 0;
        }
        self.byte = self.byte << 1 | high;
        self.clocks += 1;
        if self.clocks == 8 {
            self.take_byte(memory);
        }
        high
    }

    /// The eighth clock: the byte is whole and acts. What is not acknowledged ends the transfer here.
    fn take_byte(&mut self, memory: &mut Memory) {
        let byte = self.byte;
        match self.phase {
            Phase::Slave if phase_after_slave_byte(byte) == Phase::Idle => {
                self.begin_byte(Phase::Idle);
            }
            Phase::AddressLow => {
                let both = u16::from(self.first_address_byte) << 8 | u16::from(byte);
                self.memory_address = both & LAST_ADDRESS;
            }
            Phase::Pointer if usize::from(byte) > SETUP => self.begin_byte(Phase::Idle),
            Phase::Pointer => self.companion_address = byte,
            Phase::WriteMemory => self.put_into_memory(memory, byte),
            Phase::WriteCompanion => {
                if self.loads_no_date(byte) {
                    self.begin_byte(Phase::Idle);
                } else {
                    self.write_register(byte);
                }
                self.step_companion_address();
            }
            _ => {}
        }
    }

    fn put_into_memory(&mut self, memory: &mut Memory, byte: u8) {
        let guard = usize::from(self.registers[SETUP] >> 3 & 3);
        if self.memory_address < PROTECTED_BELOW[guard] {
            self.begin_byte(Phase::Idle);
        } else {
            memory[usize::from(self.memory_address & LAST_ADDRESS)] = byte;
        }
        self.step_memory_address();
    }

    /// The ninth clock of a byte that is acknowledged: what comes next.
    fn acknowledge(&mut self) {
        let byte = self.byte;
        let next = match self.phase {
            Phase::Slave => phase_after_slave_byte(byte),
            Phase::AddressHigh => Phase::AddressLow,
            Phase::AddressLow => Phase::WriteMemory,
            Phase::Pointer => Phase::WriteCompanion,
            same => same,
        };
        self.begin_byte(next);
        if next == Phase::AddressLow {
            self.first_address_byte = byte;
        }
    }

    fn clock_sent(&mut self, memory: &Memory, high: u8) -> u8 {
        if self.clocks == 8 {
            let next = if high == 1 { Phase::Idle } else { self.phase };
            self.begin_byte(next);
            return high;
        }
        if self.clocks == 0 {
            self.byte = self.byte_to_send(memory);
        }
        let bit = self.byte >> (7 - self.clocks) & 1;
        self.clocks += 1;
        if self.clocks == 8 {
            self.finish_read();
        }
        high & bit
    }

    fn byte_to_send(&self, memory: &Memory) -> u8 {
        if self.phase == Phase::ReadMemory {
            memory[usize::from(self.memory_address & LAST_ADDRESS)]
        } else {
            self.registers[usize::from(self.companion_address)]
        }
    }

    fn finish_read(&mut self) {
        if self.phase == Phase::ReadMemory {
            self.step_memory_address();
            return;
        }
        if usize::from(self.companion_address) == CONTROL {
            self.registers[CONTROL] &= !(self.byte & (AF | CF));
            self.renew_pin();
        }
        self.step_companion_address();
    }

    fn step_memory_address(&mut self) {
        self.memory_address = (self.memory_address + 1) & LAST_ADDRESS;
    }

    fn step_companion_address(&mut self) {
        let last = usize::from(self.companion_address) == SETUP;
        self.companion_address = if last { 0 } else { self.companion_address + 1 };
    }

    // ----- the registers -----

    fn time_takes_core(&mut self) {
        self.registers[2..9].copy_from_slice(&self.core);
    }

    fn write_control(&mut self, byte: u8) {
        let old = self.registers[CONTROL];
        self.registers[CONTROL] =
            byte & (AEN | CAL | W | R) | old & byte & (LB | POR) | old & (AF | CF);
        if old & W != 0 && byte & W == 0 {
            self.core.copy_from_slice(&self.registers[2..9]);
        }
        if old & R == 0 && byte & R != 0 || byte & (W | R) == 0 {
            self.time_takes_core();
        }
        self.renew_pin();
    }

    /// A write of 00h in which W falls while 02h to 08h are no calendar.
    fn loads_no_date(&self, byte: u8) -> bool {
        usize::from(self.companion_address) == CONTROL
            && self.registers[CONTROL] & W != 0
            && byte & W == 0
            && !self.registers[2..].first_chunk().is_some_and(is_valid)
    }

    fn write_register(&mut self, byte: u8) {
        let address = usize::from(self.companion_address);
        let control = self.registers[CONTROL];
        if address == CONTROL {
            self.write_control(byte);
        } else if address == TRIM {
            let kept = if control & CAL != 0 {
                byte
            } else {
                self.registers[TRIM]
            };
            self.registers[TRIM] = byte & OSCEN | kept & 0x3F;
        } else if address >= ALARM || control & W != 0 {
            self.registers[address] = byte & STORED_BITS[address];
            if address == SETUP {
                self.renew_pin();
            }
        }
    }

    fn alarm_matches(&self) -> bool {
        let alarm = &self.registers[ALARM..SETUP];
        agrees(alarm[0], self.core[SECONDS])
            && agrees(alarm[1], self.core[MINUTES])
            && agrees(alarm[2], self.core[HOURS])
            && agrees(alarm[3], self.core[DATE])
            && agrees(alarm[4], self.core[MONTH])
    }

    fn tick(&mut self) {
        if self.power == Power::Gone || self.registers[TRIM] & OSCEN != 0 {
            return;
        }
        if is_valid(&self.core) {
            if next_second(&mut self.core) {
                self.registers[CONTROL] |= CF;
            }
            if self.alarm_matches() {
                self.registers[CONTROL] |= AF;
                self.renew_pin();
            }
        }
        if self.registers[CONTROL] & (W | R) == 0 {
            self.time_takes_core();
        }
    }

    // ----- the supplies -----

    fn lose_transfer(&mut self) {
        self.begin_byte(Phase::Idle);
        self.memory_address = 0;
        self.companion_address = 0;
    }

    fn lose_main_power(&mut self) {
        if self.power == Power::On {
            self.lose_transfer();
            self.power = Power::Backup;
        }
    }

    fn lose_all_supplies(&mut self) {
        if self.power == Power::Gone {
            return;
        }
        self.lose_transfer();
        self.power = Power::Gone;
        self.registers = REGISTERS_WITHOUT_SUPPLY;
        self.core.copy_from_slice(&REGISTERS_WITHOUT_SUPPLY[2..9]);
        self.renew_pin();
    }

    fn return_power(&mut self) {
        if self.power == Power::Backup {
            self.registers[CONTROL] |= POR;
        }
        self.power = Power::On;
        self.renew_pin();
    }
}
