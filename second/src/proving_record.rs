// SPDX-License-Identifier: Apache-2.0
//! The proving record (02, number 11), event by event: eight lamps whose reports
//! follow from what was read of them. [`crate::proving_history`] says the same by
//! looking back over the whole list of events.

use crate::device::{
    Device, LogicalDevice, Phase, Power, CLOCK_HIGH, CLOCK_LOW, POWER_LOST_WITHOUT_BACKUP,
    POWER_LOST_WITH_BACKUP, START, STOP, TICK,
};
use crate::state::State;

/// "Eight lamps".
pub const LAMPS: usize = 8;

/// "one byte each at 1000h to 1007h"
pub const FIRST_LAMP: u16 = 0x1000;

/// "1 lit": only this byte is.
pub const LIT: u8 = 1;

/// "fewer than three tick events"
pub const TICKS_TO_DARK: u32 = 3;

/// The lamp whose byte is at an address of a device's memory.
pub fn lamp_at(source: LogicalDevice, memory_address: u16) -> Option<usize> {
    if source != LogicalDevice::Memory {
        return None;
    }
    let lamp = usize::from(memory_address.checked_sub(FIRST_LAMP)?);
    (lamp < LAMPS).then_some(lamp)
}

/// Clocks are of a byte only while a transfer is on, and that is never without
/// main power.
pub fn transfer_is_on(state: &State) -> bool {
    state.power == Power::On && state.transfer.phase != Phase::BetweenTransfers
}

/// A lamp's byte that is being read, as the line shows it.
#[derive(Clone, Copy, Debug, PartialEq, Eq)]
struct ByteUnderWay {
    lamp: usize,
    byte: u8,
}

/// A whole read: the byte it gave, and the ticks since "the Stop that ended it".
#[derive(Clone, Copy, Debug, PartialEq, Eq)]
struct WholeRead {
    byte: u8,
    ticks: u32,
}

/// What is known of the bus and of the eight lamps.
#[derive(Clone, Copy, Debug, Default, PartialEq, Eq)]
pub struct ProvingRecord {
    /// The device refused a byte at its eighth clock; the ninth is to come.
    byte_was_refused: bool,
    byte_under_way: Option<ByteUnderWay>,
    /// Bytes with all nine clocks in a transaction that has not ended.
    read_in_transaction: [Option<u8>; LAMPS],
    /// "the last whole read of its byte, all of it after the last bus failure"
    last_whole_read: [Option<WholeRead>; LAMPS],
}

impl ProvingRecord {
    /// Nothing was read yet: all eight are dark.
    pub fn new() -> ProvingRecord {
        ProvingRecord::default()
    }

    /// "A report is lit exactly if the last whole read of its byte ... gave 1 and
    /// fewer than three tick events ... have passed since the Stop that ended
    /// it."
    pub fn reports(&self) -> [bool; LAMPS] {
        self.last_whole_read
            .map(|last| last.is_some_and(|read| read.byte == LIT && read.ticks < TICKS_TO_DARK))
    }

    /// One event of a device that the record follows; returns the answer.
    pub fn event(&mut self, device: &mut Device, event: u8) -> u8 {
        let before = State::of(device);
        let answer = device.event(event);
        self.follow(&before, event, answer, &State::of(device));
        answer
    }

    /// The events of a list; the reports after each.
    pub fn run(&mut self, device: &mut Device, events: &[u8]) -> Vec<[bool; LAMPS]> {
        let mut reports = Vec::new();
        for event in events {
            self.event(device, *event);
            reports.push(self.reports());
        }
        reports
    }

    /// Takes note of an event, its answer, and the states before and after it.
    pub fn follow(&mut self, before: &State, event: u8, answer: u8, after: &State) {
        match event {
            START | STOP => self.start_or_stop(before, event),
            CLOCK_LOW | CLOCK_HIGH => self.clock(before, answer, after),
            TICK => self.tick(),
            POWER_LOST_WITH_BACKUP | POWER_LOST_WITHOUT_BACKUP => self.bus_fails(),
            _ => {}
        }
    }

    /// "The bus fails, and all eight are dark at once"; reads that began before
    /// do not count any more.
    fn bus_fails(&mut self) {
        *self = ProvingRecord::new();
    }

    /// "counted by the device or not"
    fn tick(&mut self) {
        for read in self.last_whole_read.iter_mut().flatten() {
            read.ticks = read.ticks.saturating_add(1);
        }
    }

    /// The bus fails "at a Start or Stop with 1 to 8 clocks of a byte done".
    fn start_or_stop(&mut self, before: &State, event: u8) {
        if self.clocks_done(before) > 0 {
            self.bus_fails();
        } else if event == STOP {
            self.transaction_ends();
        }
    }

    /// A byte refused at its eighth clock still has eight clocks done.
    fn clocks_done(&self, before: &State) -> u8 {
        if self.byte_was_refused {
            8
        } else if transfer_is_on(before) {
            before.transfer.clocks
        } else {
            0
        }
    }

    /// "A whole read has all nine clocks and that Stop": all that were read in
    /// the transaction become whole.
    fn transaction_ends(&mut self) {
        for (lamp, byte) in self.read_in_transaction.iter_mut().enumerate() {
            if let Some(byte) = byte.take() {
                self.last_whole_read[lamp] = Some(WholeRead { byte, ticks: 0 });
            }
        }
    }

    fn clock(&mut self, before: &State, answer: u8, after: &State) {
        if self.byte_was_refused {
            // "at an acknowledge the device does not give"
            self.bus_fails();
        } else if transfer_is_on(before) {
            match before.transfer.phase {
                Phase::ReadData(source) => self.clock_of_byte_read(source, before, answer),
                _ => self.byte_was_refused = !transfer_is_on(after),
            }
        }
    }

    /// The byte is what the line shows in its eight clocks; its lamp is that of
    /// the memory address at the first.
    fn clock_of_byte_read(&mut self, source: LogicalDevice, before: &State, answer: u8) {
        if before.transfer.clocks == 0 {
            let lamp = lamp_at(source, before.memory_address);
            self.byte_under_way = lamp.map(|lamp| ByteUnderWay { lamp, byte: 0 });
        }
        if before.transfer.clocks < 8 {
            if let Some(under_way) = self.byte_under_way.as_mut() {
                under_way.byte = under_way.byte * 2 + (answer & 1);
            }
        } else if let Some(under_way) = self.byte_under_way.take() {
            self.read_in_transaction[under_way.lamp] = Some(under_way.byte);
        }
    }
}
