// SPDX-License-Identifier: Apache-2.0
//! The second program: a plain model of one FM3130, and of the larger family.
//!
//! It was written from documents alone: the rules (01, whose rulings decide
//! first), the customers' requests (02) and the data sheets (000; for the family
//! 003 and 001). No other program about the part was read. Comments quote the sentence of 01 or 02
//! that a rule comes from; the places where they left a choice are numbered in
//! `READINGS.md`.
//!
//! * [`calendar`]: the seven calendar bytes and the next second.
//! * [`registers`]: the 15 registers, what a write stores, ticks, the alarm.
//! * [`rolled`]: what a tick says about itself.
//! * [`bus`]: transfers, memory and power of every part; [`size`]: its memory.
//! * [`device`]: the FM3130; its events and their answers.
//! * [`state`]: a device's state by value, and 01's limits on it.
//! * [`refusal`]: the numbers of refusals.
//! * [`family`]: the larger family, with event counters and a serial number.
//! * [`mend`]: mending a calendar.
//! * [`catch_up`]: many ticks in one call, by plain counting and by day numbers.
//! * [`day_numbers`]: the count by day numbers, which stands by itself.
//! * [`trim`]: trim settings of another maker's clock.
//! * [`wire`]: the master's side of one whole transaction.
//! * [`capture`]: judging a capture file, and writing one.
//! * [`proving_record`], [`proving_history`]: eight lamps and their reports, event
//!   by event and from the whole history.
//! * [`next_line`]: what the device will do to the line, told before the Clock.
//! * [`two_masters`]: who holds the bus, and calls by either master.
//! * [`host`]: small helpers that play the bus master.
//! * [`table`]: the cases K1 to K12 of 01, run over the bus.
//! * [`generate`]: lists of events to run on this and on another program.

pub mod bus;
pub mod calendar;
pub mod capture;
pub mod catch_up;
pub mod day_numbers;
pub mod device;
pub mod family;
pub mod generate;
pub mod host;
pub mod mend;
pub mod next_line;
pub mod proving_history;
pub mod proving_record;
pub mod refusal;
pub mod registers;
pub mod rolled;
pub mod size;
pub mod state;
pub mod table;
pub mod trim;
pub mod two_masters;
pub mod wire;

pub use calendar::Calendar;
pub use device::{Device, LogicalDevice, Phase, Power, Transfer};
pub use registers::PinFunction;
pub use rolled::Rolled;
pub use state::State;

/// "8,192 bytes of FRAM".
pub const MEMORY_BYTES: usize = 8192;

/// "15 registers 00h to 0Eh".
pub const REGISTER_COUNT: usize = 15;
