// SPDX-License-Identifier: Apache-2.0
//! A stand-in for the FM3130, a clock-and-memory chip on a two-wire bus: 8,192 bytes of FRAM,
//! fifteen registers, a calendar and an alarm.
//!
//! What the device does is proved; the proved program is an archive with a C interface, and this
//! crate is its safe face in Rust. It adds no rule of the device: every event goes to the archive.
//! The rules are those of the scope paper, called 01 here.
//!
//! * [`Device`] owns a state and its memory, takes lists of events, and reads and writes its memory
//!   over the bus.
//! * [`master`] is the other end of the wire: whole transactions, and what their answers tell.
//! * [`event`] names the event bytes; [`Answer`] reads the answer bytes; [`selector`] names what a
//!   viewer can show.
//! * [`State`], [`Calendar`], [`Pin`] and [`registers`] say in words what a state holds.
//! * [`Rolled`] says which field of the calendar a tick changed.
//! * [`Device::mend`] puts an impossible date or time right; [`Change`] is a register that it changed.
//! * [`masters`] shares a device between two masters: who holds the bus, and what is refused.
//! * [`NextLine`] says what the device will do to the line, before a clock rises.
//! * [`run`], [`run_with_lamps`], [`step`], [`next_line`], [`catch_up`], [`ask`], [`call`], [`fresh`], [`view`] and [`mend`] are the
//!   archive's entries on slices of any length.
//! * [`Refusal`] is why an entry did nothing, with 01's number.
//! * [`capture`] writes and judges captures: a recorded run in one file.
//! * [`Lamps`] is the proving record beside a device: which of eight lamps may be shown lit.
//! * [`family`] is the larger family, with event counters and a serial number: [`family::Fm3164`] and
//!   [`family::Fm31256`].
//! * [`trim`] proposes and checks trim settings of another maker's clock; it needs no device.
//!
//! No function of this crate panics, whatever it is given.
//!
//! ```
//! use fm3130::{event, Device};
//!
//! // Start, slave byte A0h high bit first, acknowledge clock, Stop.
//! let mut device = Device::fresh();
//! let answers = device.run(&[0, 3, 2, 3, 2, 2, 2, 2, 2, 3, 1])?;
//! assert_eq!(answers, [5, 5, 4, 5, 4, 4, 4, 4, 4, 4, 5]);
//!
//! // Bytes go to the memory and come back over the bus, without a clock to be known.
//! device.write(0x1000, &[0x01]).unwrap();
//! assert_eq!(device.read(0x1000, 1).unwrap(), [0x01]);
//!
//! // Seconds pass only when the oscillator runs: a fresh device has it halted.
//! device.run(&[event::TICK; 60])?;
//! assert_eq!(device.calendar().to_string(), "00:00:00, 01/01/00, day 1");
//! # Ok::<(), fm3130::Refusal>(())
//! ```

#![deny(missing_docs)]
#![forbid(unsafe_code)]

mod answer;
mod calendar;
pub mod capture;
mod change;
mod device;
mod entries;
pub mod event;
pub mod family;
mod lamps;
mod line;
pub mod master;
pub mod masters;
mod refusal;
pub mod registers;
mod report;
mod rolled;
pub mod selector;
mod state;
pub mod trim;

pub use answer::{Answer, Pin, PinFunction};
pub use calendar::Calendar;
pub use change::Change;
pub use device::Device;
pub use entries::{ask, call, catch_up, fresh, mend, next_line, run, run_with_lamps, step, view};
pub use lamps::Lamps;
pub use line::NextLine;
pub use refusal::Refusal;
pub use report::Report;
pub use rolled::{Rolled, Told};
pub use state::{Phase, Power, Side, State};

/// The length of a state image.
pub const IMAGE_BYTES: usize = 64;

/// The length of the memory.
pub const MEMORY_BYTES: usize = 8192;

/// What a buffer of answers holds before it is written: the line high, which acknowledges nothing. A
/// refused event has this answer too (01).
///
/// ```
/// assert!(fm3130::Answer(fm3130::UNANSWERED).line_is_high());
/// ```
pub const UNANSWERED: u8 = 1;

/// The most ticks that [`catch_up`] does in one call, those of a leap year.
pub const MOST_TICKS: u64 = 31_622_400;

/// The length of the proving record's bytes.
pub const RECORD_BYTES: usize = 20;

/// The number of registers, 00h to 0Eh; they are the first bytes of an image.
pub const REGISTER_COUNT: usize = 15;

/// What [`mend`] lists of a register: its number, the old byte, the new byte.
pub const CHANGE_BYTES: usize = 3;

/// Room for every list of [`mend`]: all seven registers 02h to 08h.
pub const CHANGES_ROOM: usize = 7 * CHANGE_BYTES;
