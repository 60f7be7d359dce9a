// SPDX-License-Identifier: Apache-2.0
//! The event bytes of the family: those of the FM3130, and edges on the counters' pins.
//!
//! ```
//! use fm3130::family::{event, Fm3164, Refusal};
//!
//! let mut device = Fm3164::fresh();
//! assert_eq!(device.step(event::EDGE_2), Ok(1));
//! assert_eq!(device.step(event::LAST + 1), Err(Refusal::UnknownEvent));
//! ```

pub use crate::event::{
    clock, read_byte, written_byte, CLOCK_HIGH, CLOCK_LOW, POWER_LOST_WITHOUT_BACKUP,
    POWER_LOST_WITH_BACKUP, POWER_RETURNED, START, STOP, TICK,
};

/// An edge on CNT1, already filtered by its polarity.
pub const EDGE_1: u8 = 8;
/// An edge on CNT2, already filtered by its polarity.
pub const EDGE_2: u8 = 9;

/// The greatest event byte; a list with a greater one is refused.
pub const LAST: u8 = EDGE_2;
