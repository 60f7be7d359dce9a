// SPDX-License-Identifier: Apache-2.0
//! The larger family (02, number 5): the part with event counters and a serial
//! number, in 64Kb and 256Kb, after documents 001 and 003.
//!
//! * [`registers`]: 09h to 18h, the counters, the frozen reads, the lock.
//! * [`device`]: the part on its bus, one event at a time.
//! * [`state`]: a state by value, and the limits on it.
//! * [`entries`]: one event, a list and the viewer, with their refusals.
//! * [`set`]: one to four of them on one line (02, number 12).

pub mod device;
pub mod entries;
pub mod registers;
pub mod set;
pub mod state;

pub use crate::size::{Size, SIZES};
pub use device::{Device, EDGE_ON_CNT1, EDGE_ON_CNT2};
pub use entries::{run, step, view, Answered, Stepped};
pub use set::{run_set, Member, Set, SetAnswered};
pub use state::State;
