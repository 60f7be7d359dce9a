// SPDX-License-Identifier: Apache-2.0
//! What happens on the bus, from single events up to bytes with a meaning.
//!
//! [`play`] lets a device do the events of a source and shows every [`Moment`] to observers. One
//! observer is [`Grouping`]: it puts clocks together to bytes, and tells listeners what happened.

mod edges;
mod grouping;
mod happening;
mod meaning;
mod moment;
mod play;
mod resume;
mod set;
mod sleep;
mod ticks;

pub use edges::{word_of, EdgeReport};
pub use grouping::{play_to, Beside, Grouping, Listener};
pub use happening::{BusByte, BusClock, Direction, Happening, PowerChange};
pub use meaning::named_by;
pub use moment::{Moment, TickRun};
pub use play::{play, play_some, Observer, Outputs, Player, Recorded};
pub use ticks::TickReport;
