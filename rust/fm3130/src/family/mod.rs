// SPDX-License-Identifier: Apache-2.0
//! The larger family: the part with two event counters and a lockable serial number, in its 64Kb and
//! its 256Kb size.
//!
//! * [`Fm3164`] and [`Fm31256`] own a state and its memory, as [`crate::Device`] does for the FM3130:
//!   one type over the size, [`Part`].
//! * [`event`] names the event bytes; 8 and 9 are edges on the counters' pins.
//! * [`State`] and [`registers`] say in words what a state holds; [`Counts`] are its two counters.
//! * [`run`], [`step`], [`fresh`] and [`view`] are the archive's entries on slices of any length, for
//!   a [`Size`].
//! * [`Set`] is one to four devices on one line, each a [`Member`] with its [`Select`] bits; [`edge_1`]
//!   and [`edge_2`] are the edges of a device of a set.
//! * [`Refusal`] is why an entry did nothing, with its number; [`SetRefusal`] is that of a set.
//!
//! The rules of the part are in docs/FAMILY.md, and each is proved of the archive.
//!
//! ```
//! use fm3130::family::{event, registers, Fm3164};
//!
//! let mut device = Fm3164::fresh();
//! device.run(&[event::EDGE_1, event::EDGE_1, event::EDGE_2])?;
//! assert_eq!((device.counts().one(), device.counts().two()), (2, 1));
//!
//! // Frozen reads: RC takes a snapshot, and a count in between does not show.
//! device.write_registers(registers::COUNTING, &[registers::RC])?;
//! device.step(event::EDGE_1)?;
//! assert_eq!(device.read_registers(registers::COUNTER_1_LOW, 4)?, [2, 0, 1, 0]);
//! assert_eq!(device.counts().one(), 3);
//! # Ok::<(), fm3130::family::Refusal>(())
//! ```

mod entries;
pub mod event;
mod part;
mod refusal;
pub mod registers;
mod select;
mod set;
mod size;
mod state;
mod transaction;

pub use entries::{fresh, run, step, view};
pub use part::{Fm31256, Fm3164, Part};
pub use refusal::{Refusal, SetRefusal};
pub use select::Select;
pub use set::{edge_1, edge_2, Member, Set, MOST_MEMBERS};
pub use size::{ChosenSize, Kb256, Kb64, Size};
pub use state::{Counts, State};

/// The number of registers, 09h to 18h; they are the first bytes of an image.
pub const REGISTER_COUNT: usize = 16;
