// SPDX-License-Identifier: Apache-2.0
//! A register that was put right.

use std::fmt;

use crate::registers::{CALENDAR_FIELDS, FIRST_CALENDAR};
use crate::CHANGE_BYTES;

/// A register that [`crate::Device::mend`] changed.
///
/// ```
/// let change = fm3130::Change { register: 0x05, old: 0x00, new: 0x01 };
/// assert_eq!(change.field(), "day");
/// assert_eq!(change.to_string(), "05h day: 00h to 01h");
/// ```
#[derive(Clone, Copy, Debug, PartialEq, Eq, Hash)]
pub struct Change {
    /// The register's number, 02h to 08h.
    pub register: u8,
    /// The byte that it held.
    pub old: u8,
    /// The byte that it holds now.
    pub new: u8,
}

impl Change {
    /// The changes at the front of a list of the archive.
    pub(crate) fn all_of(list: &[u8], count: usize) -> Vec<Change> {
        list.chunks_exact(CHANGE_BYTES)
            .take(count)
            .map(|bytes| Change {
                register: bytes[0],
                old: bytes[1],
                new: bytes[2],
            })
            .collect()
    }

    /// What the register counts: seconds, minutes, hours, day, date, month or year; empty if it is no
    /// register of the calendar.
    pub fn field(self) -> &'static str {
        usize::from(self.register)
            .checked_sub(FIRST_CALENDAR)
            .and_then(|place| CALENDAR_FIELDS.get(place).copied())
            .unwrap_or("")
    }
}

/// The register, what it counts, and its two bytes.
impl fmt::Display for Change {
    fn fmt(&self, formatter: &mut fmt::Formatter<'_>) -> fmt::Result {
        write!(
            formatter,
            "{:02X}h {}: {:02X}h to {:02X}h",
            self.register,
            self.field(),
            self.old,
            self.new
        )
    }
}
