// SPDX-License-Identifier: Apache-2.0
//! The select bits of a device.

use std::fmt;

/// Two select bits: bits 2 and 1 of a slave byte that names the device. A device alone on its line has
/// [`Select::ZERO`].
///
/// ```
/// use fm3130::family::Select;
///
/// assert_eq!(Select::new(2), Some(Select::TWO));
/// assert_eq!(Select::new(4), None);
/// assert_eq!((Select::TWO.memory_byte(), Select::TWO.companion_byte()), (0xA4, 0xD4));
/// assert_eq!(Select::TWO.to_string(), "2");
/// ```
#[derive(Clone, Copy, Debug, PartialEq, Eq, Hash, PartialOrd, Ord)]
pub struct Select(u8);

impl Select {
    /// 00.
    pub const ZERO: Select = Select(0);
    /// 01.
    pub const ONE: Select = Select(1);
    /// 10.
    pub const TWO: Select = Select(2);
    /// 11.
    pub const THREE: Select = Select(3);

    /// All four.
    pub const ALL: [Select; 4] = [Select::ZERO, Select::ONE, Select::TWO, Select::THREE];

    /// The select bits of a number; none above 3.
    pub const fn new(bits: u8) -> Option<Select> {
        match bits {
            0..=3 => Some(Select(bits)),
            _ => None,
        }
    }

    /// The number, 0 to 3.
    pub const fn bits(self) -> u8 {
        self.0
    }

    /// The slave byte that names the device's memory for writing; one more is for reading.
    pub const fn memory_byte(self) -> u8 {
        self.named(super::transaction::MEMORY)
    }

    /// The slave byte that names the device's companion for writing; one more is for reading.
    pub const fn companion_byte(self) -> u8 {
        self.named(super::transaction::COMPANION)
    }

    /// A slave byte that names select bits 00, with these instead.
    pub(crate) const fn named(self, slave_byte: u8) -> u8 {
        slave_byte | self.0 << 1
    }
}

/// The number.
impl fmt::Display for Select {
    fn fmt(&self, formatter: &mut fmt::Formatter<'_>) -> fmt::Result {
        self.0.fmt(formatter)
    }
}
