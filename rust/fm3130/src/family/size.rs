// SPDX-License-Identifier: Apache-2.0
//! The sizes of the family.

use std::fmt;

/// A size of the family. An image does not say its size: whoever calls chooses it.
///
/// ```
/// use fm3130::family::Size;
///
/// assert_eq!(Size::Kb64.bytes(), 8_192);
/// assert_eq!(Size::Kb256.bytes(), 32_768);
/// assert_eq!(Size::Kb256.to_string(), "FM31256");
/// ```
#[derive(Clone, Copy, Debug, PartialEq, Eq, Hash)]
pub enum Size {
    /// 64Kb: 8,192 bytes, the FM3164.
    Kb64,
    /// 256Kb: 32,768 bytes, the FM31256.
    Kb256,
}

impl Size {
    /// Both.
    pub const ALL: [Size; 2] = [Size::Kb64, Size::Kb256];

    /// The bytes of the memory.
    pub const fn bytes(self) -> usize {
        match self {
            Size::Kb64 => 8_192,
            Size::Kb256 => 32_768,
        }
    }
}

/// The part's name.
impl fmt::Display for Size {
    fn fmt(&self, formatter: &mut fmt::Formatter<'_>) -> fmt::Result {
        formatter.write_str(match self {
            Size::Kb64 => "FM3164",
            Size::Kb256 => "FM31256",
        })
    }
}

/// A size as a type, so that a device of one size cannot be taken for one of the other. There are no
/// types of it but these two.
pub trait ChosenSize: sealed::Sealed + Clone + PartialEq + Eq {
    /// The size.
    const SIZE: Size;
}

/// The 64Kb size as a type.
#[derive(Clone, Debug, PartialEq, Eq)]
pub struct Kb64;

/// The 256Kb size as a type.
#[derive(Clone, Debug, PartialEq, Eq)]
pub struct Kb256;

impl ChosenSize for Kb64 {
    const SIZE: Size = Size::Kb64;
}

impl ChosenSize for Kb256 {
    const SIZE: Size = Size::Kb256;
}

mod sealed {
    pub trait Sealed {}
    impl Sealed for super::Kb64 {}
    impl Sealed for super::Kb256 {}
}
