// SPDX-License-Identifier: Apache-2.0
//! What the eight lamps of the proving record are.

use std::fmt;

/// The address of the first lamp's byte.
const FIRST_ADDRESS: u16 = 0x1000;

/// What the lamps are: bit k for the lamp whose byte is at 1000h + k.
///
/// ```
/// let report = fm3130::Report(0b0000_0101);
/// assert!(report.is_lit(0) && !report.is_lit(1) && report.is_lit(2));
/// assert_eq!(report.to_string(), "*.*.....");
/// ```
#[derive(Clone, Copy, Debug, Default, PartialEq, Eq, Hash)]
pub struct Report(pub u8);

impl Report {
    /// How many lamps there are.
    pub const LAMPS: u8 = 8;

    /// Whether a lamp is lit; one that is none of the eight is not.
    ///
    /// ```
    /// assert!(!fm3130::Report(0xFF).is_lit(8));
    /// ```
    pub fn is_lit(self, lamp: u8) -> bool {
        lamp < Report::LAMPS && self.0 >> lamp & 1 == 1
    }

    /// The address of a lamp's byte.
    ///
    /// ```
    /// assert_eq!(fm3130::Report::address_of(7), 0x1007);
    /// ```
    pub fn address_of(lamp: u8) -> u16 {
        FIRST_ADDRESS + u16::from(lamp)
    }
}

/// Lamp 0 first: `*` for lit, `.` for dark.
impl fmt::Display for Report {
    fn fmt(&self, formatter: &mut fmt::Formatter<'_>) -> fmt::Result {
        for lamp in 0..Report::LAMPS {
            formatter.write_str(if self.is_lit(lamp) { "*" } else { "." })?;
        }
        Ok(())
    }
}
