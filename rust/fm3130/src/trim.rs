// SPDX-License-Identifier: Apache-2.0
//! Trim settings of another maker's clock (document 002): proposed, checked, and what they leave.
//!
//! That clock's crystal is measured: its cycles over a 64-minute cycle, minus 125,829,120, are the
//! error, from -20,000 to 20,000. A [`Setting`] is a sign and a code of 0 to 31. Plus adds 512 cycles
//! a step and minus takes 256 away; what is left of the error is the residue. Nothing here needs a
//! device.
//!
//! ```
//! use fm3130::trim::{self, Setting, Sign, Verdict};
//!
//! let plus_1 = Setting { sign: Sign::Plus, code: 1 };
//! assert_eq!(trim::propose(-600), Some(plus_1));
//! assert_eq!(trim::residue(-600, plus_1), Some(-88));
//! assert_eq!(trim::check(-600, plus_1), Verdict::Accepted);
//! assert_eq!(trim::check(-601, Setting { code: 2, ..plus_1 }), Verdict::NotNearest);
//! assert_eq!(trim::check(20_001, plus_1), Verdict::ErrorOutOfRange);
//! ```

use std::fmt;

use fm3130_sys as archive;

/// The cycles of a crystal without an error, over a 64-minute cycle.
pub const CYCLES: i32 = 125_829_120;

/// The greatest error; its negation is the least.
pub const GREATEST_ERROR: i32 = 20_000;

/// The greatest code of a setting.
pub const LAST_CODE: u64 = 31;

/// Which way a setting goes.
#[derive(Clone, Copy, Debug, PartialEq, Eq, Hash)]
pub enum Sign {
    /// Adds 512 cycles a step.
    Plus,
    /// Takes 256 cycles away a step.
    Minus,
}

impl Sign {
    /// The number that the archive takes.
    fn number(self) -> u64 {
        match self {
            Sign::Minus => 0,
            Sign::Plus => 1,
        }
    }
}

/// A sign, and a code that says how many steps. Any code can be judged; those above 31 are refused.
///
/// ```
/// use fm3130::trim::{Setting, Sign};
/// assert_eq!(Setting { sign: Sign::Minus, code: 10 }.to_string(), "-10");
/// ```
#[derive(Clone, Copy, Debug, PartialEq, Eq, Hash)]
pub struct Setting {
    /// Which way it goes.
    pub sign: Sign,
    /// How many steps.
    pub code: u64,
}

impl Setting {
    /// Bits 5 to 0 of that clock's control register: the sign bit, then the five bits of the code.
    /// A code above 31 has none.
    ///
    /// ```
    /// use fm3130::trim::{Setting, Sign};
    /// // Document 002: "-10 (XX001010)".
    /// assert_eq!(Setting { sign: Sign::Minus, code: 10 }.control_bits(), Some(0b00_1010));
    /// assert_eq!(Setting { sign: Sign::Plus, code: 31 }.control_bits(), Some(0b11_1111));
    /// assert_eq!(Setting { sign: Sign::Plus, code: 32 }.control_bits(), None);
    /// ```
    pub fn control_bits(self) -> Option<u8> {
        let sign_bit = match self.sign {
            Sign::Plus => 0b10_0000,
            Sign::Minus => 0,
        };
        let code = u8::try_from(self.code).ok()?;
        (self.code <= LAST_CODE).then_some(sign_bit + code)
    }
}

impl fmt::Display for Setting {
    fn fmt(&self, formatter: &mut fmt::Formatter<'_>) -> fmt::Result {
        let sign = match self.sign {
            Sign::Plus => '+',
            Sign::Minus => '-',
        };
        write!(formatter, "{sign}{}", self.code)
    }
}

/// What the checker says of a setting.
#[derive(Clone, Copy, Debug, PartialEq, Eq, Hash)]
pub enum Verdict {
    /// 0: no setting leaves a smaller distance from zero.
    Accepted,
    /// 1: some setting leaves a smaller distance from zero.
    NotNearest,
    /// 3: the error is not from -20,000 to 20,000.
    ErrorOutOfRange,
    /// 4: the code is above 31.
    CodeAbove31,
}

impl Verdict {
    /// The number that C sees. (2 is a sign that is none, which [`Sign`] cannot be.)
    ///
    /// ```
    /// assert_eq!(fm3130::trim::Verdict::CodeAbove31.number(), 4);
    /// ```
    pub fn number(self) -> u64 {
        match self {
            Verdict::Accepted => 0,
            Verdict::NotNearest => 1,
            Verdict::ErrorOutOfRange => 3,
            Verdict::CodeAbove31 => 4,
        }
    }

    /// The verdict in words.
    ///
    /// ```
    /// assert_eq!(fm3130::trim::Verdict::CodeAbove31.words(), "the code is above 31");
    /// ```
    pub fn words(self) -> &'static str {
        match self {
            Verdict::Accepted => "no setting leaves a smaller distance from zero",
            Verdict::NotNearest => "another setting leaves a smaller distance from zero",
            Verdict::ErrorOutOfRange => "the error is not from -20,000 to 20,000",
            Verdict::CodeAbove31 => "the code is above 31",
        }
    }

    /// Whether nothing was judged: the error or the code is none.
    ///
    /// ```
    /// use fm3130::trim::Verdict;
    /// assert!(Verdict::ErrorOutOfRange.is_refusal() && !Verdict::NotNearest.is_refusal());
    /// ```
    pub fn is_refusal(self) -> bool {
        matches!(self, Verdict::ErrorOutOfRange | Verdict::CodeAbove31)
    }

    /// The verdict of a number of the archive.
    ///
    /// The archive is proved to give no other number for a sign of 0 or 1; should one come all the
    /// same, it counts as the last refusal rather than as a reason to panic.
    fn of_number(number: u64) -> Verdict {
        match number {
            0 => Verdict::Accepted,
            1 => Verdict::NotNearest,
            3 => Verdict::ErrorOutOfRange,
            _ => Verdict::CodeAbove31,
        }
    }
}

impl fmt::Display for Verdict {
    fn fmt(&self, formatter: &mut fmt::Formatter<'_>) -> fmt::Result {
        write!(formatter, "{} (number {})", self.words(), self.number())
    }
}

/// Judges a setting, whoever proposed it.
///
/// It is accepted exactly if the error is in range, the code at most 31, and no setting with a code
/// of at most 31 leaves a smaller distance from zero. So several settings may be accepted:
///
/// ```
/// use fm3130::trim::{check, Setting, Sign, Verdict};
///
/// for (sign, code) in [(Sign::Plus, 0), (Sign::Minus, 0), (Sign::Minus, 1)] {
///     assert_eq!(check(128, Setting { sign, code }), Verdict::Accepted);
/// }
/// ```
pub fn check(error: i32, setting: Setting) -> Verdict {
    let (sign, code) = (setting.sign.number(), setting.code);
    Verdict::of_number(archive::fm3130_trim_check(error, sign, code))
}

/// What a setting leaves of an error, or nothing where [`check`] refuses one of the two.
///
/// ```
/// use fm3130::trim::{residue, Setting, Sign};
///
/// let minus_1 = Setting { sign: Sign::Minus, code: 1 };
/// assert_eq!(residue(128, minus_1), Some(-128));
/// assert_eq!(residue(128, Setting { code: 32, ..minus_1 }), None);
/// ```
pub fn residue(error: i32, setting: Setting) -> Option<i32> {
    let (sign, code) = (setting.sign.number(), setting.code);
    let is_judged = !check(error, setting).is_refusal();
    is_judged.then(|| archive::fm3130_trim_residue(error, sign, code))
}

/// Proposes a setting, which [`check`] always accepts; nothing where the error is out of range.
///
/// ```
/// use fm3130::trim::{propose, Setting, Sign};
///
/// assert_eq!(propose(20_000), Some(Setting { sign: Sign::Minus, code: 31 }));
/// assert_eq!(propose(20_001), None);
/// ```
pub fn propose(error: i32) -> Option<Setting> {
    let number = archive::fm3130_trim_propose(error);
    let sign = match number / (LAST_CODE + 1) {
        0 => Sign::Minus,
        1 => Sign::Plus,
        _ => return None,
    };
    Some(Setting {
        sign,
        code: number % (LAST_CODE + 1),
    })
}
