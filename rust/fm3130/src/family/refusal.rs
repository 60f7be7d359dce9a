// SPDX-License-Identifier: Apache-2.0
//! Why an entry of the family did nothing.

use std::error::Error;
use std::fmt;

/// Why an entry of the family did nothing. Under every refusal nothing was written.
///
/// They are tested in the order of their numbers, and the first that applies is given.
///
/// ```
/// use fm3130::family::{Fm31256, Refusal};
///
/// let refusal = Fm31256::fresh().run(&[0, 1, 10]).unwrap_err();
/// assert_eq!(refusal, Refusal::UnknownEvent);
/// assert_eq!(refusal.to_string(), "some event byte is above 9 (number 3)");
/// ```
#[derive(Clone, Copy, Debug, PartialEq, Eq, Hash)]
pub enum Refusal {
    /// 1: memory has the wrong length for the chosen size.
    MemoryLength,
    /// 2: image is not 64 bytes, or no well-formed state of the chosen size writes it. The viewer
    /// tests the length only.
    Image,
    /// 3: some event byte is above 9.
    UnknownEvent,
    /// 4: answers shorter than events.
    ShortAnswers,
    /// 5: the viewer's selector is neither 0 (memory) nor 1 (registers).
    Selector,
    /// 6: the viewer's start + length passes the end of the chosen bytes.
    PastTheEnd,
}

impl Refusal {
    /// The number, 1 to 6.
    ///
    /// ```
    /// assert_eq!(fm3130::family::Refusal::Image.number(), 2);
    /// ```
    pub fn number(self) -> u64 {
        match self {
            Refusal::MemoryLength => 1,
            Refusal::Image => 2,
            Refusal::UnknownEvent => 3,
            Refusal::ShortAnswers => 4,
            Refusal::Selector => 5,
            Refusal::PastTheEnd => 6,
        }
    }

    /// When it is given.
    ///
    /// ```
    /// use fm3130::family::Refusal;
    /// assert_eq!(Refusal::MemoryLength.words(), "memory has the wrong length for the chosen size");
    /// ```
    pub fn words(self) -> &'static str {
        match self {
            Refusal::MemoryLength => "memory has the wrong length for the chosen size",
            Refusal::Image => {
                "image is not 64 bytes, or no well-formed state of the chosen size writes it"
            }
            Refusal::UnknownEvent => "some event byte is above 9",
            Refusal::ShortAnswers => "answers shorter than events",
            Refusal::Selector => "selector neither 0 (memory) nor 1 (registers)",
            Refusal::PastTheEnd => "start + length (exact sum) passes the end of the chosen bytes",
        }
    }

    /// The outcome that a number of the archive stands for.
    ///
    /// The archive is proved to give no number above 6; should one come all the same, it counts as
    /// the last refusal rather than as a reason to panic.
    pub(crate) fn outcome_of(number: u64) -> Result<(), Refusal> {
        Err(match number {
            0 => return Ok(()),
            1 => Refusal::MemoryLength,
            2 => Refusal::Image,
            3 => Refusal::UnknownEvent,
            4 => Refusal::ShortAnswers,
            5 => Refusal::Selector,
            _ => Refusal::PastTheEnd,
        })
    }
}

impl fmt::Display for Refusal {
    fn fmt(&self, formatter: &mut fmt::Formatter<'_>) -> fmt::Result {
        write!(formatter, "{} (number {})", self.words(), self.number())
    }
}

impl Error for Refusal {}

/// Why a set was not made, or did no event. Under every refusal nothing was written.
///
/// They are tested in the order in which they stand here, and the first that applies is given: 3 and 4
/// in a list run only, which a [`Set`](super::Set) is refused by alone. What the others ask stays true
/// of it: it lends its memories, and nothing else of its devices, to be changed.
///
/// ```
/// use fm3130::family::{Set, SetRefusal};
///
/// let refusal = Set::new([]).unwrap_err();
/// assert_eq!((refusal, refusal.number()), (SetRefusal::WrongCount, 9));
/// assert_eq!(refusal.to_string(), "a set has one to four devices (number 9)");
/// ```
#[derive(Clone, Copy, Debug, PartialEq, Eq, Hash)]
pub enum SetRefusal {
    /// 9: not one to four devices.
    WrongCount,
    /// 1: a memory has the wrong length for the size of its device.
    MemoryLength,
    /// 2: an image that no well-formed state of that size and those select bits writes.
    Image,
    /// 3: some event byte names no device of the set.
    UnknownEvent,
    /// 4: answers shorter than events.
    ShortAnswers,
    /// 10: two devices have the same select bits.
    EqualSelects,
    /// 11: a device is not between transfers; in a list run, two devices stand as no two of a set that
    /// was made can: both in a transfer, and not in the same slave byte before its acknowledge.
    InTransfer,
}

impl SetRefusal {
    /// The number, 1 to 4 or 9 to 11.
    pub fn number(self) -> u64 {
        match self {
            SetRefusal::WrongCount => 9,
            SetRefusal::MemoryLength => 1,
            SetRefusal::Image => 2,
            SetRefusal::UnknownEvent => 3,
            SetRefusal::ShortAnswers => 4,
            SetRefusal::EqualSelects => 10,
            SetRefusal::InTransfer => 11,
        }
    }

    /// When it is given.
    pub fn words(self) -> &'static str {
        match self {
            SetRefusal::WrongCount => "a set has one to four devices",
            SetRefusal::MemoryLength => "a memory has the wrong length for the size of its device",
            SetRefusal::Image => {
                "no well-formed state of its device's size and select bits writes an image"
            }
            SetRefusal::UnknownEvent => "some event byte names no device of the set",
            SetRefusal::ShortAnswers => "answers shorter than events",
            SetRefusal::EqualSelects => "two devices have the same select bits",
            SetRefusal::InTransfer => "a device is not between transfers",
        }
    }

    /// The outcome that a number of the archive stands for.
    ///
    /// The archive is proved to give no other number; should one come all the same, it counts as the
    /// last refusal rather than as a reason to panic.
    pub(crate) fn outcome_of(number: u64) -> Result<(), SetRefusal> {
        Err(match number {
            0 => return Ok(()),
            9 => SetRefusal::WrongCount,
            1 => SetRefusal::MemoryLength,
            2 => SetRefusal::Image,
            3 => SetRefusal::UnknownEvent,
            4 => SetRefusal::ShortAnswers,
            10 => SetRefusal::EqualSelects,
            _ => SetRefusal::InTransfer,
        })
    }
}

impl fmt::Display for SetRefusal {
    fn fmt(&self, formatter: &mut fmt::Formatter<'_>) -> fmt::Result {
        write!(formatter, "{} (number {})", self.words(), self.number())
    }
}

impl Error for SetRefusal {}
