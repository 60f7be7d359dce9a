// SPDX-License-Identifier: Apache-2.0
//! Why an entry did nothing.

use std::error::Error;
use std::fmt;

/// Why an entry did nothing, by 01's table and its later numbers. Under every refusal nothing was written.
///
/// They are tested in the order of their numbers, 7 between 3 and 4, and the first that applies is
/// given.
///
/// ```
/// use fm3130::{Device, Refusal};
///
/// let mut device = Device::fresh();
/// let refusal = device.run(&[0, 1, 8]).unwrap_err();
/// assert_eq!(refusal, Refusal::UnknownEvent);
/// assert_eq!(refusal.number(), 3);
/// assert_eq!(refusal.to_string(), "some event byte is above 7 (number 3)");
/// ```
#[derive(Clone, Copy, Debug, PartialEq, Eq, Hash)]
pub enum Refusal {
    /// 1: memory is not 8,192 bytes.
    MemoryLength,
    /// 2: image is not 64 bytes, or no well-formed state writes it. The viewer tests the length only.
    Image,
    /// 3: some event byte is above 7.
    UnknownEvent,
    /// 4: answers shorter than events.
    ShortAnswers,
    /// 5: the viewer's selector is neither 0 (memory) nor 1 (registers).
    Selector,
    /// 6: the viewer's start + length passes the end of the chosen bytes.
    PastTheEnd,
    /// 7: an ask while the other master holds the bus, or a call with any event 0 to 3 by a master
    /// that does not hold it. Tested after 3 and before 4.
    NotHeld,
    /// 8: more ticks to catch up with than a leap year has.
    TooManyTicks,
}

impl Refusal {
    /// The number: 1 to 6 of 01's table, 7 or 8.
    ///
    /// ```
    /// assert_eq!(fm3130::Refusal::Image.number(), 2);
    /// ```
    pub fn number(self) -> u64 {
        match self {
            Refusal::MemoryLength => 1,
            Refusal::Image => 2,
            Refusal::UnknownEvent => 3,
            Refusal::ShortAnswers => 4,
            Refusal::Selector => 5,
            Refusal::PastTheEnd => 6,
            Refusal::NotHeld => 7,
            Refusal::TooManyTicks => 8,
        }
    }

    /// When it is given, in the words of 01's table.
    ///
    /// ```
    /// assert_eq!(fm3130::Refusal::ShortAnswers.words(), "answers shorter than events");
    /// ```
    pub fn words(self) -> &'static str {
        match self {
            Refusal::MemoryLength => "memory is not 8,192 bytes",
            Refusal::Image => "image is not 64 bytes, or no well-formed state writes it",
            Refusal::UnknownEvent => "some event byte is above 7",
            Refusal::ShortAnswers => "answers shorter than events",
            Refusal::Selector => "selector neither 0 (memory) nor 1 (registers)",
            Refusal::PastTheEnd => "start + length passes the end of the chosen bytes",
            Refusal::NotHeld => "this master does not hold the bus",
            Refusal::TooManyTicks => "more than 31,622,400 ticks",
        }
    }

    /// The outcome that a number of the archive stands for.
    ///
    /// The archive is proved to give no other number; should one come all the same, it counts as
    /// the last refusal rather than as a reason to panic.
    pub(crate) fn outcome_of(number: u64) -> Result<(), Refusal> {
        Err(match number {
            0 => return Ok(()),
            1 => Refusal::MemoryLength,
            2 => Refusal::Image,
            3 => Refusal::UnknownEvent,
            4 => Refusal::ShortAnswers,
            5 => Refusal::Selector,
            6 => Refusal::PastTheEnd,
            7 => Refusal::NotHeld,
            _ => Refusal::TooManyTicks,
        })
    }
}

impl fmt::Display for Refusal {
    fn fmt(&self, formatter: &mut fmt::Formatter<'_>) -> fmt::Result {
        write!(formatter, "{} (number {})", self.words(), self.number())
    }
}

impl Error for Refusal {}
