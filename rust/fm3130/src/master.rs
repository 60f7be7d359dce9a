// SPDX-License-Identifier: Apache-2.0
//! The other end of the wire: a master's whole transactions with the memory, and what the answers to
//! them tell.
//!
//! [`Device::write`](crate::Device::write) and [`Device::read`](crate::Device::read) do all of it at
//! once. The functions here are the archive's entries on slices of any length, for answers that come
//! from elsewhere, such as a real part on the bench.
//!
//! ```
//! use fm3130::{master, Device};
//!
//! let mut device = Device::fresh();
//! let mut events = [0; master::write_events_count(2)];
//! let count = master::write_events(0x1FFF, &[0x5A, 0xC3], &mut events)?;
//! let answers = device.run(&events[..count]).unwrap();
//! let mut flags = [0; 2];
//! master::write_told(2, &answers, &mut flags)?;
//! assert_eq!(flags, [1, 1]);
//! assert_eq!((device.memory()[0x1FFF], device.memory()[0x0000]), (0x5A, 0xC3));
//! # Ok::<(), master::Refusal>(())
//! ```

use std::error::Error;
use std::fmt;

use fm3130_sys as archive;

/// The most data bytes of one transaction.
pub const MOST: usize = 256;

/// How many events a write of so many data bytes has, and so how many answers.
pub const fn write_events_count(count: usize) -> usize {
    29 + 9 * count
}

/// How many events a read of so many data bytes has, and so how many answers.
pub const fn read_events_count(count: usize) -> usize {
    39 + 9 * count
}

/// Why a function of this module did nothing, by the master's own numbers. Under every refusal
/// nothing was written.
///
/// They are tested in the order of their numbers, and the first that applies is given.
#[derive(Clone, Copy, Debug, PartialEq, Eq, Hash)]
pub enum Refusal {
    /// 1: more than 256 data bytes.
    TooMany,
    /// 2: a read of no data byte.
    ReadOfNone,
    /// 3: the address is above 1FFFh.
    WrongAddress,
    /// 4: too little room.
    LittleRoom,
    /// 5: answers are not as many as the events.
    WrongAnswers,
}

impl Refusal {
    /// The number, 1 to 5.
    ///
    /// ```
    /// assert_eq!(fm3130::master::Refusal::WrongAddress.number(), 3);
    /// ```
    pub fn number(self) -> u64 {
        match self {
            Refusal::TooMany => 1,
            Refusal::ReadOfNone => 2,
            Refusal::WrongAddress => 3,
            Refusal::LittleRoom => 4,
            Refusal::WrongAnswers => 5,
        }
    }

    /// When it is given.
    ///
    /// ```
    /// assert_eq!(fm3130::master::Refusal::TooMany.words(), "more than 256 data bytes");
    /// ```
    pub fn words(self) -> &'static str {
        match self {
            Refusal::TooMany => "more than 256 data bytes",
            Refusal::ReadOfNone => "a read of no data byte",
            Refusal::WrongAddress => "the address is above 1FFFh",
            Refusal::LittleRoom => "too little room",
            Refusal::WrongAnswers => "answers are not as many as the events",
        }
    }

    /// The outcome that a number of the archive stands for.
    ///
    /// The archive is proved to give no number above 5; should one come all the same, it counts as
    /// the last refusal rather than as a reason to panic.
    fn outcome_of(number: u64) -> Result<(), Refusal> {
        Err(match number {
            0 => return Ok(()),
            1 => Refusal::TooMany,
            2 => Refusal::ReadOfNone,
            3 => Refusal::WrongAddress,
            4 => Refusal::LittleRoom,
            _ => Refusal::WrongAnswers,
        })
    }
}

impl fmt::Display for Refusal {
    fn fmt(&self, formatter: &mut fmt::Formatter<'_>) -> fmt::Result {
        write!(formatter, "{} (number {})", self.words(), self.number())
    }
}

impl Error for Refusal {}

/// Why a whole transaction on a device was not done: the master's side refused it, or the device its
/// events. Under each, nothing was done.
///
/// ```
/// use fm3130::master::{Refusal, TransactionRefusal};
///
/// let refused = fm3130::Device::fresh().read(0x2000, 1);
/// assert_eq!(refused, Err(TransactionRefusal::Master(Refusal::WrongAddress)));
/// ```
#[derive(Clone, Copy, Debug, PartialEq, Eq, Hash)]
pub enum TransactionRefusal {
    /// The master's side refused the transaction.
    Master(Refusal),
    /// The device refused its events.
    Device(crate::Refusal),
}

impl From<Refusal> for TransactionRefusal {
    fn from(refusal: Refusal) -> TransactionRefusal {
        TransactionRefusal::Master(refusal)
    }
}

impl From<crate::Refusal> for TransactionRefusal {
    fn from(refusal: crate::Refusal) -> TransactionRefusal {
        TransactionRefusal::Device(refusal)
    }
}

impl fmt::Display for TransactionRefusal {
    fn fmt(&self, formatter: &mut fmt::Formatter<'_>) -> fmt::Result {
        match self {
            TransactionRefusal::Master(refusal) => refusal.fmt(formatter),
            TransactionRefusal::Device(refusal) => refusal.fmt(formatter),
        }
    }
}

impl Error for TransactionRefusal {}

/// How many bytes a function of the archive filled: at most the length of the buffer, so it fits.
fn filled(filled: archive::Filled) -> Result<usize, Refusal> {
    Refusal::outcome_of(filled.number).map(|()| filled.count as usize)
}

/// The events of a whole write of bytes from an address on; they go to the first bytes of `events`,
/// the others stay. Returns their number. A write of no bytes sets the address.
///
/// # Errors
///
/// [`Refusal::TooMany`], [`Refusal::WrongAddress`] or [`Refusal::LittleRoom`], the first that applies.
///
/// ```
/// use fm3130::master::{self, Refusal};
///
/// let mut events = [9; 40];
/// assert_eq!(master::write_events(0x1234, &[0x5A], &mut events), Ok(38));
/// assert_eq!(events[37..], [1, 9, 9]);
/// assert_eq!(master::write_events(0x2000, &[0x5A], &mut events), Err(Refusal::WrongAddress));
/// ```
pub fn write_events(address: u64, bytes: &[u8], events: &mut [u8]) -> Result<usize, Refusal> {
    filled(archive::fm3130_write_events(address, bytes, events))
}

/// The events of a whole read of so many bytes from an address on; they go to the first bytes of
/// `events`, the others stay. Returns their number. The read sets its address first and ends its last
/// byte high.
///
/// # Errors
///
/// [`Refusal::TooMany`], [`Refusal::ReadOfNone`], [`Refusal::WrongAddress`] or
/// [`Refusal::LittleRoom`], the first that applies.
///
/// ```
/// use fm3130::master::{self, Refusal};
///
/// let mut events = [9; 48];
/// assert_eq!(master::read_events(0x1234, 1, &mut events), Ok(48));
/// assert_eq!(events[46..], [3, 1]);
/// assert_eq!(master::read_events(0x1234, 0, &mut events), Err(Refusal::ReadOfNone));
/// ```
pub fn read_events(address: u64, count: u64, events: &mut [u8]) -> Result<usize, Refusal> {
    filled(archive::fm3130_read_events(address, count, events))
}

/// What the answers to a write of so many data bytes tell: a flag for each, 1 if it was acknowledged,
/// else 0. They go to the first bytes of `flags`, the others stay. Returns their number.
///
/// # Errors
///
/// [`Refusal::TooMany`], [`Refusal::LittleRoom`] or [`Refusal::WrongAnswers`], the first that applies.
///
/// ```
/// use fm3130::master::{self, Refusal};
///
/// let mut flags = [9; 2];
/// assert_eq!(master::write_told(1, &[0; 38], &mut flags), Ok(1));
/// assert_eq!(flags, [1, 9]);
/// assert_eq!(master::write_told(1, &[0; 37], &mut flags), Err(Refusal::WrongAnswers));
/// ```
pub fn write_told(count: u64, answers: &[u8], flags: &mut [u8]) -> Result<usize, Refusal> {
    filled(archive::fm3130_write_told(count, answers, flags))
}

/// What the answers to a read of so many data bytes tell: the bytes, or none if a slave or address
/// byte went unacknowledged. They go to the first bytes of `bytes`, the others stay. Returns their
/// number.
///
/// # Errors
///
/// [`Refusal::TooMany`], [`Refusal::ReadOfNone`], [`Refusal::LittleRoom`] or
/// [`Refusal::WrongAnswers`], the first that applies.
///
/// ```
/// use fm3130::master;
///
/// let mut bytes = [9; 2];
/// assert_eq!(master::read_told(1, &[0; 48], &mut bytes), Ok(1));
/// assert_eq!(bytes, [0, 9]);
/// assert_eq!(master::read_told(1, &[1; 48], &mut bytes), Ok(0)); // nobody acknowledged
/// ```
pub fn read_told(count: u64, answers: &[u8], bytes: &mut [u8]) -> Result<usize, Refusal> {
    filled(archive::fm3130_read_told(count, answers, bytes))
}
