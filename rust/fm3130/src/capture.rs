// SPDX-License-Identifier: Apache-2.0
//! Captures: a recorded run in one file, written and judged.
//!
//! A capture holds the image and the memory that a run began from, its events, and one answer for
//! each. It begins with a table of contents: four entries of 12 bytes, each with a section's kind,
//! offset and length as numbers of four bytes, the low byte first. docs/CAPTURE.md has a drawing.
//!
//! [`judge`] asks the proved judge; [`Capture::to_file`] writes a file; [`Capture::in_file`] lends
//! the sections of a sound one; [`Fault::of`] says in words what is wrong with an entry.
//!
//! ```
//! use fm3130::capture::{judge, Capture, Verdict};
//! use fm3130::Device;
//!
//! let device = Device::fresh();
//! let events = [0, 3, 2, 3, 2, 2, 2, 2, 2, 3, 1];
//! let mut answers = device.clone().run(&events)?;
//! let capture = |answers: &[u8]| Capture {
//!     image: device.image(),
//!     memory: device.memory(),
//!     events: &events,
//!     answers,
//! }.to_file().unwrap();
//! assert_eq!(judge(&capture(&answers)), Verdict::Agree { count: 11 });
//!
//! answers[9] ^= 1; // the acknowledge is not there
//! let verdict = judge(&capture(&answers));
//! assert_eq!(verdict, Verdict::Differs { place: 9, recorded: 5, right: 4 });
//! assert_eq!(verdict.to_string(), "answer 9 differs: recorded 05h, right 04h");
//! # Ok::<(), fm3130::Refusal>(())
//! ```

use std::fmt;

use crate::device::Device;
use crate::event;
use crate::{MEMORY_BYTES, UNANSWERED};
use fm3130_sys as archive;

/// The bytes of the longest capture, 60 KiB.
pub const MOST_BYTES: usize = 61_440;

/// The bytes of an entry of the table.
pub const ENTRY_BYTES: usize = 12;

/// The bytes of the table.
pub const TABLE_BYTES: usize = 48;

/// The most events of a capture.
pub const MOST_EVENTS: usize = (MOST_BYTES - TABLE_BYTES - crate::IMAGE_BYTES - MEMORY_BYTES) / 2;

/// What the judge says of a capture.
#[derive(Clone, Copy, Debug, PartialEq, Eq, Hash)]
pub enum Verdict {
    /// 0: every recorded answer is the right one.
    Agree {
        /// How many answers there are.
        count: usize,
    },
    /// 1: an answer is wrong, and every one before it is right.
    Differs {
        /// The answer, counted from 0.
        place: usize,
        /// What was recorded.
        recorded: u8,
        /// What the rules give.
        right: u8,
    },
    /// 2: an entry of the table is faulty, and every one before it is sound.
    Faulty {
        /// The entry, 1 to 4.
        entry: usize,
    },
    /// 3: there are more than 61,440 bytes.
    TooLong,
}

impl Verdict {
    /// The number that C sees.
    ///
    /// ```
    /// assert_eq!(fm3130::capture::Verdict::TooLong.number(), 3);
    /// ```
    pub fn number(self) -> u64 {
        match self {
            Verdict::Agree { .. } => 0,
            Verdict::Differs { .. } => 1,
            Verdict::Faulty { .. } => 2,
            Verdict::TooLong => 3,
        }
    }
}

impl fmt::Display for Verdict {
    fn fmt(&self, formatter: &mut fmt::Formatter<'_>) -> fmt::Result {
        match self {
            Verdict::Agree { count } => write!(formatter, "all agree: {count} answers"),
            Verdict::Differs {
                place,
                recorded,
                right,
            } => write!(
                formatter,
                "answer {place} differs: recorded {recorded:02X}h, right {right:02X}h"
            ),
            Verdict::Faulty { entry } => write!(formatter, "entry {entry} is faulty"),
            Verdict::TooLong => formatter.write_str("too long: more than 61,440 bytes"),
        }
    }
}

/// Judges a capture. Any bytes may be given.
///
/// ```
/// use fm3130::capture::{judge, Verdict};
/// assert_eq!(judge(&[]), Verdict::Faulty { entry: 1 });
/// assert_eq!(judge(&[0; 61_441]), Verdict::TooLong);
/// ```
pub fn judge(file: &[u8]) -> Verdict {
    let judgement = archive::fm3130_judge(file);
    // Every place is a count of bytes of the file or an entry's number, so it fits.
    let place = judgement.place as usize;
    match judgement.number {
        0 => Verdict::Agree { count: place },
        1 => differs(file, place),
        2 => Verdict::Faulty { entry: place },
        _ => Verdict::TooLong,
    }
}

/// The two bytes of an answer that differs: the recorded one, and what the list run gives.
fn differs(file: &[u8], place: usize) -> Verdict {
    let capture = Capture::sections_of(file);
    let right = Device::from_parts(capture.image, capture.memory)
        .and_then(|mut device| device.run(capture.events.get(..=place).unwrap_or_default()))
        .ok()
        .and_then(|answers| answers.last().copied());
    Verdict::Differs {
        place,
        recorded: capture.answers.get(place).copied().unwrap_or(UNANSWERED),
        right: right.unwrap_or(UNANSWERED),
    }
}

/// What a capture holds, lent.
#[derive(Clone, Copy, Debug, PartialEq, Eq)]
pub struct Capture<'a> {
    /// The image that the run began from.
    pub image: &'a [u8],
    /// The memory that it began from.
    pub memory: &'a [u8],
    /// The events.
    pub events: &'a [u8],
    /// The answers, one for each event.
    pub answers: &'a [u8],
}

impl<'a> Capture<'a> {
    /// The file: the table, then image, memory, events and answers without gaps. Nothing where it
    /// would be longer than [`MOST_BYTES`]. The parts are written as they are; [`judge`] says
    /// whether they are sound.
    pub fn to_file(&self) -> Option<Vec<u8>> {
        let bodies = [self.image, self.memory, self.events, self.answers];
        let total: usize = bodies.iter().map(|body| body.len()).sum();
        if TABLE_BYTES + total > MOST_BYTES {
            return None;
        }
        let mut file = Vec::with_capacity(TABLE_BYTES + total);
        let mut offset = TABLE_BYTES;
        for (kind, body) in (1u32..).zip(bodies) {
            // Offsets and lengths are at most 61,440.
            for number in [kind, offset as u32, body.len() as u32] {
                file.extend(number.to_le_bytes());
            }
            offset += body.len();
        }
        file.extend(bodies.concat());
        Some(file)
    }

    /// The sections of a file whose four entries are sound; nothing where [`judge`] says otherwise.
    ///
    /// ```
    /// use fm3130::capture::Capture;
    /// assert_eq!(Capture::in_file(&[0; 100]), None);
    /// ```
    pub fn in_file(file: &'a [u8]) -> Option<Capture<'a>> {
        match judge(file) {
            Verdict::Agree { .. } | Verdict::Differs { .. } => Some(Capture::sections_of(file)),
            Verdict::Faulty { .. } | Verdict::TooLong => None,
        }
    }

    /// The sections of a sound file, which has every kind once and all bodies within it.
    fn sections_of(file: &'a [u8]) -> Capture<'a> {
        let section = |kind| {
            let entries = (0..4).filter_map(|index| Entry::at(file, index));
            entries
                .filter(|entry| entry.kind == kind)
                .find_map(|entry| entry.body(file))
                .unwrap_or_default()
        };
        Capture {
            image: section(1),
            memory: section(2),
            events: section(3),
            answers: section(4),
        }
    }
}

/// An entry of a table of contents.
#[derive(Clone, Copy, Debug, PartialEq, Eq)]
pub struct Entry {
    /// The kind of its section: 1 image, 2 memory, 3 events, 4 answers.
    pub kind: u32,
    /// Where the section begins in the file.
    pub offset: u32,
    /// Its length.
    pub length: u32,
}

impl Entry {
    /// An entry of a file's table, counted from 0; nothing where the file ends inside it.
    ///
    /// ```
    /// use fm3130::capture::Entry;
    /// let entry = Entry::at(&[3, 0, 0, 0, 48, 0, 0, 0, 0, 1, 0, 0], 0).unwrap();
    /// assert_eq!((entry.kind, entry.offset, entry.length), (3, 48, 256));
    /// assert_eq!(Entry::at(&[0; 11], 0), None);
    /// ```
    pub fn at(file: &[u8], index: usize) -> Option<Entry> {
        let from = index.checked_mul(ENTRY_BYTES)?;
        let bytes = file.get(from..from.checked_add(ENTRY_BYTES)?)?;
        let number = |place: usize| {
            let four = bytes.get(place..place + 4)?;
            Some(u32::from_le_bytes(four.try_into().ok()?))
        };
        Some(Entry {
            kind: number(0)?,
            offset: number(4)?,
            length: number(8)?,
        })
    }

    /// The first byte after its body, the exact sum.
    fn end(self) -> u64 {
        u64::from(self.offset) + u64::from(self.length)
    }

    /// The body; nothing where it passes the end of the file.
    fn body(self, file: &[u8]) -> Option<&[u8]> {
        let end = usize::try_from(self.end()).ok()?;
        file.get(self.offset as usize..end)
    }

    /// Whether two bodies have a byte in common. An empty one has none.
    fn overlaps(self, other: Entry) -> bool {
        let both_hold = self.length > 0 && other.length > 0;
        both_hold && u64::from(self.offset) < other.end() && u64::from(other.offset) < self.end()
    }
}

/// What is wrong with an entry. The judge names the entry; this says why, in words.
#[derive(Clone, Copy, Debug, PartialEq, Eq)]
pub enum Fault {
    /// The file ends inside the entry.
    CutShort,
    /// The kind is none of 1 to 4.
    UnknownKind(u32),
    /// The kind is that of an earlier entry, counted from 1.
    RepeatedKind(usize),
    /// The body passes the end of the file.
    PastTheEnd,
    /// The body overlaps the table.
    OverlapsTable,
    /// The body overlaps that of an earlier entry, counted from 1.
    Overlaps(usize),
    /// The body is no image: it has not 64 bytes, or no well-formed state writes it.
    Image,
    /// The body is no memory: it has not 8,192 bytes.
    Memory,
    /// Some event byte is above 7.
    UnknownEvent,
    /// Events and answers are not equally many; the other of the two is this earlier entry, counted
    /// from 1.
    Uneven(usize),
}

impl Fault {
    /// The first reason for which an entry, counted from 1, is faulty; nothing where it is sound.
    ///
    /// ```
    /// use fm3130::capture::Fault;
    /// assert_eq!(Fault::of(&[1, 0, 0, 0], 1), Some(Fault::CutShort));
    /// ```
    pub fn of(file: &[u8], entry: usize) -> Option<Fault> {
        let index = entry.checked_sub(1)?;
        let Some(found) = Entry::at(file, index) else {
            return Some(Fault::CutShort);
        };
        Fault::by_itself(file, found).or_else(|| {
            let earlier = (0..index).filter_map(|place| Some((place + 1, Entry::at(file, place)?)));
            let mut clashes =
                earlier.filter_map(|(place, other)| Fault::between(found, place, other));
            clashes.next()
        })
    }

    fn by_itself(file: &[u8], entry: Entry) -> Option<Fault> {
        let table = Entry {
            kind: 0,
            offset: 0,
            length: TABLE_BYTES as u32,
        };
        if !(1..=4).contains(&entry.kind) {
            return Some(Fault::UnknownKind(entry.kind));
        }
        let Some(body) = entry.body(file) else {
            return Some(Fault::PastTheEnd);
        };
        if entry.overlaps(table) {
            return Some(Fault::OverlapsTable);
        }
        let refused = |is_refused: bool, fault| is_refused.then_some(fault);
        match entry.kind {
            1 => refused(
                Device::from_parts(body, &[0; MEMORY_BYTES]).is_err(),
                Fault::Image,
            ),
            2 => refused(body.len() != MEMORY_BYTES, Fault::Memory),
            3 => refused(
                body.iter().any(|event| *event > event::LAST),
                Fault::UnknownEvent,
            ),
            _ => None,
        }
    }

    /// What an entry has against an earlier one.
    fn between(entry: Entry, place: usize, earlier: Entry) -> Option<Fault> {
        if entry.kind == earlier.kind {
            return Some(Fault::RepeatedKind(place));
        }
        if entry.overlaps(earlier) {
            return Some(Fault::Overlaps(place));
        }
        let are_lists = entry.kind >= 3 && earlier.kind >= 3;
        (are_lists && entry.length != earlier.length).then_some(Fault::Uneven(place))
    }
}

impl fmt::Display for Fault {
    fn fmt(&self, formatter: &mut fmt::Formatter<'_>) -> fmt::Result {
        match self {
            Fault::CutShort => formatter.write_str("the file ends inside it"),
            Fault::UnknownKind(kind) => write!(formatter, "its kind, {kind}, is none of 1 to 4"),
            Fault::RepeatedKind(place) => write!(formatter, "its kind is that of entry {place}"),
            Fault::PastTheEnd => formatter.write_str("its body passes the end of the file"),
            Fault::OverlapsTable => formatter.write_str("its body overlaps the table"),
            Fault::Overlaps(place) => {
                write!(formatter, "its body overlaps that of entry {place}")
            }
            Fault::Image => formatter.write_str(
                "its image is not 64 bytes, or no well-formed state writes it (number 2)",
            ),
            Fault::Memory => formatter.write_str("its memory is not 8,192 bytes (number 1)"),
            Fault::UnknownEvent => formatter.write_str("some event byte is above 7 (number 3)"),
            Fault::Uneven(place) => write!(
                formatter,
                "events and answers are not equally many (the other is entry {place})"
            ),
        }
    }
}

#[cfg(test)]
mod tests {
    use super::*;

    /// The judge names no answer of such a file; were it to, nothing would be said to pull the line.
    #[test]
    fn an_answer_that_nobody_gave_is_high() {
        let verdict = differs(&[], 0);
        let (recorded, right) = (UNANSWERED, UNANSWERED);
        assert_eq!(
            verdict,
            Verdict::Differs {
                place: 0,
                recorded,
                right
            }
        );
    }
}
