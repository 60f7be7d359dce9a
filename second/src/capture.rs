// SPDX-License-Identifier: Apache-2.0
//! Judging a capture (02, number 10), and writing capture files.
//!
//! A file begins with a table of four entries of 12 bytes: kind, offset from the
//! file's start and length, four bytes each, low byte first. The bodies lie after
//! the table in any order; gaps are allowed. The kinds are 1 starting image, 2
//! memory, 3 events, 4 answers.

use crate::device::POWER_RETURNED;
use crate::state::State;
use crate::MEMORY_BYTES;

/// "at most 60 KiB in all"
pub const MOST_FILE_BYTES: usize = 60 * 1024;

/// "Of its four entries".
pub const ENTRIES: usize = 4;

/// Kind, offset and length.
pub const ENTRY_BYTES: usize = 12;

/// "a table of contents first"
pub const TABLE_BYTES: usize = ENTRIES * ENTRY_BYTES;

/// "state image (64 bytes)"
pub const IMAGE_BYTES: usize = 64;

/// "starting image"
pub const KIND_IMAGE: u32 = 1;
/// "memory"
pub const KIND_MEMORY: u32 = 2;
/// "events"
pub const KIND_EVENTS: u32 = 3;
/// "answers"
pub const KIND_ANSWERS: u32 = 4;

/// What is said of a file.
#[derive(Clone, Copy, Debug, PartialEq, Eq)]
pub enum Verdict {
    /// "one over 60 KiB is named too long"
    TooLong,
    /// "A malformed file is named by its first faulty entry": 1 to 4.
    FaultyEntry(usize),
    /// "names the first answer that our rules do not give": its place from 0,
    /// the byte recorded and the byte that the rules give.
    Differs {
        place: usize,
        recorded: u8,
        right: u8,
    },
    /// "or says that all agree": how many.
    AllAgree(usize),
}

/// Judges a file. `decode_image` gives the state that an image of 64 bytes
/// holds, or none if number 2 refuses it.
pub fn judge(file: &[u8], decode_image: impl Fn(&[u8]) -> Option<State>) -> Verdict {
    if file.len() > MOST_FILE_BYTES {
        return Verdict::TooLong;
    }
    match read_sections(file, &decode_image) {
        Ok(sections) => judge_events(&sections, &decode_image),
        Err(faulty) => Verdict::FaultyEntry(faulty),
    }
}

/// "A checker walks the recorded events in order".
fn judge_events(sections: &[Section], decode_image: &impl Fn(&[u8]) -> Option<State>) -> Verdict {
    let body = |kind| body_of_kind(sections, kind).expect("all four kinds are there");
    let image = decode_image(body(KIND_IMAGE)).expect("the image was tested");
    let mut device = image.device(body(KIND_MEMORY).to_vec());
    let pairs = body(KIND_EVENTS).iter().zip(body(KIND_ANSWERS));
    for (place, (event, recorded)) in pairs.enumerate() {
        let right = device.event(*event);
        if right != *recorded {
            return Verdict::Differs {
                place,
                recorded: *recorded,
                right,
            };
        }
    }
    Verdict::AllAgree(body(KIND_EVENTS).len())
}

// ----- the table and its faults -----

/// An entry whose body lies within the file.
#[derive(Clone, Copy)]
struct Section<'file> {
    kind: u32,
    offset: usize,
    body: &'file [u8],
}

impl Section<'_> {
    /// The first place after the body.
    fn end(&self) -> usize {
        self.offset + self.body.len()
    }

    /// "overlapping ... an earlier entry's body"; an empty body overlaps
    /// nothing.
    fn overlaps(&self, other: &Section) -> bool {
        !self.body.is_empty()
            && !other.body.is_empty()
            && self.offset < other.end()
            && other.offset < self.end()
    }

    /// "overlapping the table"
    fn overlaps_the_table(&self) -> bool {
        !self.body.is_empty() && self.offset < TABLE_BYTES
    }
}

/// The four sections, or the number of the first faulty entry.
fn read_sections<'file>(
    file: &'file [u8],
    decode_image: &impl Fn(&[u8]) -> Option<State>,
) -> Result<Vec<Section<'file>>, usize> {
    let mut sections: Vec<Section> = Vec::new();
    for number in 1..=ENTRIES {
        match read_section(file, number) {
            Some(section) if !is_faulty(&section, &sections, decode_image) => {
                sections.push(section);
            }
            _ => return Err(number),
        }
    }
    Ok(sections)
}

/// An entry, unless it is "cut short" or its body is "running past the end".
fn read_section(file: &[u8], number: usize) -> Option<Section<'_>> {
    let entry = file.get((number - 1) * ENTRY_BYTES..number * ENTRY_BYTES)?;
    let kind = number_at(entry, 0);
    let offset = number_at(entry, 4);
    let length = number_at(entry, 8);
    // the exact sum: both are far below the end of 64 bits
    let end = u64::from(offset) + u64::from(length);
    if end > file.len() as u64 {
        return None;
    }
    Some(Section {
        kind,
        offset: offset as usize,
        body: &file[offset as usize..end as usize],
    })
}

/// Four bytes, low byte first.
fn number_at(entry: &[u8], place: usize) -> u32 {
    let mut number = 0;
    for byte in entry[place..place + 4].iter().rev() {
        number = number * 256 + u32::from(*byte);
    }
    number
}

/// "faulty if ... of unknown or repeated kind, ..., overlapping the table or an
/// earlier entry's body, or holding a part that 01 refuses; unequal counts of
/// events and answers fault the later of the two"
fn is_faulty(
    section: &Section,
    earlier: &[Section],
    decode_image: &impl Fn(&[u8]) -> Option<State>,
) -> bool {
    section.overlaps_the_table()
        || earlier.iter().any(|other| section.kind == other.kind)
        || earlier.iter().any(|other| section.overlaps(other))
        || !holds_a_good_part(section, decode_image)
        || has_unequal_count(section, earlier)
}

/// "holding a part that 01 refuses"; no part has an unknown kind.
fn holds_a_good_part(section: &Section, decode_image: &impl Fn(&[u8]) -> Option<State>) -> bool {
    let body = section.body;
    match section.kind {
        // 2: "image is not 64 bytes, or no well-formed state writes it"
        KIND_IMAGE => body.len() == IMAGE_BYTES && decode_image(body).is_some(),
        // 1: "memory is not 8,192 bytes"
        KIND_MEMORY => body.len() == MEMORY_BYTES,
        // 3: "some event byte is above 7"
        KIND_EVENTS => body.iter().all(|event| *event <= POWER_RETURNED),
        KIND_ANSWERS => true,
        _ => false,
    }
}

/// "unequal counts of events and answers fault the later of the two"
fn has_unequal_count(section: &Section, earlier: &[Section]) -> bool {
    let other_kind = match section.kind {
        KIND_EVENTS => KIND_ANSWERS,
        KIND_ANSWERS => KIND_EVENTS,
        _ => return false,
    };
    body_of_kind(earlier, other_kind).is_some_and(|other| other.len() != section.body.len())
}

fn body_of_kind<'file>(sections: &[Section<'file>], kind: u32) -> Option<&'file [u8]> {
    let mut of_kind = sections.iter().filter(|section| section.kind == kind);
    of_kind.next().map(|section| section.body)
}

// ----- writing a file -----

/// One part of a capture to be written.
#[derive(Clone, Debug, PartialEq, Eq)]
pub struct Part {
    pub kind: u32,
    pub body: Vec<u8>,
    /// Bytes that nothing points to, before the body.
    pub gap: usize,
}

impl Part {
    /// A part without a gap before it.
    pub fn new(kind: u32, body: &[u8]) -> Part {
        Part {
            kind,
            body: body.to_vec(),
            gap: 0,
        }
    }
}

/// A file whose table has the parts in the order given. The bodies lie in the
/// order of `body_order`, which holds each place in `parts` once. Gaps are
/// filled with AAh.
pub fn write_capture(parts: &[Part], body_order: &[usize]) -> Vec<u8> {
    let table_bytes = parts.len() * ENTRY_BYTES;
    let mut bodies = Vec::new();
    let mut offsets = vec![0; parts.len()];
    for place in body_order {
        let part = &parts[*place];
        bodies.resize(bodies.len() + part.gap, 0xAA);
        offsets[*place] = table_bytes + bodies.len();
        bodies.extend(&part.body);
    }
    let mut file = Vec::new();
    for (part, offset) in parts.iter().zip(offsets) {
        file.extend(entry(part.kind, offset as u32, part.body.len() as u32));
    }
    file.extend(bodies);
    file
}

/// The 12 bytes of an entry.
pub fn entry(kind: u32, offset: u32, length: u32) -> Vec<u8> {
    let numbers = [kind, offset, length];
    numbers
        .iter()
        .flat_map(|number| number.to_le_bytes())
        .collect()
}
