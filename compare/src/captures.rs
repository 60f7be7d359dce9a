// SPDX-License-Identifier: Apache-2.0
//! Captures to judge, and what each program says of them.

use crate::archive::{self, Judgement};
use crate::image;
use crate::lists::Case;
use second::capture::{judge, write_capture, Part, Verdict, MOST_FILE_BYTES, TABLE_BYTES};
use second::capture::{KIND_ANSWERS, KIND_EVENTS, KIND_IMAGE, KIND_MEMORY};
use second::generate::structured;

/// The kinds in the order of their numbers.
pub const KINDS: [u32; 4] = [KIND_IMAGE, KIND_MEMORY, KIND_EVENTS, KIND_ANSWERS];

/// The second program's verdict.
pub fn by_second(file: &[u8]) -> Verdict {
    judge(file, image::state_of)
}

/// A verdict's number and place, as docs/CAPTURE.md lists them.
pub fn judgement_of(verdict: Verdict) -> Judgement {
    let (number, place) = match verdict {
        Verdict::AllAgree(count) => (0, count),
        Verdict::Differs { place, .. } => (1, place),
        Verdict::FaultyEntry(entry) => (2, entry),
        Verdict::TooLong => (3, 0),
    };
    Judgement {
        number,
        place: place as u64,
    }
}

/// Holds both programs to each other on a file; the second program's verdict.
pub fn hold(what: &str, file: &[u8]) -> Verdict {
    let verdict = by_second(file);
    assert_eq!(archive::judge(file), judgement_of(verdict), "{what}");
    verdict
}

/// The four parts of a case's recording, by the second program, in the order of their kinds.
pub fn recorded(case: &Case) -> [Vec<u8>; 4] {
    let answers = case.device.clone().run(&case.events);
    [
        image::of(&case.device).to_vec(),
        case.device.memory.clone(),
        case.events.clone(),
        answers,
    ]
}

/// A file of four parts: the table in one order of kinds, the bodies in the same, with gaps before them.
pub fn file_of(parts: &[Vec<u8>; 4], order: [u32; 4], gap: usize) -> Vec<u8> {
    let entries = order.map(|kind| Part {
        gap,
        ..Part::new(kind, &parts[kind as usize - 1])
    });
    write_capture(&entries, &[0, 1, 2, 3])
}

/// Every order of the four kinds.
pub fn orders() -> Vec<[u32; 4]> {
    let mut orders = vec![];
    for first in KINDS {
        for second in KINDS {
            for third in KINDS {
                let fourth = 10u32.wrapping_sub(first + second + third);
                let order = [first, second, third, fourth];
                if KINDS.iter().all(|kind| order.contains(kind)) {
                    orders.push(order);
                }
            }
        }
    }
    orders
}

/// A number of an entry, 0 kind, 1 offset, 2 length.
pub fn number_in(file: &[u8], entry: usize, which: usize) -> u32 {
    let from = 12 * entry + 4 * which;
    u32::from_le_bytes(file[from..from + 4].try_into().unwrap())
}

/// Puts a number of an entry.
pub fn put(file: &mut [u8], entry: usize, which: usize, number: u32) {
    let from = 12 * entry + 4 * which;
    file[from..from + 4].copy_from_slice(&number.to_le_bytes());
}

/// What the proved program `main_judge` is run on: a long recording, table and bodies out of order, whose last answer is
/// wrong; and the line that it has to print.
pub fn input_and_output() -> (Vec<u8>, String) {
    let room = (MOST_FILE_BYTES - TABLE_BYTES - 64 - 8192) / 2;
    let lists = structured(41, 200_000);
    let mut case = Case::of(&lists[0]);
    case.events = lists.into_iter().flat_map(|list| list.events).collect();
    case.events.truncate(room);
    let mut parts = recorded(&case);
    let last = parts[3].last_mut().expect("some answers");
    *last ^= 1;
    let order = [KIND_ANSWERS, KIND_MEMORY, KIND_EVENTS, KIND_IMAGE];
    let file = file_of(&parts, order, 0);
    let line = line_of(by_second(&file));
    (file, line)
}

/// The line that the program prints.
fn line_of(verdict: Verdict) -> String {
    match verdict {
        Verdict::AllAgree(count) => format!("all agree: {count} answers\n"),
        Verdict::Differs {
            place,
            recorded,
            right,
        } => format!("answer {place} differs: recorded {recorded:02x}, right {right:02x}\n"),
        Verdict::FaultyEntry(entry) => format!("entry {entry} is faulty\n"),
        Verdict::TooLong => "too long\n".to_string(),
    }
}
