// SPDX-License-Identifier: Apache-2.0
//! What the proved program `main_standin` is run on, and what it has to print, by the second program.

use crate::image;
use second::generate::{exhaustive, random, structured, List};
use second::Device;
use std::collections::BTreeMap;
use std::fmt::Write;

/// Lengths of frames, taken in turn: lists are cut at odd places, so that calls hand a byte under way on.
const FRAME_LENGTHS: [usize; 5] = [997, 64, 7, 1, 2500];

/// A sample of the generators' lists, every family in it: whole lists, spread over the family, and of a list that is
/// longer than the family's share its first events.
pub fn sample() -> Vec<Vec<u8>> {
    let mut lists = share(exhaustive(), 8_000);
    lists.extend(share(structured(23, 1_000_000), 3_000));
    lists.extend(share(random(29, 200_000), 6_000));
    lists
}

fn share(lists: Vec<List>, events: usize) -> Vec<Vec<u8>> {
    let mut families: BTreeMap<&str, Vec<Vec<u8>>> = BTreeMap::new();
    for list in lists {
        families.entry(list.family).or_default().push(list.events);
    }
    families
        .into_values()
        .flat_map(|family| spread(family, events))
        .collect()
}

/// Lists of a family at even distances, together about so many events.
fn spread(family: Vec<Vec<u8>>, events: usize) -> Vec<Vec<u8>> {
    let all: usize = family.iter().map(Vec::len).sum();
    let every = all.div_ceil(events).min(family.len());
    family
        .into_iter()
        .step_by(every)
        .map(|mut list| {
            list.truncate(events);
            list
        })
        .scan(0, |taken, list| {
            *taken += list.len();
            (*taken < 2 * events).then_some(list)
        })
        .collect()
}

/// The sum that `standin` writes.
fn sum_of(bytes: &[u8]) -> u64 {
    bytes.iter().fold(0, |sum, byte| {
        (sum * 257 + u64::from(*byte)) % 4_294_967_291
    })
}

/// The input and the output: for each list a fresh device, its events in frames, and a report.
pub fn input_and_output() -> (Vec<u8>, String) {
    let (mut input, mut output) = (Vec::new(), String::new());
    let mut lengths = FRAME_LENGTHS.iter().cycle();
    for list in sample() {
        input.extend([0xFF, 0xFF]);
        let mut device = Device::fresh();
        let mut rest = &list[..];
        while !rest.is_empty() {
            let (frame, after) = rest.split_at((*lengths.next().unwrap()).min(rest.len()));
            input.extend((frame.len() as u16).to_le_bytes());
            input.extend(frame);
            let answers = device.run(frame);
            writeln!(output, "0 {} {:08x}", frame.len(), sum_of(&answers)).unwrap();
            rest = after;
        }
        input.extend([0, 0]);
        let image: String = image::of(&device)
            .iter()
            .map(|byte| format!("{byte:02x}"))
            .collect();
        writeln!(
            output,
            "image {image} memory {:08x}",
            sum_of(&device.memory)
        )
        .unwrap();
    }
    (input, output)
}
