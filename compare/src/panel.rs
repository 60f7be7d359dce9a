// SPDX-License-Identifier: Apache-2.0
//! What the proved program `main_panel` is run on, and what it has to print, by the second program.

use crate::lamps::{proved, refused_bytes, reports_of, transactions, Master};
use crate::lists::Case;
use second::generate::lamps;
use std::fmt::Write;

/// The byte of the input that stands for a fresh device.
const ANEW: u8 = 0xFF;

/// The most bytes that the program reads.
pub const MOST: usize = 65_536;

/// A hang of each kind of byte, each refused byte, and lists of the generator, up to the program's limit.
fn sample() -> Vec<Vec<u8>> {
    let mut lists: Vec<Vec<u8>> = Vec::new();
    for transaction in transactions() {
        let half = transaction.events.len() / 2;
        let part = Master {
            events: transaction.events[..half].to_vec(),
        };
        lists.push(proved().then(&part).ticks(2).start().events);
        lists.push(proved().then(&transaction).ticks(3).events);
    }
    for byte in refused_bytes() {
        lists.push(byte.start().events);
    }
    lists.extend(lamps(41, MOST).into_iter().map(|list| list.events));
    let mut length = 0;
    lists
        .into_iter()
        .take_while(|list| {
            length += list.len() + 1;
            length <= MOST
        })
        .collect()
}

/// The input and the output: each list on a fresh device, and a line wherever the report changes.
pub fn input_and_output() -> (Vec<u8>, String) {
    let (mut input, mut output) = (Vec::new(), String::new());
    let mut shown = 0;
    for events in sample() {
        let case = Master { events }.case("panel".to_string());
        let Case { events, .. } = &case;
        let reports = reports_of(&case);
        for (byte, report) in [(ANEW, 0)]
            .into_iter()
            .chain(events.iter().copied().zip(reports))
        {
            if report != shown {
                writeln!(output, "{} {report:02x}", input.len()).unwrap();
                shown = report;
            }
            input.push(byte);
        }
    }
    (input, output)
}
