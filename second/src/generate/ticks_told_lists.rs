// SPDX-License-Identifier: Apache-2.0
//! Lists of three ticks around the end of something (02, number 4).

use super::handed_in_lists::HandedInList;
use super::script::Script;
use super::starting_state::StartingState;
use crate::calendar::{calendar_from_numbers, midnights, Calendar};

/// Three ticks from the last second but one of something on; the memory of
/// these lists is all 0.
pub fn ticks_told() -> Vec<HandedInList> {
    let mut lists = Vec::new();
    for (last_second, _, _) in midnights() {
        lists.push(three_ticks("midnights", last_second));
    }
    for (date, month, year) in DATES {
        for minute in 0..24 * 60_u16 {
            let time = ((minute / 60) as u8, (minute % 60) as u8, 59);
            let last_second = calendar_from_numbers(time, 5, (date, month, year));
            lists.push(three_ticks("minute-ends", last_second));
        }
    }
    lists
}

/// Date, month and year: an ordinary day, the ends of months and years.
const DATES: [(u8, u8, u8); 7] = [
    (15, 6, 21),
    (30, 6, 21),
    (28, 2, 20),
    (28, 2, 21),
    (29, 2, 20),
    (31, 12, 21),
    (31, 12, 99),
];

fn three_ticks(family: &'static str, last_second: Calendar) -> HandedInList {
    let mut first = last_second;
    first.seconds = 0x58;
    let mut script = Script::new();
    script.ticks(3);
    let bytes = last_second.to_bytes();
    let name: String = bytes.iter().map(|byte| format!("{byte:02X}")).collect();
    let state = StartingState::running(0x00, first, first);
    let mut list = HandedInList::new(family, name, state, script);
    list.memory_seed = 0;
    list
}
