// SPDX-License-Identifier: Apache-2.0
//! Holds the proved archive to the counts that docs/SPEED.md stores: none may grow by more than a twentieth. A count repeats
//! exactly, so this is no timed test. The counts are those of x86-64.

use crate::counting;
use crate::traffic;

/// What a count may be, beside the one that is stored.
const MOST: f64 = 1.05;

/// The events in the words of the table.
const EVENTS: [&str; 8] = [
    "Start",
    "Stop",
    "Clock, low",
    "Clock, high",
    "tick",
    "power lost, backup",
    "power lost, no backup",
    "power returned",
];

/// What is counted, and the instructions.
struct Count {
    what: String,
    instructions: f64,
}

/// The five lists, by the event, and a call of each event by itself.
fn counts() -> Vec<Count> {
    let lists = traffic::all();
    let by_list = lists.iter().map(|list| Count {
        what: format!("list {}, an event", list.name),
        instructions: counting::count(list, "proved"),
    });
    let by_event = EVENTS.iter().enumerate().map(|(event, name)| Count {
        what: format!("one call, {name}"),
        instructions: counting::count_one(event as u8, "proved"),
    });
    by_list.chain(by_event).collect()
}

/// The stored count of a row that begins with these words.
fn stored(document: &str, what: &str) -> Option<f64> {
    let row = format!("| {what} |");
    let line = document.lines().find(|line| line.starts_with(&row))?;
    line[row.len()..].split('|').next()?.trim().parse().ok()
}

/// Prints every count beside the stored one; says whether all are held.
pub fn hold(document: &str) -> bool {
    let mut held = true;
    println!("| what | instructions, stored | now |\n|---|---|---|");
    for count in counts() {
        let (what, now) = (&count.what, count.instructions);
        let Some(before) = stored(document, what) else {
            println!("| {what} | none | {now:.1} |");
            held = false;
            continue;
        };
        let grown = now > before * MOST;
        let word = if grown { " GROWN" } else { "" };
        println!("| {what} | {before:.1} | {now:.1}{word} |");
        held &= !grown;
    }
    held
}

#[test]
fn a_row_is_found_by_its_words() {
    let document = "| list memory, an event | 28.0 |\n| one call, tick | 301 | 12 |\n";
    assert_eq!(stored(document, "list memory, an event"), Some(28.0));
    assert_eq!(stored(document, "one call, tick"), Some(301.0));
    assert_eq!(stored(document, "one call, Start"), None);
}
