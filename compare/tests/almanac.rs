// SPDX-License-Identifier: Apache-2.0
//! `rt` holds the proved program to the file `crates/main_almanac/stdout`; this holds that file to
//! the second program, and its first seven lines to the cases that are proved.

const STORED: &str = include_str!("../../crates/main_almanac/stdout");
const CASES: &str = include_str!("../../crates/calendar/specs/Cases.antt");

#[test]
fn stored_output_is_the_second_programs() {
    assert_eq!(STORED, compare::almanac::expected());
    assert_eq!(STORED.lines().count(), 7 + 100);
}

/// The calendar that a case of specs/Cases starts from, as the program prints it.
fn start_of(case: &str) -> String {
    let (_, definition) = CASES.split_once(&format!("\n{case} =")).unwrap();
    let (_, from) = definition.split_once("from = ").unwrap();
    let (from, _) = from.split_once(';').unwrap();
    let bytes: Vec<&str> = from
        .split_whitespace()
        .flat_map(|word| match word {
            "on" => vec![],
            "last_of" => vec!["23", "59", "59"],
            byte => vec![byte.trim_start_matches("0x")],
        })
        .collect();
    let [hours, minutes, seconds, date, month, year, day] = bytes[..] else {
        panic!("{case} starts from {from}");
    };
    format!("{case} {hours}:{minutes}:{seconds} {date}/{month}/{year} day {day} -> ")
}

#[test]
fn the_cases_printed_are_the_cases_proved() {
    for (number, line) in (1..=7).zip(STORED.lines()) {
        let start = start_of(&format!("K{number}"));
        assert!(line.starts_with(&start), "{line}\n{start}");
    }
}
