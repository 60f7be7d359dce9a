// SPDX-License-Identifier: Apache-2.0
//! The waveform file: its form, and that the two wires carry exactly the events of the script.

mod support;

use std::collections::BTreeMap;

use support::{all_script_names, part_of, script, Folder};

/// A waveform file taken apart: wire names by letter, and changes in order of time.
struct Waveform {
    names: BTreeMap<char, String>,
    changes: Vec<(u64, char, bool)>,
}

/// Reads a file, and fails on anything that a strict reader would not accept.
fn read(text: &str) -> Waveform {
    let (head, body) = text.split_once("$enddefinitions $end\n").expect("a head");
    assert!(head.contains("$timescale 1 us $end"));
    let mut names = BTreeMap::new();
    assert!(head.contains("\n$var real 64 - TICKS $end\n"));
    for line in head.lines().filter(|line| line.starts_with("$var wire")) {
        let words: Vec<&str> = line.split(' ').collect();
        assert_eq!(words[..3], ["$var", "wire", "1"], "{line}");
        assert_eq!(words[5], "$end");
        let letter = words[3].chars().next().unwrap();
        assert!(names.insert(letter, words[4].to_string()).is_none());
    }
    let mut changes = Vec::new();
    let mut time = None;
    for line in body.lines() {
        match line.split_at(1) {
            ("#", digits) => {
                let next: u64 = digits.parse().unwrap();
                assert!(time.is_none_or(|before| before < next), "time goes on");
                time = Some(next);
            }
            ("0" | "1", letter) => {
                let letter = letter.chars().next().unwrap();
                assert!(names.contains_key(&letter), "an unknown wire");
                changes.push((time.expect("a time"), letter, line.starts_with('1')));
            }
            // How many ticks a long pulse stands for.
            ("r", number) => assert!(number.ends_with(" -"), "{line}"),
            _ => assert!(line == "$dumpvars" || line == "$end", "{line}"),
        }
    }
    Waveform { names, changes }
}

impl Waveform {
    fn letter(&self, name: &str) -> char {
        let found = self.names.iter().find(|(_, known)| *known == name);
        *found.expect(name).0
    }

    /// The levels of one wire in order of time.
    fn levels(&self, name: &str) -> Vec<bool> {
        let letter = self.letter(name);
        let of_wire = self.changes.iter().filter(|change| change.1 == letter);
        of_wire.map(|change| change.2).collect()
    }
}

/// What the edges of the two wires say: S, P, or the bit of a whole pulse of SCL.
fn decode(waveform: &Waveform) -> String {
    let (scl, sda) = (waveform.letter("SCL"), waveform.letter("SDA"));
    let (mut clock, mut data) = (true, true);
    let mut bit = None;
    let mut signs = String::new();
    for (time, letter, level) in &waveform.changes {
        if *time == 0 {
            continue;
        }
        if *letter == sda {
            if clock {
                // A turn of SDA while SCL is high is a condition and no bit.
                bit = None;
                signs.push(if *level { 'P' } else { 'S' });
            }
            data = *level;
        } else if *letter == scl {
            if *level {
                bit = Some(data);
            } else if let Some(level) = bit.take() {
                signs.push(if level { '1' } else { '0' });
            }
            clock = *level;
        }
    }
    signs
}

/// What the events and their answers say.
fn expected(events: &[u8], answers: &[u8]) -> String {
    let sign = |(event, answer): (&u8, &u8)| match event {
        0 => Some('S'),
        1 => Some('P'),
        2 | 3 => Some(if answer & 1 == 1 { '1' } else { '0' }),
        _ => None,
    };
    events.iter().zip(answers).filter_map(sign).collect()
}

/// Plays an event file on an FM3130, and compares the wires with events and answers.
fn compare(folder: &Folder, name: &str) -> Waveform {
    compare_on("fm3130", folder, name)
}

/// The same on a part.
fn compare_on(part: &str, folder: &Folder, name: &str) -> Waveform {
    let files = ["--vcd", "wires.vcd", "--answers", "answers", "--quiet"];
    let words = ["run", "--events", "events", "--part", part];
    folder.succeed(&[&words[..], &files[..]].concat());
    let waveform = read(&String::from_utf8(folder.read("wires.vcd")).unwrap());
    let expected = expected(&folder.read("events"), &folder.read("answers"));
    assert_eq!(decode(&waveform), expected, "{name}");
    waveform
}

#[test]
fn the_wires_carry_the_events_of_every_script() {
    let folder = Folder::new("waveform-scripts");
    for name in all_script_names() {
        let part = part_of(&name);
        folder.succeed(&["events", &script(&name), "-o", "events", "--part", &part]);
        compare_on(&part, &folder, &name);
    }
}

#[test]
fn the_wires_carry_the_events_of_random_lists() {
    let folder = Folder::new("waveform-random");
    for list in second::generate::random(99, 24_000) {
        folder.write("events", &list.events);
        compare(&folder, &list.name);
        // Edges have wires of their own and are nothing on the bus, wherever they fall.
        let pairs = list.events.iter().enumerate();
        let with_edges: Vec<u8> = pairs
            .flat_map(|(place, event)| [8 + place as u8 % 2, *event])
            .collect();
        folder.write("events", &with_edges);
        let waveform = compare_on("fm3164", &folder, &list.name);
        for (event, name) in [(8, "CNT1"), (9, "CNT2")] {
            let edges = with_edges.iter().filter(|one| **one == event).count();
            let rises = waveform.levels(name).iter().filter(|level| **level).count();
            assert_eq!(rises, edges, "{name} of {}", list.name);
        }
    }
}

#[test]
fn sda_is_low_exactly_when_someone_pulls() {
    let folder = Folder::new("waveform-pulls");
    folder.succeed(&["events", &script("read-clock"), "-o", "events"]);
    let waveform = compare(&folder, "read-clock");
    let [sda, master, device] = ["SDA", "MASTER", "DEVICE"].map(|name| waveform.letter(name));
    let mut levels = BTreeMap::new();
    let mut time = 0;
    for (now, letter, level) in &waveform.changes {
        if *now != time {
            assert_eq!(levels[&sda], levels[&master] && levels[&device]);
            time = *now;
        }
        levels.insert(*letter, *level);
    }
}

#[test]
fn the_alarm_is_seen_on_the_pin() {
    let folder = Folder::new("waveform-pin");
    folder.succeed(&["events", &script("alarm"), "-o", "events"]);
    let waveform = compare(&folder, "alarm");
    assert_eq!(waveform.levels("ACS"), [true, false, true, false, true]);
}

#[test]
fn power_and_ticks_have_wires() {
    let folder = Folder::new("waveform-power");
    folder.write("events", [4, 4, 5, 6, 7]);
    let waveform = compare(&folder, "power");
    assert_eq!(waveform.levels("TICK"), [false, true, false, true, false]);
    assert_eq!(waveform.levels("VDD"), [true, false, true]);
    assert_eq!(waveform.levels("SUPPLIED"), [true, false, true]);
    folder.write("events", vec![4; 1_000_000]);
    assert_eq!(compare(&folder, "long").levels("TICK").len(), 3);
}
