// SPDX-License-Identifier: Apache-2.0
//! Scripts as tests: what they expect is held, and what did not come about is shown.

mod support;

use std::fs;

use support::{scripts, Folder, Ran};

/// Runs a script that expects something which does not come about.
fn unmet(folder: &Folder, text: &str, words: &[&str]) -> Ran {
    folder.write("script.bus", text);
    let before = folder.snapshot();
    let ran = folder.run(&[&["run", "script.bus"], words].concat());
    assert_eq!(ran.code, 4, "{text}: {}", ran.errors);
    assert!(folder.snapshot() == before, "{text} changed a file");
    ran
}

#[test]
fn what_is_not_met_has_line_column_and_mark() {
    let folder = Folder::new("expectations-unmet");
    folder.succeed(&["fresh", "--image", "image", "--memory", "memory"]);
    let files = ["--image", "image", "--memory", "memory"];
    let text = "[ A0 01 23 5A ]\n\t[ A0 01 23 [ A1 r=5B ]\n";
    let ran = unmet(&folder, text, &files);
    assert_eq!(
        ran.errors,
        "fm3130: script.bus:2:18: expected 5Bh, seen 5Ah\n 2 | \t[ A0 01 23 [ A1 r=5B ]\n   | \t                ^^^^\n"
    );
    assert!(ran.output.contains("read  5Ah"), "{}", ran.output);
    for (text, said) in [
        ("[ A0- ]", "1:3: expected no acknowledge, seen one"),
        ("[ A2+ ]", "1:3: expected an acknowledge, seen none"),
        ("[ A2 r=FF ]", "1:6: expected FFh, and nobody sends"),
        ("r=FF", "1:1: expected FFh, and nobody sends"),
        (
            "[ A1 r=00:2 r=01:4 ]",
            "1:13: expected 01h, seen 00h, the first time at 1 of 4",
        ),
        (
            "t pin=low",
            "1:3: expected the ACS pin: alarm, pulled low; seen: square wave",
        ),
        // Where the device sends, a low line at the ninth clock is no acknowledge of its own.
        ("[ A1 00+ ]", "1:6: expected an acknowledge, seen none"),
        // Clocks that are not those of one byte show no acknowledge.
        ("[ A0 00 {0} 00+ ]", "expected an acknowledge, seen none"),
    ] {
        let ran = unmet(&folder, text, &["--quiet", "--answers", "new"]);
        assert!(ran.errors.contains(said), "{text}: {}", ran.errors);
    }
    let many = unmet(&folder, &"[ A0- ]\n".repeat(12), &["--quiet"]);
    assert_eq!(many.errors.matches("expected no acknowledge").count(), 10);
    assert!(many.errors.ends_with("script.bus: and 2 more\n"));
}

#[test]
fn the_pin_is_looked_at_between_two_ticks() {
    let folder = Folder::new("expectations-pin");
    let alarm = "[ D0 09 30 80 80 80 80 ] [ D0 0E 80 ] [ D0 00 08 ] [ D0 01 00 ]";
    for ticks in [
        "pin=high t*29 pin=high t pin=low t*5 pin=low",
        "t*30 pin=low",
        "t*29 pin=high",
        "t*89 pin=low [ D0 00 [ D1 r=48 ] pin=high t pin=low",
        "t*29 pin=high lost pin=high t pin=low gone pin=released",
    ] {
        folder.write("script.bus", format!("{alarm} {ticks}"));
        for words in [&["--quiet"][..], &["--quiet", "--answers", "answers"]] {
            folder.succeed(&[&["run", "script.bus"], words].concat());
        }
    }
    let ran = unmet(&folder, &format!("{alarm} t*29 pin=low t"), &["--quiet"]);
    assert!(ran.errors.contains("seen: alarm, not raised"));
}

#[test]
fn lamps_and_two_masters_hold_them_too() {
    let folder = Folder::new("expectations-others");
    folder.write("script.bus", "[ A0 10 00 01+ ] [ A0 10 00 [ A1 r=00 ]");
    let ran = folder.run(&["lamps", "script.bus", "--svg", "svg"]);
    assert_eq!(ran.code, 4);
    assert!(ran.errors.contains("1:34: expected 00h, seen 01h"));
    assert!(!folder.file("svg").exists());
    let turns = "a: [ A0+ 01 23\nb: [ A1 r=00 ]\na: 5A+ ]\nb: [ A0 01 23 [ A1 r=5B ]";
    folder.write("turns.masters", turns);
    for command in ["share", "test"] {
        let ran = folder.run(&[command, "turns.masters"]);
        let said = ran.errors + &ran.output;
        assert_eq!(ran.code, 4, "{said}");
        assert!(said.contains("2:9: expected something, and the turn is refused"));
        assert!(said.contains("4:20: expected 5Bh, seen 5Ah"), "{said}");
        assert!(!said.contains("masters:1:") && !said.contains("masters:3:"));
    }
}

#[test]
fn scripts_are_tested_together() {
    let folder = Folder::new("expectations-test");
    folder.write("good.bus", "[ A0+ 01+ 23+ 5A+:3 ]");
    folder.write("bad.bus", "[ A0 ]\n[ A0- ]");
    folder.write("silent.bus", "[ A0 ]");
    folder.write("wrong.bus", "[ lots ]");
    let sum = |ran: &Ran| ran.output.lines().last().unwrap().to_string();

    let ran = folder.run(&["test", "good.bus"]);
    assert_eq!((ran.code, ran.errors.as_str()), (0, ""));
    let lines = "ok      good.bus: 6 expectations\n\
                 1 script: 1 as expected, 0 failed; 6 expectations\n";
    assert_eq!(ran.output, lines);

    let ran = folder.run(&["test", "good.bus", "bad.bus", "silent.bus"]);
    assert_eq!(ran.code, 4);
    assert!(ran
        .output
        .contains("FAILED  bad.bus\nbad.bus:2:3: expected no"));
    assert!(ran.output.contains("none    silent.bus"));
    assert_eq!(
        sum(&ran),
        "3 scripts: 1 as expected, 1 failed, 1 without expectations; 7 expectations"
    );

    let ran = folder.run(&["test", "wrong.bus", "none.bus", "good.bus", "--quiet"]);
    assert_eq!(ran.code, 3);
    assert!(ran.output.contains("unknown word lots"));
    assert!(ran.output.contains("none.bus: "));
    assert!(!ran.output.contains("ok "));

    // Nothing that was not expected was tested.
    let ran = folder.run(&["test", "silent.bus"]);
    assert_eq!(ran.code, 3);
    assert!(ran.errors.contains("nothing was tested"), "{}", ran.errors);
    let ran = folder.run_with(&["test", "-"], "[ A0+ ]");
    assert_eq!(ran.code, 0, "{}", ran.errors);
    assert_eq!(folder.run(&["test"]).code, 2);
}

/// The scripts of scripts/ are tests: each expects something, and it comes about.
#[test]
fn the_scripts_of_this_house() {
    let folder = Folder::new("expectations-scripts");
    let names = |ending: &str| -> Vec<String> {
        let entries = fs::read_dir(scripts()).unwrap();
        let paths = entries.map(|entry| entry.unwrap().path());
        let wanted = paths.filter(|path| path.extension().is_some_and(|one| one == ending));
        wanted
            .map(|path| path.to_str().unwrap().to_string())
            .collect()
    };
    let test = |names: Vec<String>, parts: &[&str]| {
        let mut words = vec!["test"];
        words.extend(names.iter().map(String::as_str));
        words.extend(parts);
        let output = folder.succeed(&words);
        assert!(!output.contains("without expectations"), "{output}");
    };
    let is_of_counters = |name: &String| name.ends_with("counting.bus");
    let (counting, others): (Vec<_>, Vec<_>) = names("bus").into_iter().partition(is_of_counters);
    assert!(others.len() >= 8 && counting.len() == 1);
    test(others, &[]);
    test(counting, &["--part", "fm3164"]);
    test(names("masters"), &[]);
    let set = ["fm31256@0", "fm3164@1", "fm3164@2", "fm31256@3"];
    let set: Vec<&str> = set.into_iter().flat_map(|part| ["--part", part]).collect();
    test(names("set"), &set);
}

/// Runs the commands that a document shows after a heading, up to the next heading, and holds what it shows.
fn holds_examples_of(document: &str, heading: &str) -> usize {
    let (_, part) = document.split_once(heading).unwrap();
    let part = part.split("\n## ").next().unwrap();
    let mut held = 0;
    for block in part.split("\n    $ ").skip(1) {
        let shown = block.lines().take_while(|line| !line.is_empty());
        let shown: Vec<&str> = shown.map(|line| line.trim_start_matches("    ")).collect();
        let line = shown[0].replace("fm3130 ", concat!(env!("CARGO_BIN_EXE_fm3130"), " "));
        let output = std::process::Command::new("sh")
            .args(["-c", &format!("{line} 2>&1")])
            .current_dir(scripts().join(".."))
            .output()
            .unwrap();
        let said = String::from_utf8(output.stdout).unwrap();
        let said: Vec<&str> = said.lines().map(|line| line.trim_start()).collect();
        let wanted: Vec<&str> = shown[1..].iter().map(|line| line.trim_start()).collect();
        assert_eq!(said, wanted, "{}", shown[0]);
        held += 1;
    }
    held
}

#[test]
fn documents_show_what_is_printed() {
    let scripts = include_str!("../../../docs/SCRIPTS.md");
    assert_eq!(holds_examples_of(scripts, "\n## Expectations\n"), 2);
    assert_eq!(holds_examples_of(scripts, "\n## Errors\n"), 1);
}
