// SPDX-License-Identifier: Apache-2.0
//! Every example script prints what is stored in `tests/expected`.
//!
//! To store what the scripts print now, run these tests with RENEW_EXPECTED=1, and read the
//! difference before believing it.

mod support;

use std::env;
use std::fs;
use std::path::Path;

use support::{all_script_names, part_of, script, Folder};

#[test]
fn every_script_prints_what_is_expected() {
    let folder = Folder::new("scripts");
    for name in all_script_names() {
        let printed = folder.succeed(&["run", &script(&name), "--part", &part_of(&name)]);
        let expected = Path::new(env!("CARGO_MANIFEST_DIR"))
            .join("tests/expected")
            .join(format!("{name}.txt"));
        if env::var_os("RENEW_EXPECTED").is_some() {
            fs::write(&expected, &printed).unwrap();
        }
        let stored = fs::read_to_string(&expected).unwrap_or_default();
        assert_same_lines(&name, &printed, &stored);
    }
}

/// Fails at the first line that differs.
fn assert_same_lines(name: &str, printed: &str, stored: &str) {
    for (number, (one, other)) in printed.lines().zip(stored.lines()).enumerate() {
        assert_eq!(one, other, "{name}, line {}", number + 1);
    }
    assert_eq!(printed, stored, "{name}");
}

#[test]
fn the_exact_run_of_01() {
    let folder = Folder::new("exact-run");
    folder.write("exact.bus", "[ A0 ]");
    folder.succeed(&["run", "exact.bus", "--quiet", "--answers", "answers"]);
    assert_eq!(folder.read("answers"), [5, 5, 4, 5, 4, 4, 4, 4, 4, 4, 5]);
}

#[test]
fn a_device_lives_on_between_runs_even_inside_a_byte() {
    let folder = Folder::new("lives-on");
    let files = ["--image", "image", "--memory", "memory"];
    let play = |text: &str| {
        let ran = folder.run_with(&[&["run", "-"], &files[..]].concat(), text);
        assert_eq!(ran.code, 0, "{}", ran.errors);
        ran.output
    };
    let first = play("[ A0 01 23 {0101}");
    assert!(first.contains("image: new, begins fresh"));
    assert!(first.contains("Bus        data byte to the memory, 4 clocks done"));
    let second = play("{1010}");
    assert!(!second.contains("new, begins fresh"));
    assert!(second.contains("begins inside: data byte to the memory, 4 clocks done"));
    assert!(second.contains("write 5Ah  --    memory 0123h: stored; cut before the acknowledge"));
    let third = play("{1} 77 ]");
    assert!(third.contains("write 5Ah  ACK   memory 0123h: stored"));
    assert!(third.contains("write 77h  ACK   memory 0124h: stored"));
    assert_eq!(folder.read("memory")[0x0123..0x0125], [0x5A, 0x77]);
    assert_eq!(folder.read("memory").len(), 8192);
    assert_eq!(folder.read("image").len(), 64);
}

#[test]
fn pieces_of_a_script_do_what_the_whole_does() {
    let folder = Folder::new("pieces");
    let whole = "[ D0 01 00 ] t*70 [ D0 02 [ D1 r:7 ] [ A0 00 10 AA BB ] lost t power";
    folder.run_with(&["run", "-", "--image", "one", "--memory", "m1"], whole);
    let events = folder.run_with(&["events", "-", "-o", "all"], whole);
    assert_eq!(events.code, 0);
    for piece in folder.read("all").chunks(7) {
        folder.write("piece", piece);
        let words = ["--image", "two", "--memory", "m2", "--quiet"];
        folder.succeed(&[&["run", "--events", "piece"], &words[..]].concat());
    }
    assert_eq!(folder.read("one"), folder.read("two"));
    assert_eq!(folder.read("m1"), folder.read("m2"));
}

#[test]
fn quiet_prints_nothing_and_does_the_same() {
    let folder = Folder::new("quiet");
    let name = script("alarm");
    let quiet = folder.succeed(&["run", &name, "--quiet", "--answers", "a", "--image", "i"]);
    assert_eq!(quiet, "");
    folder.succeed(&["run", &name, "--answers", "b", "--image", "j"]);
    assert_eq!(folder.read("a"), folder.read("b"));
    assert_eq!(folder.read("i"), folder.read("j"));
}

#[test]
fn a_year_of_seconds_passes() {
    let folder = Folder::new("year");
    let ran = folder.run_with(&["run", "-"], "[ D0 01 00 ] t*31622400");
    assert!(ran.output.contains(
        "t*31622400 31622400 ticks (366 days): 00:00:00, 01/01/00, day 1 -> 00:00:00, 01/01/01, day 3, a \
         year passed"
    ));
}

/// The calendar set to 31/12/99, an alarm at 00:00:30 on the pin, then a sleep.
const SLEEP: &str =
    "[ D0 01 00 ] [ D0 00 0A ] [ D0 02 50 59 23 07 31 12 99 30 00 00 80 80 80 ] [ D0 00 08 ] \
                     t*100_000 [ D0 02 [ D1 r:7 ]";

#[test]
fn a_sleep_says_and_leaves_what_single_ticks_do() {
    let folder = Folder::new("sleep");
    let slept = folder.run_with(&["run", "-", "--image", "i"], SLEEP);
    let awake = folder.run_with(&["run", "-", "--image", "j", "--answers", "a"], SLEEP);
    assert!(slept.output.contains(
        "t*100000 100000 ticks (1 day, 3 hours, 46 minutes, 40 seconds): 23:59:50, 31/12/99, day 7 -> \
         03:46:30, 02/01/00, day 2, a year passed, AF set, CF set; ACS pin after tick 40: alarm, pulled low"
    ));
    let without_files = |text: &str| -> Vec<String> {
        let lines = text.lines().filter(|line| !line.contains("begins fresh"));
        lines.map(str::to_string).collect()
    };
    assert_eq!(without_files(&slept.output), without_files(&awake.output));
    assert_eq!(folder.read("i"), folder.read("j"));
}

#[test]
fn the_longest_sleep_is_done_in_parts() {
    let folder = Folder::new("long-sleep");
    let ran = folder.run_with(&["run", "-"], "[ D0 01 00 ] t*4294967295");
    assert!(ran.output.contains(
        "t*4294967295 4294967295 ticks (49710 days, 6 hours, 28 minutes, 15 seconds): 00:00:00, 01/01/00, \
         day 1 -> 06:28:15, 06/02/36, day 4, a year passed, CF set"
    ), "{}", ran.output);
}
