// SPDX-License-Identifier: Apache-2.0
//! What would be large is said first, and is written only where it is asked for.

mod support;

use support::Folder;

const NEED: &str = "more than 100 MB need --large\n";

/// Runs a text that must be refused, with the words for its size, and write nothing.
fn refused(folder: &Folder, words: &[&str], text: &str, said: &str) {
    let before = folder.snapshot();
    let ran = folder.run_with(words, text);
    assert_eq!(
        (ran.code, ran.output.as_str()),
        (2, ""),
        "{words:?}: {}",
        ran.errors
    );
    let line = format!("fm3130: {said} would be written; {NEED}");
    assert!(ran.errors.starts_with(&line), "{words:?}: {}", ran.errors);
    assert!(folder.snapshot() == before, "{words:?} changed a file");
}

#[test]
fn a_few_letters_that_stand_for_much_are_refused() {
    let folder = Folder::new("large-refused");
    let all = "t*4294967295";
    let refused = |words: &[&str], text, said| refused(&folder, words, text, said);
    refused(&["events", "-", "-o", "e"], all, "e: 4294967295 bytes");
    refused(&["events", "-"], all, "standard output: 12884901885 bytes");
    refused(
        &["run", "-", "--quiet", "--answers", "a"],
        all,
        "a: 4294967295 bytes",
    );
    refused(
        &[
            "run",
            "-",
            "--answers",
            "a",
            "--part",
            "fm3164@0",
            "--part",
            "fm3164@1",
        ],
        all,
        "a: 4294967295 bytes",
    );
    refused(
        &["run", "-", "--quiet", "--vcd", "v", "--part", "fm3164"],
        "c1*4294967295",
        "v: about 107374 MB",
    );
    refused(
        &["run", "-"],
        "[ A0 FF*99000000 ]",
        "standard output: about 4455 MB",
    );
    refused(
        &["lamps", "-"],
        "[*9000000",
        "standard output: about 198 MB",
    );
    let turns = "a: [*1000000\n".repeat(6);
    refused(&["share", "-"], &turns, "standard output: about 132 MB");
}

/// Of ticks and edges in a row little is written but their answers.
#[test]
fn what_is_small_is_played_without_a_word() {
    let folder = Folder::new("large-small");
    let small = |words: &[&str], text: &str| {
        let ran = folder.run_with(words, text);
        assert_eq!((ran.code, ran.errors.as_str()), (0, ""), "{words:?}");
    };
    small(&["run", "-", "--vcd", "v"], "t*4294967295");
    small(&["run", "-", "--quiet"], "t*4294967295");
    small(&["events", "-", "-o", "e"], "t*1000000");
    small(&["run", "-", "--answers", "a", "--quiet"], "t*1000000");
}

/// The size is said even where it is asked for. A device that is full ends it soon.
#[test]
fn what_is_asked_for_is_said_and_begun() {
    let folder = Folder::new("large-asked");
    let ran = folder.run_with(
        &["events", "-", "-o", "/dev/full", "--large"],
        "t*4294967295",
    );
    assert_eq!(ran.code, 1);
    let said = "fm3130: /dev/full: 4294967295 bytes are written\nfm3130: /dev/full: ";
    assert!(ran.errors.starts_with(said), "{}", ran.errors);
}

/// What is said of a size that is not exact is near it.
#[test]
fn sizes_are_about_right() {
    let folder = Folder::new("large-about");
    // A thousand times as much is above the limit.
    for (one, times) in [
        ("FF", 60_000),
        ("{10}", 150_000),
        ("]", 60_000),
        ("r", 60_000),
    ] {
        let text = |times: u64| format!("[ A0 00 00 [ A1 {one}*{times}");
        let said = |words: &[&str]| -> u64 {
            let ran = folder.run_with(words, &text(times * 1000));
            assert_eq!(ran.code, 2, "{one}: {}", ran.errors);
            let about = ran.errors.split("about ").nth(1).unwrap();
            about.split(' ').next().unwrap().parse().unwrap()
        };
        let vcd = said(&["run", "-", "--quiet", "--vcd", "v"]) * 1000;
        let words = said(&["run", "-"]) * 1000;
        let ran = folder.run_with(&["run", "-", "--vcd", "v"], &text(times));
        let (written, printed) = (folder.read("v").len() as u64, ran.output.len() as u64);
        assert!(
            (written / 2..written * 2).contains(&vcd),
            "{one}: {written}, said {vcd}"
        );
        assert!(
            (printed / 2..printed * 2).contains(&words),
            "{one}: {printed}, said {words}"
        );
    }
}

#[test]
fn a_script_without_end_is_not_read_to_it() {
    let folder = Folder::new("large-script");
    for command in ["run", "events", "share", "lamps"] {
        let ran = folder.run(&[command, "/dev/zero"]);
        assert_eq!(ran.code, 3);
        assert_eq!(
            ran.errors,
            "fm3130: /dev/zero: the script is longer than 4 MiB\n"
        );
    }
}

#[test]
fn a_picture_of_turns_stops_and_says_so() {
    let folder = Folder::new("large-turns");
    let ran = folder.run_with(
        &["share", "-", "--svg", "s", "--quiet"],
        &"a:[]".repeat(5000),
    );
    assert_eq!(ran.code, 0);
    assert_eq!(ran.errors, "fm3130: the picture stops after 4000 turns\n");
    let picture = String::from_utf8(folder.read("s")).unwrap();
    assert_eq!(picture.matches(">answered<").count(), 4000);
    assert!(picture.contains("the picture stops after 4000 turns</text>"));
    // A turn that is too long is found before the first is played.
    let ran = folder.run_with(&["share", "-"], "a: [ ]\nb: t*2000000");
    assert_eq!((ran.code, ran.output.as_str()), (3, ""));
}

/// Ticks and edges inside a byte are drawn with it, and wait for its end.
#[test]
fn what_waits_inside_a_byte_has_a_limit() {
    let folder = Folder::new("large-marks");
    let pairs = [4, 8].repeat(3000);
    folder.write("events", [&[0, 3][..], &pairs, &[2, 1]].concat());
    let words = ["--part", "fm3164", "--quiet", "--svg", "s"];
    let ran = folder.run(&[&["run", "--events", "events"], &words[..]].concat());
    assert_eq!(ran.code, 0);
    assert!(
        ran.errors.contains("the drawing stops after 4000 cells"),
        "{}",
        ran.errors
    );
}
