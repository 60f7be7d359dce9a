// SPDX-License-Identifier: Apache-2.0
//! What is wrong is said clearly, with the right exit code, and nothing is lost by it.

mod support;

use support::{Folder, Ran};

/// A folder with good files, in which nothing may change.
fn folder_with_files(name: &str) -> Folder {
    let folder = Folder::new(name);
    folder.write("good.bus", "[ A0 00 00 11 ]");
    folder.write("wrong.bus", "[ A0 00 00 22 ]\n[ A0 lots ]");
    folder.write("good.events", [0, 3, 1]);
    folder.write("wrong.events", [0, 3, 9]);
    folder.write("short", [0; 63]);
    folder.write("zeros", [0; 64]);
    folder.write("wide", vec![0; 8193]);
    folder.succeed(&["fresh", "--image", "image", "--memory", "memory"]);
    folder
}

/// Runs a command that must fail, say some words, and change nothing.
fn fails(folder: &Folder, words: &[&str], code: i32, said: &str) -> Ran {
    let before = folder.snapshot();
    let ran = folder.run(words);
    assert_eq!(ran.code, code, "{words:?}: {}", ran.errors);
    assert!(ran.errors.contains(said), "{words:?}: {}", ran.errors);
    assert!(ran.errors.starts_with("fm3130: "), "{words:?}");
    assert!(folder.snapshot() == before, "{words:?} changed a file");
    ran
}

#[test]
fn wrong_command_lines() {
    let folder = folder_with_files("wrong-lines");
    let cases: [(&[&str], &str); 36] = [
        (&[], "no command"),
        (&["jump"], "unknown command jump"),
        (&["run"], "run needs a SCRIPT"),
        (&["run", "good.bus", "more"], "one word too many: more"),
        (&["run", "good.bus", "--vdc", "x"], "unknown option --vdc"),
        (&["run", "good.bus", "--vcd"], "--vcd needs a value"),
        (&["run", "good.bus", "--quiet=1"], "--quiet takes no value"),
        (&["run", "good.bus", "--events", "good.events"], "not both"),
        (&["events"], "events needs a SCRIPT"),
        (&["events", "--list", "good.events", "-o", "x"], "no -o"),
        (&["view"], "view needs --memory FILE"),
        (&["view", "--registers"], "--registers needs --image FILE"),
        (&["view", "--memory", "memory", "ten"], "ten is no number"),
        (&["fresh"], "fresh needs"),
        (&["judge"], "judge needs a FILE"),
        (&["judge", "good", "more"], "one word too many: more"),
        (&["judge", "good", "--from-vcd", "good"], "not both"),
        (
            &["judge", "good", "--scl", "D0"],
            "--scl goes with --from-vcd",
        ),
        (&["judge", "good.bus", "--svg", "good.bus"], "name one file"),
        (&["lamps"], "lamps needs a SCRIPT"),
        (&["lamps", "good.bus", "--vcd", "x"], "unknown option --vcd"),
        (&["trim"], "trim needs an ERROR"),
        (&["trim", "-six"], "-six is no error"),
        (&["trim", "1.5"], "1.5 is no error"),
        (&["trim", "-600", "1"], "1 is no setting"),
        (&["trim", "-600", "+1", "more"], "one word too many: more"),
        (&["trim", "-600", "--all"], "unknown option --all"),
        (&["help", "jump"], "no help on jump"),
        (&["run", "good.bus", "--part"], "--part needs a value"),
        (
            &["run", "good.bus", "--part", "fm3127"],
            "fm3127 is no part; there are fm3130, fm3164 and fm31256",
        ),
        (
            &["run", "good.bus", "--part", "fm3164", "--capture", "x"],
            "--capture is for the FM3130 alone: a capture holds no FM3164",
        ),
        (
            &["lamps", "good.bus", "--part", "fm31256"],
            "lamps is for the FM3130 alone, and knows no FM31256; run, test, events, bus, view and fresh do",
        ),
        (
            &["mend", "--part=fm3164", "--image", "image"],
            "mend is for",
        ),
        (&["trim", "-600", "--part", "fm3164"], "trim is for"),
        (&["judge", "good", "--part"], "--part needs a value"),
        (
            &[
                "view",
                "--registers",
                "--image",
                "image",
                "--part",
                "fm3164",
                "8",
            ],
            "registers of the FM3164 are 09h to 18h",
        ),
    ];
    for (words, said) in cases {
        fails(&folder, words, 2, said);
    }
}

#[test]
fn two_options_that_name_one_file() {
    let folder = folder_with_files("one-file");
    let one = "name one file";
    let run = |words: &[&str]| fails(&folder, &[&["run", "good.bus"], words].concat(), 2, one);
    run(&["--image", "image", "--memory", "image"]);
    run(&["--image", "new", "--memory", "./new"]);
    run(&["--vcd", "x", "--svg", "x"]);
    run(&["--answers", "good.bus"]);
    run(&["--svg", "../one-file/good.bus"]);
    let lamps = ["lamps", "good.bus", "--svg", "./good.bus"];
    fails(&folder, &lamps, 2, one);
    fails(&folder, &["events", "good.bus", "-o", "good.bus"], 2, one);
    // A picture that is not drawn removes an old one; nothing that is read may be in its place.
    let judge = ["judge", "--from-vcd", "good.vcd"];
    for files in [
        &["--svg", "good.vcd"][..],
        &["--image", "image", "--svg", "image"],
        &["--memory", "memory", "--svg", "./memory"],
        &["--image", "image", "--memory", "image"],
    ] {
        fails(&folder, &[&judge[..], files].concat(), 2, one);
    }
    fails(&folder, &["fresh", "--image", "a", "--memory", "a"], 2, one);
}

#[test]
fn files_that_are_not_there_or_cannot_be_written() {
    let folder = folder_with_files("no-files");
    fails(&folder, &["run", "none.bus"], 1, "none.bus: ");
    fails(&folder, &["run", "--events", "none"], 1, "none: ");
    fails(&folder, &["run", "."], 1, ".: ");
    fails(&folder, &["view", "--memory", "none"], 1, "none: ");
    let run = |words: &[&str], said: &str| {
        fails(&folder, &[&["run", "good.bus"], words].concat(), 1, said);
    };
    run(&["--vcd", "no/x.vcd"], "no/x.vcd: ");
    run(&["--image", "image", "--svg", "no/x.svg"], "no/x.svg: ");
    run(&["--memory", "memory", "--answers", "."], "it is a folder");
    run(&["--image", "."], "not a regular file");
    run(&["--image", "/dev/null"], "not a regular file");
}

#[test]
fn images_and_memories_that_are_refused() {
    let folder = folder_with_files("refused");
    let run = |words: &[&str], said: &str| {
        fails(&folder, &[&["run", "good.bus"], words].concat(), 4, said);
    };
    run(
        &["--image", "short"],
        "short: the file has 63 bytes: image is not 64 bytes",
    );
    run(&["--image", "memory"], "the file has more than 64 bytes");
    run(
        &["--image", "zeros"],
        "zeros: image is not 64 bytes, or no well-formed state",
    );
    run(
        &["--memory", "image"],
        "image: the file has 64 bytes: memory is not 8,192 bytes",
    );
    run(&["--memory", "wide"], "the file has more than 8192 bytes");
    run(&["--image", "image", "--memory", "short"], "(number 1)");
    fails(&folder, &["view", "--memory", "image"], 4, "(number 1)");
    let registers = ["view", "--registers", "--image", "short"];
    fails(&folder, &registers, 4, "short: image is not 64 bytes");
}

#[test]
fn scripts_and_event_files_that_are_wrong() {
    let folder = folder_with_files("wrong-scripts");
    let files = ["--image", "image", "--memory", "memory", "--vcd", "new.vcd"];
    let run = |words: &[&str], said: &str| -> Ran {
        fails(&folder, &[&["run"], words, &files[..]].concat(), 3, said)
    };
    let ran = run(&["wrong.bus"], "wrong.bus:2:6: unknown word lots");
    assert!(ran.errors.contains("\n 2 | [ A0 lots ]\n   |      ^^^^\n"));
    assert_eq!(ran.output, "", "nothing is played before all is read");
    let ran = run(&["--events", "wrong.events"], "wrong.events: byte 2 is 09h");
    assert!(ran.errors.contains("some event byte is above 7 (number 3)"));
    assert_eq!(ran.output, "");
    folder.write("binary.bus", [b'[', 0xFF]);
    run(&["binary.bus"], "binary.bus: not UTF-8 text at byte 1");
    fails(
        &folder,
        &["events", "--list", "wrong.events"],
        3,
        "number 3",
    );
    // An edge is a word for parts with counters; for others it is neither an edge nor a byte.
    folder.write("edges.bus", "[ A0 ]\n c1*3");
    let ran = run(&["edges.bus"], "edges.bus:2:2: c1 is an edge on CNT1");
    assert!(ran.errors.contains("and the FM3130 has no counters\n"));
    assert!(ran.errors.contains("\n write C1 or 0xC1 for the byte; "));
}

#[test]
fn a_full_disk_loses_nothing() {
    // Writing to /dev/full fails as a full disk does.
    let folder = folder_with_files("full");
    let files = ["--image", "image", "--memory", "memory"];
    for option in ["--vcd", "--svg", "--answers"] {
        let words = [&["run", "good.bus", option, "/dev/full"], &files[..]].concat();
        fails(&folder, &words, 1, "/dev/full: ");
    }
}

#[test]
fn fresh_overwrites_only_by_force() {
    let folder = folder_with_files("force");
    folder.succeed(&["run", "good.bus", "--memory", "memory", "--quiet"]);
    assert_eq!(folder.read("memory")[0], 0x11);
    let words = ["fresh", "--image", "new", "--memory", "memory"];
    fails(&folder, &words, 1, "memory: is there already");
    folder.succeed(&[&words[..], &["--force"]].concat());
    assert_eq!(folder.read("memory"), [0; 8192]);
    assert_eq!(folder.read("new").len(), 64);
}

#[test]
fn a_part_past_the_end_is_refused() {
    let folder = folder_with_files("past");
    let view = |start: &str, length: &str| {
        let words = ["view", "--memory", "memory", start, length];
        fails(&folder, &words, 2, "start + length passes the end");
    };
    view("8192", "1");
    view("0x2001", "0");
    view("0xFFFFFFFFFFFFFFFF", "0xFFFFFFFFFFFFFFFF");
    assert_eq!(folder.succeed(&["view", "--memory", "memory", "8192"]), "");
}

#[test]
fn devices_are_written_and_not_replaced() {
    let folder = folder_with_files("devices");
    let words = ["--vcd", "/dev/null", "--svg", "/dev/null", "--quiet"];
    folder.succeed(&[&["run", "good.bus"], &words[..]].concat());
    let null = std::fs::metadata("/dev/null").unwrap();
    assert!(!null.is_file(), "a device must stay a device");
}

#[test]
#[cfg(unix)]
fn links_and_permissions_stay() {
    use std::os::unix::fs::{symlink, PermissionsExt};
    let folder = folder_with_files("links");
    symlink("memory", folder.file("link")).unwrap();
    let private = std::fs::Permissions::from_mode(0o600);
    std::fs::set_permissions(folder.file("memory"), private).unwrap();
    folder.succeed(&["run", "good.bus", "--memory", "link", "--quiet"]);
    assert!(folder.file("link").is_symlink());
    assert_eq!(folder.read("memory")[0], 0x11);
    let mode = folder
        .file("memory")
        .metadata()
        .unwrap()
        .permissions()
        .mode();
    assert_eq!(mode & 0o777, 0o600);
}

/// A pipe whose reader has gone away.
#[cfg(unix)]
fn without_reader() -> std::process::Stdio {
    let (one, _) = std::os::unix::net::UnixStream::pair().unwrap();
    std::os::fd::OwnedFd::from(one).into()
}

#[test]
#[cfg(unix)]
fn an_error_that_cannot_be_written_is_no_panic() {
    use std::process::Stdio;
    let folder = folder_with_files("no-reader");
    folder.write("long.bus", "[ A0 00 00 55:5000 ]");
    let full = || Stdio::from(std::fs::File::create("/dev/full").unwrap());
    let cases: [(&[&str], i32); 4] = [
        (&["jump"], 2),
        (&["run", "none.bus"], 1),
        (&["run", "wrong.bus"], 3),
        // Not a failure: the drawing is cut, and that is said.
        (&["run", "long.bus", "--quiet", "--svg", "long.svg"], 0),
    ];
    for (words, code) in cases {
        for errors in [without_reader(), full()] {
            let ran = folder.run_to(words, Stdio::piped(), errors);
            assert_eq!((ran.code, ran.output.as_str()), (code, ""), "{words:?}");
        }
    }
}

#[test]
#[cfg(unix)]
fn a_reader_that_goes_away_ends_the_command_quietly() {
    use std::process::Stdio;
    let folder = folder_with_files("reader-gone");
    for words in [&["help"][..], &["run", "good.bus", "--memory", "memory"]] {
        let before = folder.snapshot();
        let ran = folder.run_to(words, without_reader(), Stdio::piped());
        assert_eq!((ran.code, ran.errors.as_str()), (1, ""), "{words:?}");
        assert!(folder.snapshot() == before, "{words:?} changed a file");
    }
    let ran = folder.run_to(&["help"], without_reader(), without_reader());
    assert_eq!(ran.code, 1);
}
