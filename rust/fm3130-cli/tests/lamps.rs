// SPDX-License-Identifier: Apache-2.0
//! The lamps on the command line: after each thing that happens, and as a drawing below the wires.

mod support;

use std::path::Path;
use std::process::Command;

use support::{script, Folder};

/// The lines of a run in which a lamp changed.
fn changes(printed: &str) -> Vec<&str> {
    printed.lines().filter(|line| line.contains("<-")).collect()
}

#[test]
fn the_proving_session_ends_with_the_hang_of_the_minutes_and_the_duty() {
    let folder = Folder::new("lamps-session");
    let printed = folder.succeed(&["lamps", &script("proving-session")]);
    let head = "01234567  lamps at 1000h to 1007h: * lit, as its last whole read says; . dark\n";
    assert!(printed.starts_with(head));
    assert_eq!(
        changes(&printed),
        [
            "*.......  ]       Stop  <- lamp 0 lit",
            "........  lost    main power lost, backup present  <- lamp 0 dark",
            "*.......  ]       Stop  <- lamp 0 lit",
            "........  t*3     3 ticks: 09:00:04, 15/11/26, day 7 -> 09:00:07, 15/11/26, day 7, \
             seconds passed  <- lamp 0 dark",
            // Read as lit; then the Stop that cuts the byte 00h; then the old bit is read.
            "*.......  ]       Stop  <- lamp 0 lit",
            "........  ]       Stop  <- lamp 0 dark",
            "*.......  ]       Stop  <- lamp 0 lit",
            // Written again and read back.
            "........  ]       Stop  <- lamp 0 dark",
        ]
    );
}

/// What lit does not mean (docs/GUIDE.md): a write of 00h that is cut leaves the old 01h. The bus
/// fails, all lamps are dark, and the next whole read lights the lamp again.
#[test]
fn a_cut_write_leaves_the_old_bit_and_the_next_read_lights_it() {
    let folder = Folder::new("lamps-cut");
    let read = "[ A0 10 00 [ A1 r ]";
    let text = format!("[ A0 10 00 01 ] {read} [ A0 10 00 {{00000}} ] {read}");
    let ran = folder.run_with(&["lamps", "-"], &text);
    assert_eq!(
        changes(&ran.output),
        [
            "*.......  ]       Stop  <- lamp 0 lit",
            "........  ]       Stop  <- lamp 0 dark",
            "*.......  ]       Stop  <- lamp 0 lit",
        ]
    );
}

/// Seven clocks of 00h, two with the line released and a Stop: 01h is stored and acknowledged, and no
/// lamp goes dark, since the bus did not fail.
#[test]
fn released_clocks_after_seven_of_a_byte_store_a_bit_that_nobody_sent() {
    let folder = Folder::new("lamps-released");
    let proved = "[ A0 10 01 01 ] [ A0 10 01 [ A1 r ]";
    let text = format!("{proved} [ A0 10 00 {{0000000}} {{11}} ] [ A0 10 00 [ A1 r ]");
    let ran = folder.run_with(&["lamps", "-"], &text);
    let stored = "  write 01h  ACK   memory 1000h: stored\n";
    assert!(ran.output.contains(stored), "{}", ran.output);
    assert_eq!(
        changes(&ran.output),
        [
            ".*......  ]       Stop  <- lamp 1 lit",
            "**......  ]       Stop  <- lamp 0 lit",
        ]
    );
}

#[test]
fn lamps_after_each_thing_that_happens() {
    let folder = Folder::new("lamps-words");
    let text = "[ A0 10 00 01 00 01 ] [ A0 10 00 [ A1 r:3 ] t*2 [ A0 10 00 {101} ] [ D2 ] [ A1 r ]";
    let ran = folder.run_with(&["lamps", "-"], text);
    assert_eq!(ran.code, 0, "{}", ran.errors);
    let shown: Vec<&str> = ran.output.lines().map(|line| &line[..8]).collect();
    let lit = shown.iter().filter(|lamps| **lamps == "*.*.....").count();
    // The Stop, the ticks, a Start, three bytes and the part byte: the Stop that cuts it darkens all.
    assert_eq!(lit, 7, "{}", ran.output);
    assert_eq!(
        changes(&ran.output),
        [
            "*.*.....  ]       Stop  <- lamps 0, 2 lit",
            "........  ]       Stop  <- lamps 0, 2 dark",
            // The last read is from the current address, which the cut byte left at 1000h.
            "*.......  ]       Stop  <- lamp 0 lit",
        ]
    );
}

/// The lines that docs/GUIDE.md shows below each call of `fm3130 lamps` are those that it prints.
#[test]
fn the_guide_shows_what_is_printed() {
    let guide = include_str!("../../../docs/GUIDE.md");
    let binary = Path::new(env!("CARGO_BIN_EXE_fm3130"));
    let folders = format!("{}:/usr/bin:/bin", binary.parent().unwrap().display());
    let mut lines = guide.lines().map(str::trim_start);
    let mut calls = 0;
    while let Some(line) = lines.next() {
        let Some(call) = line
            .strip_prefix("$ ")
            .filter(|call| call.contains("fm3130 lamps"))
        else {
            continue;
        };
        let shown: Vec<&str> = lines.by_ref().take_while(|line| !line.is_empty()).collect();
        let ran = Command::new("sh")
            .args(["-c", call])
            .env("PATH", &folders)
            .output()
            .unwrap();
        let printed = String::from_utf8(ran.stdout).unwrap();
        assert_eq!(printed.lines().collect::<Vec<_>>(), shown, "{call}");
        calls += 1;
    }
    assert!(calls >= 3, "{calls} calls are few");
}

/// Three ticks, a byte that is not acknowledged, a cut byte and a loss of power each darken a lamp.
#[test]
fn what_darkens_a_lamp() {
    let folder = Folder::new("lamps-dark");
    let proved = "[ A0 10 07 01 ] [ A0 10 07 [ A1 r ]";
    for (then, is_dark) in [
        ("", false),
        ("t*2", false),
        ("t*3", true),
        ("[ A0 10 07 00 ]", false),
        ("[ A0 10 07 [", false),
        ("[ D4", true),
        ("[ {1} [", true),
        ("[ A0 {00000000} ]", true),
        ("lost", true),
        ("gone", true),
        ("power", false),
        ("[ A0 10 07 [ A1 r [", false),
    ] {
        let ran = folder.run_with(&["lamps", "-"], &format!("{proved} {then}"));
        assert_eq!(ran.code, 0, "{}", ran.errors);
        let last = ran.output.lines().last().unwrap();
        let lamps = if is_dark { "........" } else { ".......*" };
        assert!(last.starts_with(lamps), "{then}: {last}");
    }
}

#[test]
fn the_drawing_has_the_lamps_below_the_wires() {
    let folder = Folder::new("lamps-drawing");
    folder.succeed(&["lamps", &script("proving-session"), "--svg", "lamps.svg"]);
    folder.succeed(&[
        "run",
        &script("proving-session"),
        "--quiet",
        "--svg",
        "wires.svg",
    ]);
    let lamps = String::from_utf8(folder.read("lamps.svg")).unwrap();
    let wires = String::from_utf8(folder.read("wires.svg")).unwrap();
    let lit = "stroke=\"#e0a100\"";
    assert!(lamps.contains(lit) && lamps.contains(">lamps</text>"));
    assert!(!wires.contains(lit) && !wires.contains(">lamps</text>"));
    // Eight lines a stretch, at most one of them lit.
    let dark = lamps.matches("stroke=\"#d5dae1\"").count();
    assert_eq!((dark + lamps.matches(lit).count()) % 8, 0);
    // The session ends with a dark lamp, and the last Stop has it so: all eight lines go on after it.
    let stretches = lamps.lines().rev().filter(|line| is_lamp(line));
    let ends: Vec<bool> = stretches.take(8).map(|line| line.contains(lit)).collect();
    assert_eq!(ends, [false; 8]);
    let last = lamps.lines().rfind(|line| is_lamp(line)).unwrap();
    let (from, to) = stretch_of(last);
    assert!(from < to, "{last}");
}

fn is_lamp(line: &str) -> bool {
    line.contains("stroke=\"#e0a100\"") || line.contains("stroke=\"#d5dae1\"")
}

/// From where to where a line of the drawing goes that has two points.
fn stretch_of(line: &str) -> (f64, f64) {
    let words: Vec<&str> = line.split(['M', ' ', 'H', '"']).collect();
    let place = words.iter().position(|word| word.is_empty()).unwrap() + 1;
    (
        words[place].parse().unwrap(),
        words[place + 2].parse().unwrap(),
    )
}

/// To draw docs/proving-session.svg anew: `fm3130 lamps scripts/proving-session.bus --svg` with its name.
#[test]
fn the_picture_in_the_documents_is_that_of_the_session() {
    let folder = Folder::new("lamps-picture");
    folder.succeed(&["lamps", &script("proving-session"), "--svg", "lamps.svg"]);
    let stored = include_bytes!("../../../docs/proving-session.svg");
    assert!(
        folder.read("lamps.svg") == stored,
        "the session has another picture"
    );
}
