// SPDX-License-Identifier: Apache-2.0
//! The viewer, the help pages and the drawing.

mod support;

use support::{all_script_names, part_of, script, Folder};

#[test]
fn the_memory_in_hexadecimal() {
    let folder = Folder::new("view-memory");
    let text = "[ A0 01 20 46 4D 33 31 33 30 ]";
    folder.run_with(&["run", "-", "--memory", "memory"], text);
    let shown = folder.succeed(&["view", "--memory", "memory", "0x120", "8"]);
    assert_eq!(
        shown,
        "0120h  46 4D 33 31 33 30 00 00                          |FM3130..|\n"
    );
    let all = folder.succeed(&["view", "--memory", "memory"]);
    assert_eq!(all.lines().count(), 6);
    assert!(all.lines().last().unwrap().starts_with("1FF0h"));
}

#[test]
fn the_registers_in_words() {
    let folder = Folder::new("view-registers");
    folder.succeed(&["run", &script("alarm"), "--image", "image"]);
    let all = folder.succeed(&["view", "--registers", "--image", "image"]);
    assert!(all.contains("09h  Alarm Seconds       30h  alarm at seconds 30"));
    assert!(all.contains("ACS pin    alarm, not raised"));
    let one = folder.succeed(&["view", "--registers", "--image", "image", "0Eh", "1"]);
    assert_eq!(one.lines().count(), 1);
    assert!(one.contains("Alarm & WP Control  80h"));
    folder.write("zeros", [0; 64]);
    let bad = folder.succeed(&["view", "--registers", "--image", "zeros"]);
    assert!(bad.contains("The rest cannot be told") && bad.contains("(number 2)"));
}

#[test]
fn every_command_has_a_page() {
    let folder = Folder::new("help");
    for command in ["run", "events", "view", "fresh", "mend", "trim", "script"] {
        let page = folder.succeed(&["help", command]);
        assert!(page.starts_with("NAME\n"), "{command}");
        assert!(folder.succeed(&["help"]).contains(command));
        if command != "script" {
            assert_eq!(folder.succeed(&[command, "--help"]), page);
        }
    }
    let version = folder.succeed(&["--version"]);
    assert_eq!(version, concat!("fm3130 ", env!("CARGO_PKG_VERSION"), "\n"));
}

/// Every tag of a drawing is closed, and nothing stands outside.
fn assert_closed(drawing: &str, name: &str) {
    let mut open: Vec<&str> = Vec::new();
    for piece in drawing.split('<').skip(1) {
        let tag = piece.split('>').next().unwrap();
        if tag.starts_with('?') || tag.ends_with('/') {
            continue;
        }
        match tag.strip_prefix('/') {
            Some(closed) => assert_eq!(open.pop(), Some(closed), "{name}"),
            None => open.push(tag.split(' ').next().unwrap()),
        }
    }
    assert!(open.is_empty(), "{name}: {open:?}");
}

#[test]
fn every_script_can_be_drawn() {
    let folder = Folder::new("drawing");
    for name in all_script_names() {
        let words = ["--svg", "bus.svg", "--quiet", "--part", &part_of(&name)];
        folder.succeed(&[&["run", &script(&name)], &words[..]].concat());
        let drawing = String::from_utf8(folder.read("bus.svg")).unwrap();
        assert_closed(&drawing, &name);
        assert!(drawing.contains(">ACK</text>"), "{name}");
        assert!(
            !drawing.contains("& "),
            "{name}: a sign that is not escaped"
        );
    }
}

#[test]
fn a_long_run_is_drawn_up_to_a_limit() {
    let folder = Folder::new("drawing-long");
    let text = "[ A0 00 00 55:5000 ] t*100000";
    let ran = folder.run_with(&["run", "-", "--svg", "bus.svg", "--quiet"], text);
    assert!(ran.errors.contains("the drawing stops after 4000 cells"));
    let drawing = String::from_utf8(folder.read("bus.svg")).unwrap();
    assert_closed(&drawing, "long");
    assert!(drawing.contains("The drawing stops here"));
}
