// SPDX-License-Identifier: Apache-2.0
//! Two masters on the command line: turns in words, refusals, and the picture of who holds the bus.

mod support;

use support::{scripts, Folder};

/// Plays a text, which must succeed.
fn play(name: &str, text: &str) -> String {
    let ran = Folder::new(name).run_with(&["share", "-"], text);
    assert_eq!(ran.code, 0, "{}", ran.errors);
    ran.output
}

#[test]
fn a_turn_inside_a_transaction_keeps_the_bus() {
    let printed = play(
        "share-kept",
        "a: [ A0 01 23\nb: [ A0 01 23 [ A1 r ]\na: 5A ]\n",
    );
    let expected = "\
a: rig
[       Start
  write A0h  ACK   slave byte: memory, write
  write 01h  ACK   memory address, first byte
  write 23h  ACK   memory address 0123h
        bus: a (rig)
b: handheld, refused: this master does not hold the bus (number 7); held by a (rig)
a: rig
  write 5Ah  ACK   memory 0123h: stored
]       Stop
        bus: nobody
";
    assert!(printed.starts_with(expected), "{printed}");
    assert!(printed.ends_with("Held by    nobody\n"));
}

#[test]
fn ticks_and_power_belong_to_neither() {
    let printed = play("share-neither", "a: [ A0\nb: t*2\nb: lost\nb: [ ]\n");
    assert_eq!(printed.matches("refused").count(), 0, "{printed}");
    let held: Vec<&str> = printed
        .lines()
        .filter_map(|line| line.strip_prefix("        bus: "))
        .collect();
    assert_eq!(held, ["a (rig)", "a (rig)", "nobody", "nobody"]);
}

#[test]
fn the_example_has_one_refusal_and_shows_the_current_address() {
    let folder = Folder::new("share-example");
    let path = scripts().join("handheld.masters");
    let printed = folder.succeed(&["share", path.to_str().unwrap(), "--svg", "turns.svg"]);
    assert_eq!(printed.matches("refused").count(), 1);
    let read: Vec<&str> = printed
        .lines()
        .filter_map(|line| line.trim_start().strip_prefix("read  "))
        .map(|line| &line[..3])
        .collect();
    // The handheld reads two bytes; the rig reads on where it left, and then with its address set.
    assert_eq!(read, ["11h", "22h", "33h", "11h", "22h"]);
    let picture = String::from_utf8(folder.read("turns.svg")).unwrap();
    assert!(picture.starts_with("<?xml") && picture.ends_with("</svg>\n"));
    assert_eq!(picture.matches("refused, number 7").count(), 1);
    assert_eq!(picture.matches(">answered<").count(), 10);
}

#[test]
fn what_is_wrong_is_shown_and_nothing_is_written() {
    let folder = Folder::new("share-wrong");
    let fails = |words: &[&str], text: &str, code: i32, said: &str| {
        let ran = folder.run_with(&[&["share"], words].concat(), text);
        assert_eq!(ran.code, code, "{words:?}: {}", ran.errors);
        assert!(ran.errors.contains(said), "{}", ran.errors);
        assert_eq!((ran.output.as_str(), folder.snapshot().len()), ("", 0));
    };
    fails(
        &["-", "--svg", "x.svg"],
        "[ A0 ]",
        3,
        "no master plays this",
    );
    fails(&["-"], "a: t*2000000", 3, "a turn has 2000000 events");
    fails(&[], "", 2, "share needs a SCRIPT");
    fails(&["-", "--vcd", "x"], "", 2, "--vcd");
    // A script of one master has no turns.
    let ran = folder.run_with(&["run", "-"], "a: [ ]");
    assert_eq!(ran.code, 3);
    assert!(ran
        .errors
        .contains("`fm3130 share` plays a script of two masters"));
}

#[test]
fn an_empty_script_plays_nothing() {
    let printed = play("share-empty", "# nobody plays\n");
    assert!(printed.contains("Held by    nobody"));
    assert!(!printed.contains("bus: "));
}

/// The bytes that the last turn of a text reads.
fn last_read(name: &str, text: &str) -> Vec<String> {
    let printed = play(name, text);
    let last = printed.rsplit("a: rig\n").next().unwrap();
    let lines = last.lines().map(str::trim_start);
    lines
        .filter_map(|line| line.strip_prefix("read  "))
        .map(|line| line[..3].to_string())
        .collect()
}

/// A read of 00h is noticed by the other master: it clears AF and CF. So the page must not say otherwise.
#[test]
fn the_page_says_what_a_read_may_rely_on() {
    // The oscillator runs, and no alarm field is selected: every second sets AF.
    let begin = "a: [ D0 09 80:5 ] [ D0 01 00 ] t\n";
    let read = "a: [ D0 00 [ D1 r ]\n";
    let alone = last_read("share-alone", &format!("{begin}{read}"));
    let other = last_read(
        "share-other",
        &format!("{begin}b: [ D0 02 [ D1 r ]\n{read}"),
    );
    let after = last_read(
        "share-after",
        &format!("{begin}b: [ D0 00 [ D1 r ]\n{read}"),
    );
    assert_eq!(
        (alone.join(" "), other.join(" ")),
        ("D0h".into(), "D0h".into())
    );
    assert_eq!(after, ["90h"]);
    let page = Folder::new("share-page").succeed(&["help", "share"]);
    let page: Vec<&str> = page.split_whitespace().collect();
    let page = page.join(" ");
    for condition in [
        "From a device between transfers whose bus nobody holds",
        "wrote none of the bytes that are read and no register and did not read 00h",
        "got no number 7",
        "each of its register reads set, acknowledged, earlier in the same transaction",
        "the ticks and power events are the same",
    ] {
        assert!(page.contains(condition), "{condition}");
    }
}
