// SPDX-License-Identifier: Apache-2.0
//! The larger family on the command line: `--part`, edges in scripts, counters in words.

mod support;

use support::{script, Folder};

/// What a run of a text says on a part.
fn said(folder: &Folder, part: &str, text: &str) -> String {
    let ran = folder.run_with(&["run", "-", "--part", part], text);
    assert_eq!(ran.code, 0, "{}", ran.errors);
    ran.output
}

#[test]
fn edges_count_and_are_told_together() {
    let folder = Folder::new("family-edges");
    let output = said(&folder, "fm3164", "c1*300 c2 c2 c1 [ A0 {10} c2 {1} ]");
    for line in [
        "c1*300  300 edges on CNT1: counter 1 0 -> 300 (012Ch)",
        "c2*2    2 edges on CNT2: counter 2 0 -> 2 (0002h)",
        "c1      1 edge on CNT1: counter 1 300 -> 301 (012Dh)",
        "c2      1 edge on CNT2 after 2 clocks of a byte: counter 2 2 -> 3 (0003h)",
        "Counters   1: 301 (012Dh), 2: 3 (0003h)",
    ] {
        assert!(
            output.lines().any(|one| one.trim() == line),
            "{line}: {output}"
        );
    }
}

#[test]
fn frozen_reads_and_locked_bytes_are_told() {
    let folder = Folder::new("family-frozen");
    let output = said(
        &folder,
        "fm31256",
        "c1*2 [ D0 0C 08 ] c1 [ D0 0D [ D1 r r ]",
    );
    assert!(
        output.contains("reads frozen, C2P=0 C1P=0; snapshot taken, 1: 2 (0002h), 2: 0 (0000h)")
    );
    assert!(
        output.contains("read  02h  ACK   0Dh Event Counter 1 LSB: counter 1, low byte, frozen\n")
    );
    assert!(output.contains(
        "Counters   1: 3 (0003h), 2: 0 (0000h)\nReads give 1: 2 (0002h), 2: 0 (0000h), frozen\n"
    ));
    let output = said(&folder, "fm31256", "[ D0 0B 88 ] [ D0 11 FF ]");
    assert!(output.contains(
        "write FFh  ACK   11h Serial Number 0: serial number, byte 0; locked, not stored"
    ));
    assert!(output.contains("serial number locked, writes refused at 0000h to 1FFFh, VTP 2.6 V"));
    assert!(output.contains("Serial     00 00 00 00 00 00 00 00, locked"));
}

#[test]
fn each_size_has_its_own_memory() {
    let folder = Folder::new("family-sizes");
    for (part, bytes) in [("fm3164", 8192), ("FM31256", 32768)] {
        let files = ["--image", "image", "--memory", "memory", "--part", part];
        let ran = folder.run_with(
            &[&["run", "-", "--quiet"], &files[..]].concat(),
            "[ A0 FF FF 5A A5 ]",
        );
        assert_eq!(ran.code, 0, "{}", ran.errors);
        let memory = folder.read("memory");
        assert_eq!(memory.len(), bytes);
        assert_eq!((memory[bytes - 1], memory[0]), (0x5A, 0xA5));
        let last = format!("{}", bytes - 1);
        let shown = folder.succeed(&["view", "--memory", "memory", &last, "1", "--part", part]);
        assert!(
            shown.starts_with(&format!("{:04X}h  5A ", bytes - 1)),
            "{shown}"
        );
        // The files of one part are none of another.
        let other = if bytes == 8192 { "fm31256" } else { "fm3164" };
        let ran = folder.run(&[
            "run", "--events", "image", "--memory", "memory", "--part", other,
        ]);
        assert_ne!(ran.code, 0);
        let ran = folder.run_with(&["run", "-", "--image", "image"], "t");
        assert_eq!((ran.code, ran.errors.contains("(number 2)")), (4, true));
        folder.succeed(&[&["fresh", "--force"], &files[..]].concat());
        assert_eq!(folder.read("memory"), vec![0; bytes]);
        assert_eq!(folder.read("image")[..2], [0x60, 0x00]);
        std::fs::remove_file(folder.file("memory")).unwrap();
        std::fs::remove_file(folder.file("image")).unwrap();
    }
    folder.succeed(&["fresh", "--memory", "small", "--part", "fm3164"]);
    let words = ["--memory", "small", "--part", "fm31256"];
    let ran = folder.run_with(&[&["run", "-"], &words[..]].concat(), "t");
    assert_eq!(ran.code, 4);
    assert!(ran.errors.contains(
        "small: the file has 8192 bytes: memory has the wrong length for the chosen size (number 1)"
    ));
}

#[test]
fn a_device_lives_on_between_runs_even_inside_a_byte() {
    let folder = Folder::new("family-lives-on");
    let files = [
        "--image", "image", "--memory", "memory", "--part", "fm31256",
    ];
    let play = |text: &str| {
        let ran = folder.run_with(&[&["run", "-"], &files[..]].concat(), text);
        assert_eq!(ran.code, 0, "{}", ran.errors);
        ran.output
    };
    play("c1*5 [ A0 7F FF {00000101}");
    let output = play("{1} ] [ D0 18 {10101010}");
    assert!(output.contains("begins inside: data byte to the memory, 8 clocks done"));
    assert!(
        output.contains("write 05h  ACK   memory 7FFFh: stored"),
        "{output}"
    );
    let output = play("{1} ] c1");
    assert!(
        output.contains("write AAh  ACK   18h Serial Number 7: serial number, byte 7"),
        "{output}"
    );
    assert!(output.contains("counter 1 5 -> 6 (0006h)"));
}

#[test]
fn registers_are_viewed_by_their_addresses() {
    let folder = Folder::new("family-view");
    let text = "[ D0 0D 11 22 33 44 ]";
    folder.run_with(&["run", "-", "--image", "image", "--part", "fm3164"], text);
    let view = |words: &[&str]| {
        let all = [
            "view",
            "--registers",
            "--image",
            "image",
            "--part",
            "fm3164",
        ];
        folder.succeed(&[&all[..], words].concat())
    };
    let shown = view(&["0Eh", "2"]);
    let expected = "  0Eh  Event Counter 1 MSB     22h  counter 1, high byte\n  \
                    0Fh  Event Counter 2 LSB     33h  counter 2, low byte\n";
    assert_eq!(shown, expected);
    assert!(view(&["18h"]).starts_with("  18h  Serial Number 7"));
    assert!(view(&[]).contains("Counters   1: 8721 (2211h), 2: 17459 (4433h)"));
    let ran = folder.run(&[
        "view",
        "--registers",
        "--image",
        "image",
        "--part",
        "fm3164",
        "18h",
        "2",
    ]);
    assert_eq!((ran.code, ran.errors.contains("passes the end")), (2, true));
}

#[test]
fn event_files_may_have_edges_for_this_part_alone() {
    let folder = Folder::new("family-events");
    folder.write("events", [8, 9, 8]);
    let output = folder.succeed(&[
        "run",
        "--events",
        "events",
        "--part",
        "fm3164",
        "--answers",
        "a",
    ]);
    assert!(output.contains("Counters   1: 2 (0002h), 2: 1 (0001h)"));
    assert_eq!(folder.read("a"), [1, 1, 1]);
    let listed = folder.succeed(&["events", "--list", "events", "--part", "fm3164"]);
    let expected = "c1           #        0  edge on CNT1\nc2           #        1  edge on CNT2\n\
                    c1           #        2  edge on CNT1\n";
    assert_eq!(listed, expected);
    let ran = folder.run(&["run", "--events", "events"]);
    assert_eq!(
        (
            ran.code,
            ran.errors
                .contains("byte 0 is 08h: some event byte is above 7")
        ),
        (3, true)
    );
    folder.write("events", [8, 10]);
    let ran = folder.run(&["run", "--events", "events", "--part", "fm3164"]);
    assert_eq!(
        (
            ran.code,
            ran.errors
                .contains("byte 1 is 0Ah: some event byte is above 9")
        ),
        (3, true)
    );
}

#[test]
fn edges_are_pulses_in_a_waveform_and_boxes_in_a_drawing() {
    let folder = Folder::new("family-wires");
    let words = ["--part", "fm3164", "--vcd", "v", "--svg", "s", "--quiet"];
    folder.succeed(&[&["run", &script("counting")], &words[..]].concat());
    let waveform = String::from_utf8(folder.read("v")).unwrap();
    assert!(waveform.starts_with("$version FM3164 stand-in $end\n"));
    assert!(waveform.contains("$var wire 1 + CNT1 $end") && !waveform.contains("ACS"));
    // Every edge is a rise and a fall, and the first level is low.
    let marks = |mark: &str| waveform.lines().filter(|line| *line == mark).count();
    assert_eq!((marks("1+"), marks("0+")), (10, 11));
    assert_eq!((marks("1,"), marks("0,")), (3, 4));
    let drawing = String::from_utf8(folder.read("s")).unwrap();
    assert!(drawing.contains(">c1*7</text>") && drawing.contains(">count 0007h</text>"));
    assert!(!drawing.contains(">ACS</text>"));
}

#[test]
fn ticks_pass_and_change_nothing() {
    let folder = Folder::new("family-ticks");
    let output = said(&folder, "fm3164", "t t*100_000_000");
    assert!(output.contains("this part has no clock"), "{output}");
}

#[test]
fn the_part_may_be_named_where_there_is_no_choice() {
    let folder = Folder::new("family-no-choice");
    let plain = folder.succeed(&["trim", "-600"]);
    assert_eq!(folder.succeed(&["trim", "--part", "fm3130", "-600"]), plain);
    assert_eq!(folder.succeed(&["trim", "--part=FM3130", "-600"]), plain);
}

/// Wherever an image is read, one of another part is refused and named.
#[test]
fn an_image_of_another_part_is_named() {
    let folder = Folder::new("family-other");
    folder.succeed(&["fresh", "--image", "clock", "--memory", "memory"]);
    for part in ["fm3164", "fm31256"] {
        folder.succeed(&["fresh", "--image", part, "--part", part]);
    }
    folder.run_with(
        &["run", "-", "--quiet", "--vcd", "w.vcd", "--capture", "c"],
        "[ A0 ]",
    );
    let mut capture = folder.read("c");
    capture[48..48 + 64].copy_from_slice(&folder.read("fm3164"));
    folder.write("c", &capture);
    let counting = "it is the image of an FM3164 or an FM31256";
    let clock = "it is the image of an FM3130, not of an FM31256";
    let cases: [(&[&str], &str); 9] = [
        (&["view", "--registers", "--image", "fm3164"], counting),
        (
            &["view", "--registers", "--image", "fm31256", "0", "1"],
            counting,
        ),
        (
            &["view", "--memory", "memory", "--image", "fm3164"],
            counting,
        ),
        (
            &[
                "view",
                "--registers",
                "--image",
                "clock",
                "--part",
                "fm31256",
            ],
            clock,
        ),
        (&["run", "-", "--image", "fm3164"], counting),
        (
            &["run", "-", "--image", "clock", "--part", "fm31256"],
            clock,
        ),
        (&["mend", "--image", "fm3164"], counting),
        (
            &["judge", "--from-vcd", "w.vcd", "--image", "fm31256"],
            counting,
        ),
        (&["judge", "c"], counting),
    ];
    for (words, said) in cases {
        let before = folder.snapshot();
        let ran = folder.run_with(words, "t");
        assert_eq!(
            (ran.code, ran.output.as_str()),
            (4, ""),
            "{words:?}: {}",
            ran.errors
        );
        assert!(ran.errors.contains(said), "{words:?}: {}", ran.errors);
        assert!(folder.snapshot() == before, "{words:?} changed a file");
    }
    // The two sizes have one mark.
    folder.succeed(&[
        "view",
        "--registers",
        "--image",
        "fm3164",
        "--part",
        "fm31256",
    ]);
}
