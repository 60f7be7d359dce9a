// SPDX-License-Identifier: Apache-2.0
//! Captures on the command line: written by a run, judged in words, drawn; and waveforms judged.

mod support;

use support::{script, script_names, Folder};

/// Where the answers of a capture that `run --capture` wrote begin.
fn answers_of(file: &[u8]) -> usize {
    u32::from_le_bytes(file[40..44].try_into().unwrap()) as usize
}

#[test]
fn every_example_is_written_as_a_capture_that_agrees() {
    let folder = Folder::new("judge-examples");
    for name in script_names() {
        folder.succeed(&[
            "run",
            &script(&name),
            "--quiet",
            "--capture",
            "run.capture",
            "--answers",
            "answers",
        ]);
        let (file, answers) = (folder.read("run.capture"), folder.read("answers"));
        assert_eq!(file[answers_of(&file)..], answers[..], "{name}");
        let said = folder.succeed(&["judge", "run.capture"]);
        assert_eq!(said, format!("all agree: {} answers\n", answers.len()));
    }
}

#[test]
fn a_capture_begins_with_the_device_before_the_run() {
    let folder = Folder::new("judge-begin");
    let device = ["--image", "image", "--memory", "memory", "--quiet"];
    folder.write("one.bus", "[ A0 00 00 11 ]");
    folder.write("two.bus", "[ A0 00 00 [ A1 R ]");
    folder.succeed(&[&["run", "one.bus"], &device[..]].concat());
    let memory = folder.read("memory");
    folder.succeed(&[&["run", "two.bus", "--capture", "two.capture"], &device[..]].concat());
    let file = folder.read("two.capture");
    assert_eq!(file[48 + 64..48 + 64 + 8192], memory[..]);
    assert!(folder
        .succeed(&["judge", "two.capture"])
        .starts_with("all agree: "));
}

#[test]
fn the_first_answer_that_differs_is_told_with_its_place() {
    let folder = Folder::new("judge-differs");
    folder.write("run.bus", "[ A0 01 23 5A ] t [ A0 01 23 [ A1 R ]");
    folder.succeed(&["run", "run.bus", "--quiet", "--capture", "c"]);
    let mut file = folder.read("c");
    let answers = answers_of(&file);
    // The second transaction begins after 1 + 36 + 1 + 1 events; its fourth byte is the slave byte A1h.
    let place = 39 + 1 + 27 + 1 + 8;
    file[answers + place] ^= 1;
    file[answers + place + 3] ^= 1;
    folder.write("c", &file);
    let ran = folder.run(&["judge", "c", "--svg", "c.svg"]);
    assert_eq!(ran.code, 5);
    assert_eq!(
        ran.errors,
        "fm3130: c: answer 76 differs: recorded 05h, right 04h\n"
    );
    let expected = "\
Event 76   Clock, the master's line released
Place      transaction 2, byte 4, clock 9, the acknowledge
Line       recorded high, right low

By the rules, around it:
[       Start
  write A0h  ACK   slave byte: memory, write
  write 01h  ACK   memory address, first byte
  write 23h  ACK   memory address 0123h
[       repeated Start
  write A1h  ACK   slave byte: memory, read
  read  5Ah  NACK  memory 0123h
]       Stop
";
    assert_eq!(ran.output, expected);
    let drawing = String::from_utf8(folder.read("c.svg")).unwrap();
    assert_eq!(drawing.matches(">differs</text>").count(), 1);
    assert!(drawing.contains("Event 76: transaction 2, byte 4, clock 9, the acknowledge."));
    assert!(drawing.contains("memory, read") && drawing.ends_with("</svg>\n"));
}

#[test]
fn a_difference_of_the_pin_and_bits_that_no_answer_has() {
    let folder = Folder::new("judge-pin");
    folder.write("run.bus", "[ ] t");
    folder.succeed(&["run", "run.bus", "--quiet", "--capture", "c"]);
    let good = folder.read("c");
    let place = answers_of(&good) + 2;
    for (recorded, said) in [
        (0x01, "ACS pin    recorded released, right square wave\n"),
        (0x0D, "Bits       recorded 00001101, right 00000101\n"),
        (0x15, "Bits       recorded 00010101, right 00000101\n"),
    ] {
        let mut file = good.clone();
        file[place] = recorded;
        folder.write("c", &file);
        let ran = folder.run(&["judge", "c"]);
        assert_eq!(ran.code, 5);
        assert!(
            ran.output.contains("Place      after transaction 1\n"),
            "{}",
            ran.output
        );
        assert!(ran.output.contains(said), "{}", ran.output);
    }
}

#[test]
fn a_long_transaction_is_shown_around_the_place_only() {
    let folder = Folder::new("judge-long");
    folder.write("run.bus", "[ A0 00 00 11*200 ]");
    folder.succeed(&["run", "run.bus", "--quiet", "--capture", "c"]);
    let mut file = folder.read("c");
    let place = 1 + 9 * 150 + 4;
    let at = answers_of(&file) + place;
    file[at] ^= 1;
    folder.write("c", &file);
    let ran = folder.run(&["judge", "c", "--svg", "c.svg"]);
    assert!(ran
        .output
        .contains("Place      transaction 1, byte 151, clock 5\n"));
    let shown = ran
        .output
        .lines()
        .filter(|line| line.contains(" write "))
        .count();
    assert!((10..25).contains(&shown), "{}", ran.output);
    assert!(String::from_utf8(folder.read("c.svg"))
        .unwrap()
        .contains(">differs</text>"));
}

#[test]
fn malformed_files_are_named_with_the_reason() {
    let folder = Folder::new("judge-malformed");
    folder.write("run.bus", "[ A0 ]");
    folder.succeed(&["run", "run.bus", "--quiet", "--capture", "good"]);
    let good = folder.read("good");
    let changed = |place: usize, byte: u8| {
        let mut file = good.clone();
        file[place] = byte;
        file
    };
    let cases: [(Vec<u8>, &str); 8] = [
        (vec![], "entry 1 is faulty: the file ends inside it"),
        (
            good[..47].to_vec(),
            "entry 1 is faulty: its body passes the end",
        ),
        (
            changed(24, 9),
            "entry 3 is faulty: its kind, 9, is none of 1 to 4",
        ),
        (
            changed(36, 3),
            "entry 4 is faulty: its kind is that of entry 3",
        ),
        (
            changed(48 + 61, 0),
            "entry 1 is faulty: its image is not 64 bytes, or",
        ),
        (
            changed(20, 1),
            "entry 2 is faulty: its memory is not 8,192 bytes",
        ),
        (
            changed(44, 10),
            "entry 4 is faulty: events and answers are not equally many",
        ),
        (vec![0; 61_441], "too long: more than 61,440 bytes"),
    ];
    for (file, said) in cases {
        folder.write("bad", &file);
        let ran = folder.run(&["judge", "bad", "--svg", "no.svg"]);
        assert_eq!((ran.code, ran.output.as_str()), (4, ""), "{said}");
        let undrawn = "fm3130: no.svg: not drawn, since nothing was judged\n";
        assert!(
            ran.errors
                .starts_with(&format!("{undrawn}fm3130: bad: {said}")),
            "{}",
            ran.errors
        );
        assert!(!folder.file("no.svg").exists());
    }
}

#[test]
fn a_run_that_is_too_long_for_a_capture_is_refused_before_it_begins() {
    let folder = Folder::new("judge-too-many");
    folder.write("most.bus", "t*26568");
    folder.write("more.bus", "t*26569");
    folder.succeed(&["run", "most.bus", "--quiet", "--capture", "c"]);
    assert_eq!(
        folder.succeed(&["judge", "c"]),
        "all agree: 26568 answers\n"
    );
    let ran = folder.run(&["run", "more.bus", "--capture", "d", "--image", "i"]);
    assert_eq!(ran.code, 3);
    assert!(ran
        .errors
        .contains("26569 events are too many for --capture, which holds 26568"));
    assert!(!folder.file("d").exists() && !folder.file("i").exists());
}

/// Without ticks and power, which two wires do not show, a waveform gives the very events and lines.
#[test]
fn waveforms_of_scripts_without_ticks_agree() {
    let folder = Folder::new("judge-waveforms");
    folder.write(
        "run.bus",
        "[ A0 01 23 5A A5 ] [ A0 01 23 [ A1 r+ R ] [ D0 0F ] [ 42 00 ] [ D1 R ]",
    );
    folder.succeed(&[
        "run",
        "run.bus",
        "--quiet",
        "--vcd",
        "w.vcd",
        "--answers",
        "a",
    ]);
    let count = folder.read("a").len();
    let said = folder.succeed(&["judge", "--from-vcd", "w.vcd"]);
    // The acknowledges of 5 bytes; of 4, and 16 bits read; of 2, one of them refused; of 1, and 8 bits.
    let answers = 5 + (4 + 16) + 2 + (1 + 8);
    assert_eq!(
        said,
        format!(
            "all agree: {answers} answers of the part, in {count} events; 5 slave bytes name it\n\
             the ACS pin agrees after {count} events\n\
             also taken from wires: TICK, VDD, SUPPLIED, ACS, ACS_F1, ACS_F0\n\
             not judged: 10 Clocks not for the part\n"
        )
    );
    // Another memory: the byte that is read is another, at its first bit.
    folder.write("w2.bus", "[ A0 01 23 [ A1 R ]");
    folder.succeed(&["run", "w2.bus", "--quiet", "--vcd", "w2.vcd"]);
    folder.write("memory", vec![0xFF; 8192]);
    let words = ["judge", "--from-vcd", "w2.vcd", "--memory", "memory"];
    let ran = folder.run(&words);
    assert_eq!(ran.code, 5, "{}", ran.output);
    assert!(ran
        .output
        .contains("Place      transaction 1, byte 5, clock 1\n"));
    assert!(ran.output.contains("Line       recorded low, right high\n"));
}

/// A slave byte of another part may go without an acknowledge; one of ours may not.
#[test]
fn a_waveform_without_the_acknowledge_differs() {
    let folder = Folder::new("judge-no-acknowledge");
    folder.write("other.bus", "[ 41 ] [ A0 ]");
    folder.succeed(&["run", "other.bus", "--quiet", "--vcd", "other.vcd"]);
    let said = folder.succeed(&["judge", "--from-vcd", "other.vcd"]);
    assert_eq!(
        said,
        "all agree: 1 answers of the part, in 22 events; 1 slave byte names it\n\
         the ACS pin agrees after 22 events\n\
         also taken from wires: TICK, VDD, SUPPLIED, ACS, ACS_F1, ACS_F0\n\
         not judged: 1 Clock not for the part\n"
    );
    folder.write("ours.bus", "[ A1 ]");
    folder.succeed(&["run", "ours.bus", "--quiet", "--vcd", "ours.vcd"]);
    let text = String::from_utf8(folder.read("ours.vcd")).unwrap();
    // SDA falls at the ninth clock since the device pulls it: that change is left out.
    let (head, tail) = text.rsplit_once("0$\n0\"\n").expect("the acknowledge");
    folder.write("none.vcd", format!("{head}0$\n{tail}"));
    let ran = folder.run(&["judge", "--from-vcd", "none.vcd"]);
    assert_eq!(ran.code, 5, "{}", ran.output);
    let place = "Place      transaction 1, byte 1, clock 9, the acknowledge\n";
    assert!(ran.output.contains(place), "{}", ran.output);
}

/// The head of a waveform file with two wires.
const HEAD: &str = "$var wire 1 ! SCL $end $var wire 1 \" SDA $end $enddefinitions $end\n";

/// A transaction that names the part, as the wires show it from both high on: `[ A0 ]`.
const NAMED: &str = "# 0\" # 0! # 1\" # 1! # 0! # 0\" # 1! # 0! # 1\" # 1! # 0! # 0\" # 1! # 0! # 1! # 0! # 1! # 0! \
                     # 1! # 0! # 1! # 0! # 1! # 0! # 1! # 1\" ";

/// Judges a waveform from standard input.
fn judge_text(folder: &Folder, words: &[&str], text: &str) -> support::Ran {
    folder.run_with(&[&["judge", "--from-vcd", "-"], words].concat(), text)
}

#[test]
fn waveforms_that_cannot_be_read_say_why() {
    let folder = Folder::new("judge-no-waveform");
    folder.write(
        "w.vcd",
        "$var wire 1 ! D0 $end $var wire 1 \" D1 $end $enddefinitions $end\n",
    );
    let fails = |words: &[&str], code: i32, said: &str| {
        let ran = folder.run(&[&["judge", "--from-vcd", "w.vcd"], words].concat());
        assert_eq!(ran.code, code, "{}", ran.errors);
        assert!(ran.errors.contains(said), "{}", ran.errors);
    };
    fails(&[], 3, "w.vcd: it has no wire SCL; its wires: D0, D1\n");
    fails(
        &["--scl", "D0"],
        3,
        "w.vcd: it has no wire SDA; its wires: D0, D1\n",
    );
    fails(
        &["--scl", "D0", "--sda", "D1", "--memory", "none"],
        1,
        "none: no such file",
    );
    fails(
        &["--scl", "D0", "--sda", "D1"],
        3,
        "w.vcd: nothing to judge: it has no level of D0\n",
    );
    let ran = judge_text(&folder, &[], &HEAD.replace("$enddefinitions $end", ""));
    assert_eq!(ran.code, 3);
    let cut =
        "standard input: it is no waveform file, or is cut: its head has no $enddefinitions\n";
    assert_eq!(ran.errors, format!("fm3130: {cut}"));
}

/// SDA is low and SCL high when the recording begins, as on a bus that hangs: nobody saw a Start.
#[test]
fn a_recording_may_begin_with_a_hung_bus() {
    let folder = Folder::new("judge-hung");
    let nine = "# 0! # 1! ".repeat(9);
    // The last bit of the nine is the first half of a tenth pulse, in which SDA rises: a Stop.
    let freed = format!("{HEAD}#0 1! 0\" {nine}# 1\" {NAMED}#");
    let ran = judge_text(&folder, &[], &freed);
    assert_eq!(ran.code, 0, "{}{}", ran.output, ran.errors);
    assert_eq!(
        ran.output,
        "all agree: 1 answers of the part, in 20 events; 1 slave byte names it\n\
         not judged: 8 Clocks outside any transfer\n"
    );
    // With a Start before it this would be the part's slave byte A0h, not acknowledged.
    let bits = [1, 0, 1, 0, 0, 0, 0, 0, 1].map(|bit| format!("# {bit}\" # 1! # 0! "));
    let alike = format!(
        "{HEAD}#0 1! 0\" # 0! {}# 0\" # 1! # 1\" {NAMED}#",
        bits.concat()
    );
    let ran = judge_text(&folder, &[], &alike);
    assert_eq!(ran.code, 0, "{}{}", ran.output, ran.errors);
    assert!(ran
        .output
        .ends_with("not judged: 9 Clocks outside any transfer\n"));
    let unnamed = judge_text(&folder, &[], &format!("{HEAD}#0 1! 0\" {nine}#"));
    assert_eq!((unnamed.code, unnamed.output.as_str()), (3, ""));
    assert_eq!(
        unnamed.errors,
        "fm3130: standard input: nothing to judge: 8 Clocks outside any transfer, \
         and nothing that names the part\n"
    );
    let still = judge_text(&folder, &[], &format!("{HEAD}#0 1! 0\" #100"));
    assert_eq!((still.code, still.output.as_str()), (3, ""));
    assert!(still
        .errors
        .ends_with("at its end SCL is high and SDA is low\n"));
}

/// An image that stands inside a byte: the first levels are no Clock of it.
#[test]
fn a_recording_may_begin_inside_a_byte() {
    let folder = Folder::new("judge-inside");
    // A byte of zeros is read, and the bus hangs after two bits of it: the part holds SDA low.
    folder.write("hang.bus", "[ A0 00 00 [ A1 {11}");
    folder.succeed(&["run", "hang.bus", "--quiet", "--image", "image"]);
    // The six others, the master's ninth, and a Stop.
    let rest = format!(
        "{}# 1\" # 1! # 0! # 0\" # 1! # 1\" #",
        "# 1! # 0! ".repeat(6)
    );
    let judge = |begin: &str| {
        judge_text(
            &folder,
            &["--image", "image"],
            &format!("{HEAD}{begin} {rest}"),
        )
    };
    let ran = judge("#0 0! 0\"");
    assert_eq!(ran.code, 0, "{}{}", ran.output, ran.errors);
    assert_eq!(
        ran.output,
        "all agree: 6 answers of the part, in 8 events; in a transaction that was under way\n"
    );
    let ran = judge("#0 1! 0\" # 0!");
    assert_eq!((ran.code, ran.output.as_str()), (3, ""));
    assert!(
        ran.errors.contains("the image is inside a byte"),
        "{}",
        ran.errors
    );
    // The run's own waveform of what follows begins so, too.
    let words = ["--image", "image", "--quiet", "--vcd", "rest.vcd"];
    std::fs::copy(folder.file("image"), folder.file("before")).unwrap();
    folder.run_with(&[&["run", "-"], &words[..]].concat(), "{1111111} ]");
    let words = ["judge", "--from-vcd", "rest.vcd", "--image", "before"];
    let said = folder.succeed(&words);
    let agreed =
        "all agree: 6 answers of the part, in 8 events; in a transaction that was under way\n\
                  the ACS pin agrees after 8 events\n";
    assert!(said.starts_with(agreed), "{said}");
}

#[test]
fn a_picture_that_is_not_drawn_is_said_and_no_old_one_stays() {
    let folder = Folder::new("judge-undrawn");
    folder.write("run.bus", "[ A0 ]");
    folder.succeed(&[
        "run",
        "run.bus",
        "--quiet",
        "--capture",
        "good",
        "--vcd",
        "w.vcd",
    ]);
    let mut file = folder.read("good");
    let place = answers_of(&file) + 9;
    file[place] ^= 1;
    folder.write("wrong", &file);
    folder.write("cut", &file[..100]);
    folder.write("none.vcd", format!("{HEAD}#0 1! 0\" #1"));
    let differs = |picture: &str| {
        let ran = folder.run(&["judge", "wrong", "--svg", picture]);
        assert_eq!(ran.code, 5);
        assert!(folder.file(picture).exists() && !ran.errors.contains("drawn"));
    };
    for (words, code, why) in [
        (&["good"][..], 0, "no answer differs"),
        (&["cut"], 4, "nothing was judged"),
        (&["--from-vcd", "w.vcd"], 0, "no answer differs"),
        (&["--from-vcd", "none.vcd"], 3, "nothing was judged"),
    ] {
        let judge = [&["judge"], words, &["--svg", "p.svg"]].concat();
        let line = |rest: &str| format!("fm3130: p.svg: not drawn, since {why}{rest}\n");
        let ran = folder.run(&judge);
        assert_eq!(ran.code, code, "{}", ran.errors);
        assert!(ran.errors.starts_with(&line("")), "{}", ran.errors);
        differs("p.svg");
        let ran = folder.run(&judge);
        let removed = line("; the one that was there is removed");
        assert!(ran.errors.starts_with(&removed), "{}", ran.errors);
        assert!(!folder.file("p.svg").exists());
    }
    // What fails before anything is judged leaves the picture as it is.
    differs("p.svg");
    for words in [
        &["no-file"][..],
        &["--from-vcd", "w.vcd", "--memory", "no-file"],
    ] {
        let ran = folder.run(&[&["judge"], words, &["--svg", "p.svg"]].concat());
        assert_eq!(ran.code, 1);
        assert!(folder.file("p.svg").exists());
    }
}

/// A wrong part, a malformed file and a file that is not there have an exit code each.
#[test]
fn a_wrong_part_has_an_exit_code_of_its_own() {
    let folder = Folder::new("judge-codes");
    folder.write("run.bus", "[ A0 ]");
    folder.succeed(&["run", "run.bus", "--quiet", "--capture", "good"]);
    folder.write("zeros", [0; 64]);
    let good = folder.read("good");
    let mut wrong = good.clone();
    wrong[answers_of(&good) + 9] ^= 1;
    folder.write("wrong", &wrong);
    folder.write("cut", &good[..100]);
    folder.write("empty", "");
    folder.write(
        "unacknowledged.vcd",
        format!("{HEAD}#0 1! 1\" {NAMED}#").replacen(
            // The bit before the acknowledge is 0; SDA rises then, and so the part did not pull it.
            "# 1! # 0! # 1! # 1\" #",
            "# 1\" # 1! # 0! # 0\" # 1! # 1\" #",
            1,
        ),
    );
    let vcd = "unacknowledged.vcd";
    for (words, code) in [
        (&["good"][..], 0),
        (&["none"], 1),
        (&["good", "more"], 2),
        (&["--from-vcd", "empty"], 3),
        (&["cut"], 4),
        (&["empty"], 4),
        (&["--from-vcd", vcd, "--image", "zeros"], 4),
        (&["wrong"], 5),
        (&["--from-vcd", vcd], 5),
    ] {
        let ran = folder.run(&[&["judge"], words].concat());
        assert_eq!(ran.code, code, "{words:?}: {}", ran.errors);
    }
}

/// Of nothing it is not said that it agrees.
#[test]
fn a_capture_without_events_has_no_answers() {
    let folder = Folder::new("judge-empty");
    folder.run_with(&["run", "-", "--quiet", "--capture", "c"], "# nothing");
    assert_eq!(
        folder.succeed(&["judge", "c"]),
        "no answers: the capture has no events\n"
    );
}

/// The bytes of docs/CAPTURE.md's example are those of the file that its command writes.
#[test]
fn the_example_in_the_documents_is_the_file() {
    let folder = Folder::new("judge-example");
    let ran = folder.run_with(
        &["run", "-", "--quiet", "--capture", "k12.capture"],
        "[ A0 ]",
    );
    assert_eq!(ran.code, 0, "{}", ran.errors);
    let file = folder.read("k12.capture");
    assert_eq!(file.len(), 8326);
    let page = include_str!("../../../docs/CAPTURE.md");
    let mut shown = 0;
    for line in page.lines() {
        let Some((place, rest)) = line.split_once("  ") else {
            continue;
        };
        let is_place = place.len() == 4 && place.bytes().all(|digit| digit.is_ascii_hexdigit());
        if !is_place {
            continue;
        }
        let from = usize::from_str_radix(place, 16).unwrap();
        let bytes: Vec<u8> = rest
            .split_whitespace()
            .map_while(|word| (word.len() == 2).then(|| u8::from_str_radix(word, 16).ok())?)
            .collect();
        assert_eq!(file[from..from + bytes.len()], bytes[..], "{line}");
        shown += bytes.len();
    }
    assert!(shown > 90, "{shown}");
}
