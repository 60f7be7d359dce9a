// SPDX-License-Identifier: Apache-2.0
//! Sets on the command line: several `--part`, edges that name their device, who answers, what does not
//! fit.

mod support;

use std::env;
use std::fs;
use std::path::Path;

use fm3130::family::{edge_1, edge_2, event, Member, Select, Set, Size};
use support::{scripts, Folder};

/// A set of two, their select bits 2 and 0.
const TWO: [&str; 4] = ["--part", "fm31256@2", "--part", "fm3164@0"];

/// What a run of a text says on the set of two.
fn said(folder: &Folder, text: &str) -> String {
    let ran = folder.run_with(&[&["run", "-"], &TWO[..]].concat(), text);
    assert_eq!(ran.code, 0, "{}", ran.errors);
    ran.output
}

/// The code and the error of a command that fails.
fn failed(folder: &Folder, words: &[&str], text: &str) -> (i32, String) {
    let ran = folder.run_with(words, text);
    assert_ne!(ran.code, 0, "{words:?}");
    assert_eq!(ran.output, "", "{words:?}");
    (ran.code, ran.errors)
}

#[test]
fn the_example_prints_what_is_expected() {
    let folder = Folder::new("set-example");
    let path = scripts().join("four-on-a-wire.set");
    let text = fs::read_to_string(&path).unwrap();
    // The line that says how it is played.
    let line = text.lines().find(|line| line.contains("--part")).unwrap();
    let parts = line.split_whitespace().skip_while(|word| *word != "--part");
    let mut words = vec!["run", path.to_str().unwrap()];
    words.extend(parts);
    assert_eq!(words.len(), 10);
    let printed = folder.succeed(&words);
    let expected = Path::new(env!("CARGO_MANIFEST_DIR")).join("tests/expected/four-on-a-wire.txt");
    if env::var_os("RENEW_EXPECTED").is_some() {
        fs::write(&expected, &printed).unwrap();
    }
    let stored = fs::read_to_string(&expected).unwrap_or_default();
    for (number, (one, other)) in printed.lines().zip(stored.lines()).enumerate() {
        assert_eq!(one, other, "line {}", number + 1);
    }
    assert_eq!(printed, stored);
}

#[test]
fn every_byte_says_who_answers() {
    let folder = Folder::new("set-bytes");
    let output = said(
        &folder,
        "[ A4 7F FF 5A 5B ] [ A0 1F FF [ A1 r ] [ A6 00 ] [ D2 ] [ 5E ]",
    );
    for line in [
        "  write A4h  ACK   @2 slave byte: memory, write\n",
        "  write 5Ah  ACK   @2 memory 7FFFh: stored\n",
        "  write 5Bh  ACK   @2 memory 0000h: stored\n",
        "  write A1h  ACK   @0 slave byte: memory, read\n",
        "  read  00h  NACK  @0 memory 1FFFh\n",
        "  write A6h  NACK  slave byte: memory, write, select bits 3: nobody has them\n",
        "  line  00h  NACK  nobody listens\n",
        "  write D2h  NACK  slave byte: companion, write, select bits 1: nobody has them\n",
        "  write 5Eh  NACK  slave byte: another part\n",
        "\nFM31256@2\nRegisters\n",
        "Addresses  memory 0001h, companion 09h\n",
        "\nFM3164@0\nRegisters\n",
        "Addresses  memory 0000h, companion 09h\n",
    ] {
        assert!(output.contains(line), "{line}: {output}");
    }
}

#[test]
fn cut_bytes_and_a_master_that_holds_the_line() {
    let folder = Folder::new("set-cut");
    let output = said(
        &folder,
        "[ {1010} [ {101000100} ] [ {101001000} 00 {01} ] {11}",
    );
    for line in [
        "  clocks  {1010}  slave byte, cut after 4 clocks: dropped\n",
        "  write A2h  NACK  slave byte: memory, write, select bits 1: nobody has them; \
         it is the master that holds the ninth bit low\n",
        "  write A4h  ACK   @2 slave byte: memory, write\n",
        "  clocks  {01}  @2 ",
        "  clocks  {11}  outside a transfer\n",
    ] {
        assert!(output.contains(line), "{line}: {output}");
    }
}

#[test]
fn edges_of_two_devices_are_told_apart() {
    let folder = Folder::new("set-edges");
    let output = said(
        &folder,
        "c1@2*300 c1@0 c1@0 c2@0 [ A0 {10} c1@2 {1} ] t*100",
    );
    for line in [
        "c1@2*300 300 edges on CNT1: counter 1 0 -> 300 (012Ch)\n",
        "c1@0*2  2 edges on CNT1: counter 1 0 -> 2 (0002h)\n",
        "c2@0    1 edge on CNT2: counter 2 0 -> 1 (0001h)\n",
        "c1@2    1 edge on CNT1 after 2 clocks of a byte: counter 1 300 -> 301 (012Dh)\n",
        "t*100   100 ticks (1 minute, 40 seconds): this part has no clock\n",
        "Counters   1: 301 (012Dh), 2: 0 (0000h)\n",
        "Counters   1: 2 (0002h), 2: 1 (0001h)\n",
    ] {
        assert!(output.contains(line), "{line}: {output}");
    }
}

#[test]
fn answers_are_those_of_the_library() {
    let folder = Folder::new("set-answers");
    let words = ["run", "-", "--quiet", "--answers", "answers"];
    let text = "c1@0 [ A4 00 10 5A ] t*70 [ A4 00 10 [ A5 r ]";
    let ran = folder.run_with(&[&words[..], &TWO[..]].concat(), text);
    assert_eq!((ran.code, ran.output.as_str()), (0, ""), "{}", ran.errors);
    let mut set = Set::new([
        Member::fresh(Size::Kb256, Select::TWO),
        Member::fresh(Size::Kb64, Select::ZERO),
    ])
    .unwrap();
    let mut events = vec![edge_1(1), event::START];
    let written = |bytes: &[u8]| -> Vec<u8> {
        let clocks = bytes.iter().map(|byte| event::written_byte(*byte));
        clocks.flatten().collect()
    };
    events.extend(written(&[0xA4, 0x00, 0x10, 0x5A]));
    events.push(event::STOP);
    events.extend([event::TICK; 70]);
    events.push(event::START);
    events.extend(written(&[0xA4, 0x00, 0x10]));
    events.push(event::START);
    events.extend(written(&[0xA5]));
    events.extend(event::read_byte(false));
    events.push(event::STOP);
    assert_eq!(folder.read("answers"), set.run(&events).unwrap());
    // With a transcript every event is done by itself; the answers are the same.
    let words = ["run", "-", "--answers", "again"];
    folder.run_with(&[&words[..], &TWO[..]].concat(), text);
    assert_eq!(folder.read("again"), folder.read("answers"));
}

#[test]
fn a_drawing_has_a_colour_for_each_device() {
    let folder = Folder::new("set-drawing");
    let drawn = |text: &str| {
        let words = ["run", "-", "--quiet", "--svg", "drawing"];
        let ran = folder.run_with(&[&words[..], &TWO[..]].concat(), text);
        assert_eq!((ran.code, ran.output.as_str()), (0, ""), "{}", ran.errors);
        String::from_utf8(folder.read("drawing")).unwrap()
    };
    let has_line = |drawing: &str, color: &str| drawing.contains(&format!("stroke=\"{color}\""));
    let (of_zero, of_two) = ("#d2600a", "#a3195b");
    let zero = drawn("[ A0 ]");
    assert!(has_line(&zero, of_zero) && !has_line(&zero, of_two));
    assert!(zero.contains(">@0 memory, write<"), "{zero}");
    let two = drawn("[ A4 ] c1@2");
    assert!(has_line(&two, of_two) && !has_line(&two, of_zero));
    assert!(two.contains(">@2 memory, write<") && two.contains(">c1@2<"));
    let nobody = drawn("[ A2 ]");
    assert!(!has_line(&nobody, of_zero) && !has_line(&nobody, of_two));
    // The legend has both in each, and no other.
    for drawing in [zero, two, nobody] {
        for color in [of_zero, of_two] {
            let legend = format!("width=\"18\" height=\"4\" fill=\"{color}\"");
            assert!(drawing.contains(&legend));
        }
        assert!(drawing.contains(">@0</text>") && drawing.contains(">@2</text>"));
        assert!(!drawing.contains(">@1</text>") && !drawing.contains(">@3</text>"));
    }
}

#[test]
fn one_part_with_select_bits_is_a_set() {
    let folder = Folder::new("set-one");
    let ran = folder.run_with(&["run", "-", "--part=FM3164@1"], "[ A2 ] [ A0 ] c1@1");
    assert_eq!(ran.code, 0, "{}", ran.errors);
    assert!(ran.output.contains("write A2h  ACK   @1 slave byte"));
    assert!(ran.output.contains("write A0h  NACK  slave byte"));
    assert!(ran.output.contains("\nFM3164@1\n"));
}

#[test]
fn sets_that_cannot_be_are_refused() {
    let folder = Folder::new("set-refused");
    let five = ["fm3164@0", "fm3164@1", "fm3164@2", "fm3164@3", "fm3164@0"];
    for (parts, message) in [
        (
            &five[..],
            "no set: a set has one to four devices (number 9)",
        ),
        (
            &["fm3164@1", "fm31256@1"],
            "no set: two devices have the same select bits (number 10)",
        ),
        (
            &["fm3164@1", "fm31256"],
            "fm31256 has no select bits; in a set every part has its own, such as fm31256@0",
        ),
        (&["fm3164", "fm3164"], "fm3164 has no select bits"),
        (&["fm3164@4"], "fm3164@4: select bits are 0, 1, 2 or 3"),
        (&["fm3164@"], "fm3164@: select bits are 0, 1, 2 or 3"),
        (&["fm3130@0"], "fm3130@0: the FM3130 has no select bits"),
        (&["fm99@0"], "fm99 is no part"),
    ] {
        let mut words = vec!["run", "-"];
        words.extend(parts.iter().flat_map(|part| ["--part", part]));
        let (code, errors) = failed(&folder, &words, "[ ]");
        assert_eq!(code, 2, "{errors}");
        assert!(errors.contains(message), "{message}: {errors}");
    }
}

/// The words of a run with files, on the set of two.
fn with_files<'words>(words: &[&'words str]) -> Vec<&'words str> {
    [
        words,
        &["--image", "images", "--memory", "memories"],
        &TWO[..],
    ]
    .concat()
}

#[test]
fn a_set_lives_on_between_runs() {
    let folder = Folder::new("set-files");
    let ran = folder.run_with(
        &with_files(&["run", "-"]),
        "c1@0*3 [ A4 7F FE 5A ] [ D0 0B 18 ]",
    );
    assert_eq!(ran.code, 0, "{}", ran.errors);
    assert!(ran.output.contains("images: new, begins fresh\n"));
    assert!(ran.output.contains("memories: new, begins fresh\n"));
    let (images, memories) = (folder.read("images"), folder.read("memories"));
    assert_eq!((images.len(), memories.len()), (128, 32_768 + 8_192));
    // The first device is that of select bits 2; the second counted, and protects its memory.
    assert_eq!(
        (memories[0x7FFE], images[64 + 4], images[64 + 2]),
        (0x5A, 3, 0x18)
    );
    let ran = folder.run_with(
        &with_files(&["run", "-"]),
        "c1@0 [ A4 7F FE [ A5 r ] [ A0 00 00 77 ]",
    );
    assert!(!ran.output.contains("begins fresh"), "{}", ran.output);
    for line in [
        "c1@0    1 edge on CNT1: counter 1 3 -> 4 (0004h)\n",
        "  read  5Ah  NACK  @2 memory 7FFEh\n",
        "  write 77h  NACK  @0 memory 0000h: protected, not stored; the address goes on to 0001h\n",
    ] {
        assert!(ran.output.contains(line), "{line}: {}", ran.output);
    }
    assert_eq!(folder.read("images")[64 + 4], 4);
    assert_eq!(folder.read("memories"), memories);
}

#[test]
fn files_that_are_of_no_set_are_refused_and_stay() {
    let folder = Folder::new("set-wrong-files");
    let words = with_files(&["run", "-", "--quiet"]);
    for (name, bytes, message) in [
        (
            "images",
            vec![0; 127],
            "images: the file has 127 bytes: a set of 2 has 128",
        ),
        ("images", vec![0; 128], "images: "),
        ("memories", vec![0; 8_192], "a set of 2 has 40960"),
    ] {
        folder.write(name, &bytes);
        let (code, errors) = failed(&folder, &words, "[ ]");
        assert_eq!(code, 4, "{errors}");
        assert!(errors.contains(message), "{message}: {errors}");
        assert_eq!(folder.read(name), bytes);
        fs::remove_file(folder.file(name)).unwrap();
    }
    // A set that was left inside a transfer is not made again.
    let ran = folder.run_with(&words, "[ A4");
    assert_eq!(ran.code, 0, "{}", ran.errors);
    let (code, errors) = failed(&folder, &words, "[ ]");
    assert_eq!(code, 4);
    assert!(errors.contains("(number 11)"), "{errors}");
}

/// A locked serial number of the device at the first place, and a byte in the memory of the second.
const LOCKED: &str = "[ D2 11 4C 41 4D 50 ] [ D2 0B 80 ] [ A4 00 10 5A ]";

#[test]
fn files_say_which_device_is_which() {
    let folder = Folder::new("set-plan");
    let files = ["--image", "images", "--memory", "memories"];
    let (one, two) = (["--part", "fm31256@1"], ["--part", "fm3164@2"]);
    let words = [&["run", "-"], &files[..], &one, &two].concat();
    let ran = folder.run_with(&words, LOCKED);
    assert_eq!(ran.code, 0, "{}", ran.errors);
    for name in ["images.plan", "memories.plan"] {
        assert_eq!(folder.read(name), b"fm31256@1\nfm3164@2\n");
    }
    assert!(!folder.run_with(&words, "").output.contains("plan"));

    // In another order the second device would take over the locked serial number of the first.
    let before = [folder.read("images"), folder.read("memories")];
    for (parts, given) in [
        ([&two[..], &one].concat(), "fm3164@2, fm31256@1"),
        (
            [&one[..], &["--part", "fm3164@3"]].concat(),
            "fm31256@1, fm3164@3",
        ),
        (one.to_vec(), "fm31256@1"),
        (vec!["--part", "fm31256"], "fm31256"),
        (vec![], "fm3130"),
    ] {
        for file in [&files[..2], &files[2..]] {
            let (path, words) = (file[1], [&["run", "-"], file, &parts[..]].concat());
            let (code, errors) = failed(&folder, &words, "[ ]");
            let message = format!(
                "{path}: {path}.plan says that it holds fm31256@1, fm3164@2; the command line has {given}\n"
            );
            assert_eq!(code, 4, "{errors}");
            assert!(errors.ends_with(&message), "{message}: {errors}");
        }
    }
    assert_eq!([folder.read("images"), folder.read("memories")], before);
}

#[test]
fn files_without_a_plan_are_taken_and_said_so() {
    let folder = Folder::new("set-older");
    let set = Set::new([
        Member::fresh(Size::Kb256, Select::TWO),
        Member::fresh(Size::Kb64, Select::ZERO),
    ]);
    let members = set.unwrap().into_members();
    let images: Vec<u8> = members.iter().flat_map(|one| *one.image()).collect();
    folder.write("images", &images);
    let ran = folder.run_with(&with_files(&["run", "-"]), "c1@0");
    assert_eq!(ran.code, 0, "{}", ran.errors);
    let line = "images: no plan beside it, taken as fm31256@2, fm3164@0\n";
    assert!(ran.output.starts_with(line), "{}", ran.output);
    assert!(!ran.output.contains("memories: no plan"), "{}", ran.output);
    // From now on there is one.
    assert_eq!(folder.read("images.plan"), b"fm31256@2\nfm3164@0\n");
    let ran = folder.run_with(&with_files(&["run", "-"]), "c1@0");
    assert!(!ran.output.contains("no plan"), "{}", ran.output);
    // Quietly it is taken too.
    fs::remove_file(folder.file("images.plan")).unwrap();
    let ran = folder.run_with(&with_files(&["run", "-", "--quiet"]), "c1@0");
    assert_eq!((ran.code, ran.output.as_str()), (0, ""), "{}", ran.errors);
}

#[cfg(unix)]
#[test]
fn a_plan_stands_beside_the_file_that_a_link_leads_to() {
    let folder = Folder::new("set-link");
    fs::create_dir(folder.file("kept")).unwrap();
    let run = |path: &str, part: &str| {
        let words = ["run", "-", "--quiet", "--image", path, "--part", part];
        folder.run_with(&words, "").code
    };
    assert_eq!(run("kept/image", "fm3164@1"), 0);
    std::os::unix::fs::symlink("kept/image", folder.file("link")).unwrap();
    assert_eq!((run("link", "fm3164@2"), run("link", "fm3164@1")), (4, 0));
    assert!(folder.file("link").is_symlink() && !folder.file("link.plan").exists());
}

#[test]
fn a_plan_that_is_none_is_refused() {
    let folder = Folder::new("set-no-plan");
    let words = with_files(&["run", "-", "--quiet"]);
    assert_eq!(folder.run_with(&words, "c1@0").code, 0);
    let before = folder.read("images");
    for (text, message) in [
        ("", "images.plan: no plan of a set, it is empty"),
        (
            "fm31256@2\nfm3164\n",
            "images.plan: no plan of a set, \"fm3164\" is no device such as fm3164@2",
        ),
        ("\u{1}\u{2}", "is no device such as fm3164@2"),
    ] {
        folder.write("images.plan", text.as_bytes());
        let (code, errors) = failed(&folder, &words, "c1@0");
        assert_eq!(code, 4, "{errors}");
        assert!(errors.contains(message), "{message}: {errors}");
        assert_eq!(folder.read("images.plan"), text.as_bytes());
        assert_eq!(folder.read("images"), before);
    }
    // It may be written by hand, in the words that the command takes.
    folder.write("images.plan", b"FM31256@2\r\n fm3164@0");
    assert_eq!(folder.run_with(&words, "c1@0").code, 0);
    assert_eq!(folder.read("images.plan"), b"fm31256@2\nfm3164@0\n");
}

#[test]
fn a_plan_is_a_file_that_nothing_else_may_be() {
    let folder = Folder::new("set-plan-named");
    for (option, other) in [("--answers", "images.plan"), ("--svg", "memories.plan")] {
        let words = [&with_files(&["run", "-"])[..], &[option, other]].concat();
        let (code, errors) = failed(&folder, &words, "[ ]");
        assert_eq!(code, 2, "{errors}");
        let message = format!("name one file: {other}");
        assert!(errors.contains(&message), "{errors}");
    }
    // A plan that cannot be written leaves everything as it was.
    fs::create_dir(folder.file("images.plan")).unwrap();
    let (code, errors) = failed(&folder, &with_files(&["run", "-", "--quiet"]), "[ ]");
    assert_eq!(code, 1, "{errors}");
    assert!(!folder.file("images").exists() && !folder.file("memories").exists());
}

#[test]
fn a_set_of_one_with_select_bits_0_is_a_part_by_itself() {
    let folder = Folder::new("set-alone");
    let image = ["run", "-", "--quiet", "--image", "image", "--part"];
    let run = |part: &str| folder.run_with(&[&image[..], &[part]].concat(), "").code;
    assert_eq!(run("fm3164@0"), 0);
    assert_eq!((run("fm3164"), run("fm3164@0")), (0, 0));
    assert_eq!((run("fm31256"), run("fm3164@1"), run("fm3130")), (4, 4, 4));
    let fresh = ["fresh", "--force", "--image", "image", "--part", "fm31256"];
    let (code, errors) = failed(&folder, &fresh, "");
    assert_eq!(code, 4, "{errors}");
    assert!(errors.contains("holds fm3164@0; the command line has fm31256"));
}

#[test]
fn events_of_a_set_go_to_a_file_and_back() {
    let folder = Folder::new("set-events");
    let text = "[ A4 00 10 5A ] c1@2 c2@0 t*2 [ D0 0D [ D1 r ]";
    let words = [&["events", "-", "-o", "events"], &TWO[..]].concat();
    assert_eq!(folder.run_with(&words, text).code, 0);
    let events = folder.read("events");
    // The edge of the device at the first place, and of that at the second.
    assert!(events.contains(&edge_1(0)) && events.contains(&edge_2(1)));
    let words = [&["run", "-", "--answers", "one"], &TWO[..]].concat();
    let scripted = folder.run_with(&words, text).output;
    let words = [&["run", "--events", "events", "--answers", "two"], &TWO[..]].concat();
    assert_eq!(folder.run_with(&words, "").output, scripted);
    assert_eq!(folder.read("one"), folder.read("two"));
    // An event byte that names no device of the set.
    folder.write("events", &[0, edge_1(2)]);
    let (code, errors) = failed(&folder, &words, "");
    assert_eq!(code, 3, "{errors}");
    let message = "byte 1 is 0Ch: an event of a set of 2 is at most 0Bh";
    assert!(errors.contains(message), "{errors}");
    let words = [&["events", "--list", "events"], &TWO[..]].concat();
    assert!(failed(&folder, &words, "")
        .1
        .contains("--list knows no sets"));
    let words = ["events", "-", "--part", "fm3164@1", "--part", "fm3164@1"];
    assert!(failed(&folder, &words, "").1.contains("(number 10)"));
}

#[test]
fn a_waveform_has_the_line_that_the_set_leaves() {
    let folder = Folder::new("set-waveform");
    let waveform = |part: &[&str], text: &str| {
        let words = [&["run", "-", "--quiet", "--vcd", "waves"], part].concat();
        let ran = folder.run_with(&words, text);
        assert_eq!(ran.code, 0, "{}", ran.errors);
        String::from_utf8(folder.read("waves")).unwrap()
    };
    // The same bits on the wire, and the same answers, of one device alone and of one among two.
    let alone = waveform(
        &["--part", "fm31256@2"],
        "[ A4 00 10 5A ] c1@2 [ A4 00 10 [ A5 r ]",
    );
    let among = waveform(&TWO, "[ A4 00 10 5A ] c1@2 [ A4 00 10 [ A5 r ]");
    assert_eq!(alone, among);
    // A slave byte that names nobody is not acknowledged: DEVICE never pulls.
    let nobody = waveform(&TWO, "[ A2 ]");
    assert!(!nobody.contains("\n0$\n"), "{nobody}");
}

#[test]
fn what_knows_no_sets_says_so() {
    let folder = Folder::new("set-unknown");
    for option in ["--capture"] {
        let words = [&["run", "-", option, "file"], &TWO[..]].concat();
        let (code, errors) = failed(&folder, &words, "[ ]");
        assert_eq!(code, 2);
        assert!(
            errors.contains(&format!("{option} knows no sets")),
            "{errors}"
        );
        assert!(!folder.file("file").exists(), "{option}");
    }
    let words = [&["run", "-", "--next-line"], &TWO[..]].concat();
    assert!(failed(&folder, &words, "[ ]")
        .1
        .contains("--next-line knows no sets"));
    assert!(failed(&folder, &[&["run"], &TWO[..]].concat(), "")
        .1
        .contains("run needs a SCRIPT"));
    let words_of_others: [&[&str]; 4] = [
        &["view", "--memory", "file"],
        &["fresh"],
        &["share", "-"],
        &["lamps", "-"],
    ];
    for words in words_of_others {
        let words = [words, &["--part", "fm3164@1"]].concat();
        let (code, errors) = failed(&folder, &words, "");
        assert_eq!(code, 2);
        let message =
            "fm3164@1 has select bits: it is for a set, which run, test, events and bus alone know";
        assert!(errors.contains(message), "{words:?}: {errors}");
    }
    let words = ["fresh", "--part", "fm3164", "--part", "fm3164"];
    let (_, errors) = failed(&folder, &words, "");
    assert!(errors.contains("--part is given twice"), "{errors}");
}

#[test]
fn edges_that_name_no_device_are_shown() {
    let folder = Folder::new("set-names");
    let words = [&["run", "-"], &TWO[..]].concat();
    let (code, errors) = failed(&folder, &words, "[ A0 c1 ]");
    assert_eq!(code, 3);
    assert!(
        errors.contains("1:6: c1 does not say which device of the set"),
        "{errors}"
    );
    assert!(errors.contains("write c1@2 or c1@0"), "{errors}");
    let (_, errors) = failed(&folder, &words, "c2@1");
    assert!(
        errors.contains("c2@1 names no device of the set"),
        "{errors}"
    );
    let (_, errors) = failed(&folder, &["run", "-", "--part", "fm3164"], "c2@0");
    assert!(
        errors.contains("c2@0 names a device of a set, and there is one part"),
        "{errors}"
    );
}
