// SPDX-License-Identifier: Apache-2.0
//! Recordings of the wires as a user has them: long ones, with ticks and power, played, listed, told in words.

mod support;

use support::{script, script_names, Folder, Ran};

/// Writes the waveform of a script.
fn record(folder: &Folder, text: &str) {
    folder.write("run.bus", text);
    folder.succeed(&["run", "run.bus", "--quiet", "--vcd", "w.vcd"]);
}

fn judge(folder: &Folder, words: &[&str]) -> Ran {
    folder.run(&[&["judge", "--from-vcd", "w.vcd"], words].concat())
}

/// A waveform in which SDA does not fall at one of the places where the device pulls it, counted in tenths of all.
fn without_a_pull(text: &str, tenths: usize) -> String {
    let pulled = "\n0$\n0\"\n";
    let places: Vec<usize> = text.match_indices(pulled).map(|(at, _)| at).collect();
    let at = places[places.len() * tenths / 10];
    format!("{}\n0$\n{}", &text[..at], &text[at + pulled.len()..])
}

/// With wires for ticks, power and the pin, our own waveforms of every script hold all that there is to judge.
#[test]
fn our_own_waveforms_have_ticks_power_and_pin() {
    let folder = Folder::new("recordings-own");
    for name in script_names() {
        folder.succeed(&[
            "run",
            &script(&name),
            "--quiet",
            "--vcd",
            "w.vcd",
            "--answers",
            "a",
        ]);
        let ran = judge(&folder, &[]);
        assert_eq!(ran.code, 0, "{name}: {}{}", ran.output, ran.errors);
        assert!(
            ran.output.starts_with("all agree: "),
            "{name}: {}",
            ran.output
        );
        let words = ["--from-vcd", "w.vcd", "--quiet", "--answers", "b"];
        folder.succeed(&[&["run"], &words[..]].concat());
        // Power events that change nothing are on no wire; none of these scripts has one.
        assert!(folder.read("a") == folder.read("b"), "{name}");
    }
}

#[test]
fn ticks_are_counted_however_many() {
    let folder = Folder::new("recordings-ticks");
    let begin = "[ D0 01 00 ] [ D0 09 30 80 80 80 80 ] [ D0 0E 80 ] [ D0 00 08 ]";
    record(
        &folder,
        &format!("{begin} t*29 t t*86400 t*3 [ D0 00 [ D1 r:9 ] lost t*9 power [ D0 02 [ D1 r:7 ]"),
    );
    let ran = judge(&folder, &[]);
    assert_eq!(ran.code, 0, "{}", ran.output);
    assert!(
        ran.output.contains("events; 8 slave bytes name it\n"),
        "{}",
        ran.output
    );
    // One second less, and the calendar that is read is another.
    let text = String::from_utf8(folder.read("w.vcd")).unwrap();
    folder.write("w.vcd", text.replace("r9 -", "r10 -"));
    let ran = judge(&folder, &[]);
    assert_eq!(ran.code, 5, "{}", ran.output);
    assert!(ran.output.contains("Line       recorded"), "{}", ran.output);
    // The alarm comes one tick too late: the pin tells it.
    folder.write("w.vcd", text.replace("r30 -", "r29 -"));
    let ran = judge(&folder, &[]);
    assert_eq!(ran.code, 5, "{}", ran.output);
    let pin = "ACS pin    recorded alarm, pulled low, right alarm, not raised";
    assert!(ran.output.contains(pin), "{}", ran.output);
}

/// A recording of more events than a capture holds is judged in pieces; places count through all of them.
#[test]
fn a_long_recording_is_judged_to_its_end() {
    let folder = Folder::new("recordings-long");
    let transaction = "[ A0 01 23 5A ] [ A0 01 23 [ A1 r r ]\n";
    record(&folder, &transaction.repeat(1_000));
    let ran = judge(&folder, &[]);
    assert_eq!(ran.code, 0, "{}", ran.errors);
    // 38 events of the write, and 1 + 36 + 1 + 9 + 18 + 1 of the read.
    let counts =
        "all agree: 24000 answers of the part, in 95000 events; 3000 slave bytes name it\n";
    let answers = 4 + 4 + 16;
    assert_eq!(answers * 1_000, 24_000);
    assert!(ran.output.starts_with(counts), "{}", ran.output);

    // Far behind the first pieces something that the device pulls is missing.
    let text = String::from_utf8(folder.read("w.vcd")).unwrap();
    folder.write("w.vcd", without_a_pull(&text, 9));
    let ran = judge(&folder, &["--svg", "svg"]);
    assert_eq!(ran.code, 5, "{}", ran.output);
    let event = ran.output.split_whitespace().nth(1).unwrap();
    assert!(event.parse::<u64>().unwrap() > 80_000, "{}", ran.output);
    assert!(
        ran.output.contains("\nPlace      transaction 18"),
        "{}",
        ran.output
    );
    assert!(ran
        .output
        .contains("By the rules, around it:\n[       Start\n"));
    assert!(String::from_utf8(folder.read("svg"))
        .unwrap()
        .contains(">differs</text>"));
}

/// Wires that are swapped name no part, or differ; they never seem to agree about nothing.
#[test]
fn swapped_wires_are_told() {
    let folder = Folder::new("recordings-swapped");
    record(&folder, "[ A0 01 23 5A ] [ A0 01 23 [ A1 r ]");
    let ran = judge(&folder, &["--scl", "SDA", "--sda", "SCL"]);
    assert_eq!(ran.code, 3, "{}{}", ran.output, ran.errors);
    assert!(ran.errors.contains("nothing to judge"), "{}", ran.errors);
    assert!(
        ran.errors
            .contains("with the wires swapped it names the part"),
        "{}",
        ran.errors
    );
}

#[test]
fn a_session_of_sigrok_is_met_with_the_command() {
    let folder = Folder::new("recordings-session");
    folder.write("w.vcd", b"PK\x03\x04 and more");
    let ran = judge(&folder, &[]);
    assert_eq!(ran.code, 3);
    assert!(
        ran.errors
            .contains("sigrok-cli -i w.vcd -O vcd -o w.vcd.vcd"),
        "{}",
        ran.errors
    );
}

#[test]
fn a_recording_is_played_listed_and_told() {
    let folder = Folder::new("recordings-read");
    let text = "[ A0 01 23 5A ] t*3 [ A0 01 23 [ A1 r ]";
    record(&folder, text);
    let words = folder.succeed(&["run", "run.bus"]);
    let read = folder.succeed(&["run", "--from-vcd", "w.vcd"]);
    assert_eq!(words, read);
    folder.succeed(&["events", "run.bus", "-o", "one"]);
    folder.succeed(&["events", "--from-vcd", "w.vcd", "-o", "other"]);
    assert_eq!(folder.read("one"), folder.read("other"));
    assert_eq!(
        folder.succeed(&["events", "run.bus"]),
        folder.succeed(&["events", "--from-vcd", "w.vcd"])
    );
    // In words: what happened, then the verdict.
    let told = judge(&folder, &["--words"]);
    let happened = words.split("\n\n").next().unwrap();
    assert!(
        told.output.starts_with(&format!("{happened}\nall agree: ")),
        "{}",
        told.output
    );
    folder.succeed(&["run", "run.bus", "--quiet", "--capture", "c"]);
    let told = folder.succeed(&["judge", "c", "--words"]);
    assert_eq!(told, format!("{happened}\nall agree: 89 answers\n"));
    // The device before it is that of the files, and what it is after it is kept.
    folder.succeed(&[
        "run",
        "--from-vcd",
        "w.vcd",
        "--quiet",
        "--memory",
        "memory",
    ]);
    assert_eq!(folder.read("memory")[0x123], 0x5A);
    for words in [
        &["run", "run.bus", "--from-vcd", "w.vcd"][..],
        &["run", "--from-vcd", "w.vcd", "--part", "fm3164"],
        &["run", "run.bus", "--scl", "D0"],
        &["events", "run.bus", "--from-vcd", "w.vcd"],
        &["events", "--from-vcd", "w.vcd", "-o", "w.vcd"],
    ] {
        assert_eq!(folder.run(words).code, 2, "{words:?}");
    }
}

#[test]
fn a_waveform_opens_with_its_wires_in_view() {
    let folder = Folder::new("recordings-view");
    record(&folder, "[ A0 ]");
    let view = String::from_utf8(folder.read("w.gtkw")).unwrap();
    assert!(view.contains("[dumpfile] \"w.vcd\"\n"), "{view}");
    assert!(view.contains("\nfm3130.SCL\nfm3130.SDA\n"), "{view}");
    assert!(!view.contains("CNT1"));
    let waveform = String::from_utf8(folder.read("w.vcd")).unwrap();
    assert!(waveform.contains("$scope module fm3130 $end\n"));
    // A view that somebody made stays, and so does what stands in for a file.
    folder.write("w.gtkw", "mine");
    record(&folder, "[ A0 ]");
    assert_eq!(folder.read("w.gtkw"), b"mine");
    folder.succeed(&["run", "run.bus", "--quiet", "--vcd", "/dev/null"]);
    folder.succeed(&["run", "run.bus", "--vcd", "-"]);
    let ran = folder.run(&["run", "run.bus", "--vcd", "x.vcd", "--svg", "x.gtkw"]);
    assert_eq!(ran.code, 2, "{}", ran.errors);
}
