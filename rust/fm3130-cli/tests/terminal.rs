// SPDX-License-Identifier: Apache-2.0
//! At a terminal, and where words and files go elsewhere. `script` of util-linux makes the terminal.

mod support;

use std::fs;
use std::io::Write;
use std::path::Path;
use std::process::{Command, Stdio};
use std::thread::sleep;
use std::time::{Duration, Instant};

use support::Folder;

const FM3130: &str = env!("CARGO_BIN_EXE_fm3130");

/// Runs a command line of the shell in a folder, with `fm3130` in it; returns its exit code and all that it says.
fn shell(folder: &Folder, line: &str) -> (i32, String) {
    let output = Command::new("sh")
        .args(["-c", &line.replace("fm3130", FM3130)])
        .current_dir(folder.file(""))
        .stdin(Stdio::null())
        .output()
        .unwrap();
    let said = [output.stdout, output.stderr].concat();
    (
        output.status.code().unwrap(),
        String::from_utf8(said).unwrap(),
    )
}

/// Runs a command at a terminal, at which some lines are typed; returns its exit code and what the terminal shows.
fn at_terminal(folder: &Folder, line: &str, typed: &str) -> (i32, String) {
    let mut child = Command::new("script")
        .args(["-qec", &line.replace("fm3130", FM3130), "/dev/null"])
        .current_dir(folder.file(""))
        .env("TERM", "xterm")
        .env_remove("NO_COLOR")
        .stdin(Stdio::piped())
        .stdout(Stdio::piped())
        .spawn()
        .unwrap();
    let mut input = child.stdin.take().unwrap();
    for line in typed.split_inclusive('\n') {
        // Somebody who types is slower than a pipe.
        sleep(Duration::from_millis(200));
        let _ = input.write_all(line.as_bytes());
    }
    let output = child.wait_with_output().unwrap();
    drop(input);
    let shown = String::from_utf8(output.stdout).unwrap();
    (output.status.code().unwrap(), shown.replace('\r', ""))
}

#[test]
fn a_script_is_typed_line_by_line() {
    let folder = Folder::new("terminal-prompt");
    let typed = "[ A0 01 23 5A ]\n[ lots ]\nt*3\n[ A0 01 23 [ A1 r=5B ]\n\u{4}";
    let (code, shown) = at_terminal(&folder, "fm3130 run - --memory memory", typed);
    assert_eq!(code, 0, "{shown}");
    for wanted in [
        "fm3130> ",
        "Control-D ends",
        "memory 0123h: stored",
        "unknown word lots",
        "perhaps lost",
        "3 ticks: the oscillator is halted",
        "expected 5Bh, seen 5Ah",
        "Registers",
    ] {
        assert!(shown.contains(wanted), "{wanted}: {shown}");
    }
    // Ticks are told when they are typed, and not with what follows them.
    assert!(
        shown.find("3 ticks") < shown.find("expected 5Bh"),
        "{shown}"
    );
    assert_eq!(folder.read("memory")[0x123], 0x5A);
}

#[test]
fn colours_are_for_terminals_that_want_them() {
    let folder = Folder::new("terminal-colours");
    folder.write("script.bus", "[ A0 A2 ] t [ A2 ]");
    let (_, shown) = at_terminal(&folder, "fm3130 run script.bus", "");
    assert!(shown.contains("\x1b[31m  write A2h  NACK"), "{shown}");
    assert!(shown.contains("\x1b[32m  write A0h  ACK"), "{shown}");
    for plain in [
        "NO_COLOR=1 fm3130 run script.bus",
        "TERM=dumb fm3130 run script.bus",
        "fm3130 run script.bus | cat",
    ] {
        let (_, shown) = at_terminal(&folder, plain, "");
        assert!(shown.contains("NACK") && !shown.contains('\x1b'), "{shown}");
    }
    let (code, shown) = at_terminal(&folder, "fm3130 rnu", "");
    assert_eq!(code, 2);
    assert!(shown.contains("\x1b[31mfm3130:\x1b[0m unknown command rnu; perhaps run"));
}

#[test]
fn words_of_a_command_line_are_no_orders_to_a_terminal() {
    let folder = Folder::new("terminal-escapes");
    let wild = "\x1b[2J\x07";
    folder.write("wild.bus", format!("[ {wild} ]"));
    let lines: [&[&str]; 6] = [
        &[wild],
        &["run", &format!("--{wild}")],
        &["run", wild],
        &["run", "wild.bus"],
        &["help", wild],
        &["run", "wild.bus", "--part", wild],
    ];
    for words in lines {
        let ran = folder.run(words);
        assert_ne!(ran.code, 0);
        assert!(!ran.errors.contains(['\x1b', '\x07']), "{}", ran.errors);
        assert!(ran.errors.contains('\u{FFFD}'), "{}", ran.errors);
    }
    let ran = folder.run_with(&["run", "-", "--image", wild], "t");
    assert_eq!(ran.code, 0);
    assert!(ran.output.contains("new, begins fresh") && !ran.output.contains('\x1b'));
}

#[test]
fn typos_and_pages_are_named() {
    let folder = Folder::new("terminal-typos");
    for (words, said) in [
        (&["evnets"][..], "unknown command evnets; perhaps events\n"),
        (
            &["run", "x", "--vdc", "y"],
            "unknown option --vdc; perhaps --vcd\ntry `fm3130 help run`",
        ),
        (&["judge"], "try `fm3130 help judge`"),
        (&["lamps", "--part"], "try `fm3130 help lamps`"),
        (&["help", "scripts"], "no help on scripts; perhaps script\n"),
        (
            &["version", "more"],
            "one word too many: more\ntry `fm3130 help version`",
        ),
    ] {
        let ran = folder.run(words);
        assert_eq!(ran.code, 2);
        assert!(ran.errors.contains(said), "{words:?}: {}", ran.errors);
    }
    folder.write("two.masters", "# first\na: [ A0 ]");
    for command in ["run", "events", "lamps"] {
        let ran = folder.run(&[command, "two.masters"]);
        assert_eq!(ran.code, 3);
        assert!(ran
            .errors
            .contains("two.masters:2:1: this begins a turn of two masters"));
        assert!(
            ran.errors.contains("`fm3130 share` plays"),
            "{}",
            ran.errors
        );
    }
}

#[test]
fn a_reader_that_is_not_there_is_no_panic() {
    let folder = Folder::new("terminal-closed");
    folder.write("script.bus", "[ A0 00 00 FF*3000 ]");
    for line in [
        "fm3130 help >&-",
        "fm3130 help 2>&-",
        "fm3130 rnu 2>&-",
        "fm3130 rnu >&- 2>&-",
        "fm3130 run script.bus >&- 2>&-",
        "fm3130 rnu 2>/dev/full",
        "fm3130 help >/dev/full",
        "fm3130 run script.bus >/dev/full 2>&1",
        "fm3130 run script.bus --vcd - >/dev/full 2>/dev/full",
        "(fm3130 run script.bus; echo $? >code) | head -1; exit $(cat code)",
        "(fm3130 run script.bus --vcd -; echo $? >code) 2>/dev/null | head -1; exit $(cat code)",
    ] {
        let (code, said) = shell(&folder, line);
        assert!(code <= 2, "{line}: {code}: {said}");
        assert!(!said.contains("panicked"), "{line}: {said}");
    }
}

#[test]
fn a_dash_is_standard_output() {
    let folder = Folder::new("terminal-dash");
    folder.write("script.bus", "[ A0 01 23 5A ] t");
    for (option, name) in [
        ("--vcd", "vcd"),
        ("--svg", "svg"),
        ("--answers", "answers"),
        ("--capture", "capture"),
    ] {
        folder.succeed(&["run", "script.bus", option, name]);
        let line = format!("fm3130 run script.bus {option} - 2>words >{name}.out");
        assert_eq!(shell(&folder, &line).0, 0);
        assert!(
            folder.read(name) == folder.read(&format!("{name}.out")),
            "{name}"
        );
        // Words are not lost: they stand beside the file.
        let words = String::from_utf8(folder.read("words")).unwrap();
        assert!(words.contains("memory 0123h: stored") && words.contains("Registers"));
    }
    assert_eq!(
        shell(&folder, "cat script.bus | fm3130 events - -o - >events").0,
        0
    );
    folder.succeed(&["events", "script.bus", "-o", "same"]);
    assert_eq!(folder.read("events"), folder.read("same"));
    assert_eq!(shell(&folder, "fm3130 fresh --image - >image").0, 0);
    assert_eq!(folder.read("image").len(), 64);
    for command in ["lamps script.bus", "share two.masters"] {
        folder.write("two.masters", "a: [ A0 ]");
        let (code, _) = shell(&folder, &format!("fm3130 {command} --svg - 2>words >svg"));
        assert_eq!(code, 0);
        assert!(folder.read("svg").starts_with(b"<?xml") && !folder.read("words").is_empty());
    }
    for words in [
        &["run", "script.bus", "--vcd", "-", "--svg", "-"][..],
        &["run", "script.bus", "--image", "-"],
        &["mend", "--image", "-"],
    ] {
        assert_eq!(folder.run(words).code, 2, "{words:?}");
    }
    let names: Vec<String> = folder
        .snapshot()
        .into_iter()
        .map(|(name, _)| name)
        .collect();
    assert!(!names.contains(&"-".to_string()), "{names:?}");
}

/// The names in a folder that end in `.part`.
fn parts(folder: &Path) -> Vec<String> {
    let names = fs::read_dir(folder).unwrap();
    let names = names.map(|entry| entry.unwrap().file_name().into_string().unwrap());
    names.filter(|name| name.ends_with(".part")).collect()
}

#[test]
fn an_interrupted_command_leaves_nothing() {
    for signal in ["-INT", "-TERM", "-HUP"] {
        let folder = Folder::new("terminal-interrupt");
        folder.write("long.bus", "{1}*4294967295");
        let words = [
            "run", "long.bus", "--quiet", "--large", "--vcd", "vcd", "--image", "image",
        ];
        // Whoever runs the tests may ignore signals, and the command leaves an ignored one alone.
        let mut child = Command::new("env")
            .args(["--default-signal", FM3130])
            .args(words)
            .current_dir(folder.file(""))
            .stderr(Stdio::null())
            .spawn()
            .unwrap();
        let begin = Instant::now();
        while parts(&folder.file("")).len() < 2 {
            assert!(begin.elapsed() < Duration::from_secs(60));
            sleep(Duration::from_millis(5));
        }
        let process = child.id().to_string();
        let killed = Command::new("kill").args([signal, &process]).status();
        assert!(killed.unwrap().success());
        // It ends by the signal, as whoever sent it expects.
        assert_eq!(child.wait().unwrap().code(), None, "{signal}");
        assert_eq!(parts(&folder.file("")), Vec::<String>::new(), "{signal}");
        assert!(!folder.file("vcd").exists() && !folder.file("image").exists());
    }
}
