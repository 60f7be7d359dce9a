// SPDX-License-Identifier: Apache-2.0
//! Every example script, decoded by sigrok-cli: it sees the bytes that were written and read. And the decoder of this
//! house, sigrok/fm3130, which has them in words and the proved device beside them.
//!
//! Where sigrok-cli is not installed, the tests say so and pass; `tests/waveform.rs` decodes the
//! same files without it. `make sigrok-test` installs it first.

mod support;

use std::path::{Path, PathBuf};
use std::process::Command;

use support::{all_script_names, part_of, script, Folder};

/// What is compared: conditions, bytes and acknowledges.
const ANNOTATIONS: &str = "i2c=start:repeat-start:stop:ack:nack:\
                           address-read:address-write:data-read:data-write";

/// What sigrok-cli decodes, one sign a line; none if it is not installed.
fn decoded(folder: &Folder) -> Option<Vec<String>> {
    let output = Command::new("sigrok-cli")
        .args(["-i", folder.file("wires.vcd").to_str()?, "-I", "vcd"])
        .args(["-P", "i2c:scl=SCL:sda=SDA:address_format=unshifted"])
        .args(["-A", ANNOTATIONS])
        .output()
        .ok()?;
    assert!(output.status.success());
    let text = String::from_utf8(output.stdout).unwrap();
    // With an address sigrok-cli also prints its direction, which the address has in it already.
    let signs = text.lines().map(short);
    Some(
        signs
            .filter(|sign| sign != "Read" && sign != "Write")
            .collect(),
    )
}

/// `i2c-1: Data write: 5A` as `5A`, a repeated Start as a Start.
fn short(line: &str) -> String {
    let words = line.split(": ").last().unwrap();
    match words {
        "Start repeat" => "Start".to_string(),
        _ => words.to_string(),
    }
}

/// The same from the transcript.
fn expected(transcript: &str) -> Vec<String> {
    let mut signs = Vec::new();
    for line in transcript.lines().take_while(|line| !line.is_empty()) {
        let words: Vec<&str> = line.split_whitespace().collect();
        match words[0] {
            "[" => signs.push("Start".to_string()),
            "]" => signs.push("Stop".to_string()),
            "write" | "read" | "line" => {
                signs.push(words[1].trim_end_matches('h').to_string());
                // A decoder takes the rising clock of what follows a cut byte for its ninth.
                signs.push(words[2].replace("--", "NACK"));
            }
            _ => {}
        }
    }
    signs
}

#[test]
fn sigrok_sees_the_bytes_of_every_script() {
    let folder = Folder::new("sigrok");
    for name in all_script_names() {
        let words = ["--vcd", "wires.vcd", "--part", &part_of(&name)];
        let transcript = folder.succeed(&[&["run", &script(&name)], &words[..]].concat());
        let Some(decoded) = decoded(&folder) else {
            eprintln!("sigrok-cli is not installed: nothing was compared");
            return;
        };
        assert_eq!(decoded, expected(&transcript), "{name}");
    }
}

/// The top of the house.
fn top() -> PathBuf {
    Path::new(env!("CARGO_MANIFEST_DIR")).join("../..")
}

/// What the decoder says of wires.vcd, a line each, with an option such as `:library=..`; none if sigrok-cli is not installed.
fn told(folder: &Folder, option: &str) -> Option<Vec<String>> {
    let output = Command::new("sigrok-cli")
        .env("SIGROKDECODE_DIR", top().join("sigrok"))
        .env_remove("FM3130_LIBRARY")
        .args(["-i", folder.file("wires.vcd").to_str()?, "-I", "vcd"])
        .args(["-P", &format!("i2c:scl=SCL:sda=SDA,fm3130{option}")])
        .args(["-A", "fm3130"])
        .output();
    let Ok(output) = output else {
        eprintln!("sigrok-cli is not installed: nothing was compared");
        return None;
    };
    assert!(output.status.success(), "{output:?}");
    let text = String::from_utf8(output.stdout).unwrap();
    let lines = text
        .lines()
        .map(|line| line.split_once(": ").unwrap().1.to_string());
    Some(lines.collect())
}

/// The option that names the library of this house.
fn library() -> String {
    let library = top().join("build/lib/libfm3130.so");
    assert!(library.exists(), "`make lib` makes {}", library.display());
    format!(":library={}", library.display())
}

const SCRIPT: &str =
    "[ D0 00 02 ] [ D0 02 58 59 23 07 31 12 99 ] [ D0 0E 08 ] [ A0 07 FF 11 ] [ 42 00 ] \
                      [ A0 08 00 22 ] [ A0 08 00 [ A1 r ] [ D0 0F ]";

fn record(folder: &Folder, text: &str) {
    folder.write("script.bus", text);
    folder.succeed(&["run", "script.bus", "--quiet", "--vcd", "wires.vcd"]);
}

#[test]
fn the_decoder_has_words_for_registers_calendar_memory_and_refusals() {
    let folder = Folder::new("sigrok-words");
    record(&folder, SCRIPT);
    let Some(lines) = told(&folder, "") else {
        return;
    };
    for wanted in [
        "slave byte: companion, write",
        "00h RTC/Alarm Control: write 02h, LB=0 AF=0 CF=0 POR=0 AEN=0 CAL=0 W=1 R=0",
        "write calendar: 23:59:58, 31/12/99, day 7",
        "0Eh Alarm & WP Control: write 08h, ACS pin: square wave; writes refused at 0000h to 07FFh",
        "memory 07FFh: 11h refused, not stored",
        "memory 0800h: write 22h",
        "memory 0800h: read 22h",
        "address byte 0Fh: not acknowledged",
    ] {
        assert!(
            lines.iter().any(|line| line == wanted),
            "{wanted}: {lines:#?}"
        );
    }
    // Without a library nothing is judged, and nothing says that it was.
    assert!(
        !lines.iter().any(|line| line.contains("rules")),
        "{lines:#?}"
    );
    let names = std::fs::read_to_string(top().join("sigrok/fm3130/words.py")).unwrap();
    for name in fm3130::registers::NAMES {
        assert!(names.contains(&format!("\"{name}\"")), "{name}");
    }
}

#[test]
fn the_decoder_marks_the_first_bit_that_the_rules_do_not_give() {
    let folder = Folder::new("sigrok-rules");
    record(&folder, SCRIPT);
    let Some(lines) = told(&folder, &library()) else {
        return;
    };
    let count =
        |lines: &[String], word: &str| lines.iter().filter(|line| line.contains(word)).count();
    assert_eq!(count(&lines, "not by the rules"), 0, "{lines:#?}");
    assert!(
        lines.contains(&"37 answers by the rules so far".to_string()),
        "{lines:#?}"
    );
    // The byte that is read back is another: its fourth bit, a 0, was seen as a 1, and no later one is judged.
    let text = String::from_utf8(folder.read("wires.vcd")).unwrap();
    let pulls: Vec<usize> = text
        .match_indices("\n0$\n0\"\n")
        .map(|(at, _)| at)
        .collect();
    let last_read = pulls[pulls.len() - 2];
    folder.write(
        "wires.vcd",
        format!("{}\n0$\n{}", &text[..last_read], &text[last_read + 7..]),
    );
    let lines = told(&folder, &library()).unwrap();
    assert_eq!(count(&lines, "not by the rules"), 1, "{lines:#?}");
    assert!(
        lines
            .iter()
            .any(|line| line.contains("high here, low by them")),
        "{lines:#?}"
    );
    // A library that is named and not there is told, and so is an image that is none.
    record(&folder, SCRIPT);
    let lines = told(&folder, ":library=/no/such.so").unwrap();
    assert_eq!(
        count(&lines, "not judged: /no/such.so cannot be loaded"),
        1,
        "{lines:#?}"
    );
    folder.write("image", [0; 64]);
    let image = format!("{}:image={}", library(), folder.file("image").display());
    let lines = told(&folder, &image).unwrap();
    assert_eq!(
        count(&lines, "judged no further: the device refuses, by number 2"),
        1,
        "{lines:#?}"
    );
    assert_eq!(count(&lines, "answers by the rules"), 0, "{lines:#?}");
}
