// SPDX-License-Identifier: Apache-2.0
//! The crates' names tell where a thing stands: `c_` what C calls, `law_` statements without code, `main_` programs. The names that
//! crates had before are gone but from docs/archive. A place of an image has a name.

use compare::edits::top;
use compare::prose::{self, entries_of};
use compare::public::{self, Code};
use std::fs;
use std::path::Path;

/// What crates were called before their names told their layer.
const BEFORE: [&str; 62] = [
    "accept",
    "almanac",
    "assurance",
    "bounds",
    "capture",
    "century",
    "clocking",
    "clocks",
    "companion",
    "contents",
    "counters",
    "days",
    "deeds",
    "device",
    "eight",
    "ensemble",
    "family",
    "frame",
    "handheld",
    "holding",
    "image",
    "image31",
    "image31set",
    "inplace",
    "isolation",
    "judge",
    "kept",
    "larger",
    "lending",
    "line",
    "lists",
    "maintenance",
    "make31set",
    "master",
    "mend",
    "merging",
    "narrow",
    "panel",
    "parts",
    "proving",
    "reading",
    "registers",
    "resident",
    "rig",
    "rig31",
    "rig31set",
    "roundtrip",
    "rows",
    "run31",
    "run31set",
    "set31",
    "single",
    "sleep",
    "standin",
    "stride",
    "table",
    "ticking",
    "transfers",
    "trim",
    "view",
    "weights",
    "wired",
];

/// Files in which a name before may stand: the archive, what is made, and this list.
const APART: [&str; 3] = ["docs/archive", "dist", "compare/tests/names.rs"];

/// The words that name a crate, by what stands around them: `crates/NAME`, `NAME/specs`, `Rattle.NAME`, `NAME::` in code.
fn crates_named(file: &Path, text: &str) -> Vec<String> {
    let is_word = |letter: char| letter.is_alphanumeric() || letter == '_';
    let is_code = ["rt", "edit", "twin"].contains(&prose::ending_of(file));
    let mut found = vec![];
    let mut from = 0;
    while let Some(start) = text[from..].find(is_word).map(|at| from + at) {
        let end = text[start..]
            .find(|letter| !is_word(letter))
            .map_or(text.len(), |at| start + at);
        let (before, after) = (&text[..start], &text[end..]);
        let in_folder = ["crates/", "edits/", "Rattle."]
            .iter()
            .any(|folder| before.ends_with(folder));
        let has_folder = ["/specs/", "/src/", "/proofs/", "/must-fail/"]
            .iter()
            .any(|folder| after.starts_with(folder));
        let is_path = has_folder && !before.ends_with(['/', '.', '-']);
        let is_used = is_code && after.starts_with("::") && !before.ends_with([':', '.']);
        if in_folder || is_path || is_used {
            found.push(text[start..end].to_string());
        }
        from = end;
    }
    found
}

fn is_apart(file: &Path) -> bool {
    APART.iter().any(|apart| file.starts_with(apart))
}

#[test]
fn no_crate_is_named_as_before() {
    let mut faults = vec![];
    let mut named = 0;
    for file in prose::files_of(&top())
        .iter()
        .filter(|file| !is_apart(file))
    {
        let Ok(text) = fs::read_to_string(top().join(file)) else {
            continue;
        };
        let names = crates_named(file, &text);
        named += names.len();
        let old = names.iter().filter(|name| BEFORE.contains(&name.as_str()));
        faults.extend(old.map(|name| format!("{}: {name}", file.display())));
    }
    assert!(faults.is_empty(), "{}", faults.join("\n"));
    assert!(named > 5_000, "{named} names of crates are few");
}

#[test]
fn a_name_as_before_is_noticed() {
    for (file, text, names) in [
        (
            "docs/A.md",
            "see crates/rig and `lists/specs/Run.run`",
            vec!["rig", "lists"],
        ),
        (
            "crates/a/src/lib.rt",
            "ghost use Rattle.image.specs.A;\nuse frame::bytes;",
            vec!["image", "frame"],
        ),
        (
            "crates/a/src/lib.rt",
            "use crate::line::told; step::line::told()",
            vec!["crate", "step"],
        ),
        (
            "docs/A.md",
            "the line of the image, `line::told`, tests/wires/view.c",
            vec![],
        ),
    ] {
        assert_eq!(crates_named(Path::new(file), text), names, "{text}");
    }
}

/// The crates, each with its code.
fn crates() -> Vec<(String, Vec<Code>)> {
    let mut all = public::code();
    let folders = entries_of(&top().join("crates"));
    let names = folders
        .iter()
        .map(|folder| folder.file_name().unwrap().to_string_lossy().to_string());
    names
        .map(|name| {
            let (own, rest) = all.drain(..).partition(|code| code.owner == name);
            all = rest;
            (name, own)
        })
        .collect()
}

#[test]
fn a_crate_is_what_its_name_begins_with() {
    let has = |files: &[Code], words: &[&str]| {
        files
            .iter()
            .flat_map(|code| code.text.lines())
            .any(|line| words.iter().any(|word| line.trim_start().starts_with(word)))
    };
    for (name, files) in crates() {
        let exports = has(&files, &["pub extern \"C\" fn "]);
        assert_eq!(
            exports,
            name.starts_with("c_"),
            "{name}: C calls what begins with c_, and nothing else"
        );
        let is_program = has(&files, &["fn main(", "pub fn main("]);
        assert_eq!(
            is_program,
            name.starts_with("main_"),
            "{name}: a program begins with main_"
        );
        let code = [
            "fn ", "pub ", "struct ", "enum ", "const ", "static ", "trait ", "impl ", "impl<",
        ];
        assert_eq!(
            !has(&files, &code),
            name.starts_with("law_"),
            "{name}: what has neither code nor types begins with law_"
        );
    }
}

/// The places of an image that a file of code names by a number.
fn bare_places(text: &str) -> Vec<&str> {
    let code = text.lines().map(|line| line.split("//").next().unwrap());
    code.filter(|line| {
        line.match_indices("image[").any(|(at, found)| {
            line[at + found.len()..].starts_with(|letter: char| letter.is_ascii_digit())
        })
    })
    .collect()
}

#[test]
fn a_place_of_an_image_has_a_name() {
    assert_eq!(
        bare_places("image[PHASE_AT] = 0;\nimage[27] = 8; // image[1]\nimage[at + 1]"),
        ["image[27] = 8; "]
    );
    for code in public::code() {
        assert_eq!(
            bare_places(&code.text),
            [""; 0],
            "{}/src/{}.rt",
            code.owner,
            code.file
        );
    }
}
