// SPDX-License-Identifier: Apache-2.0
//! The table of this crate, the headers for C and the page's calls speak of the same functions, and all have one version.

use std::collections::BTreeMap;
use std::fs;
use std::path::{Path, PathBuf};

/// The kinds of a function's arguments in order, and of what it returns: `r` a slice that is read, `w` one that is
/// written, `n` a number of 64 bits, `i` one with a sign; what is returned is a number or the name of a struct.
type Shape = (String, String);

fn top() -> PathBuf {
    let package = Path::new(env!("CARGO_MANIFEST_DIR"));
    package.join("../..")
}

fn text_of(path: &str) -> String {
    let file = top().join(path);
    fs::read_to_string(&file).unwrap_or_else(|error| panic!("{}: {error}", file.display()))
}

/// A text without its comments, in one line.
fn bare(text: &str) -> String {
    let mut rest = text;
    let mut kept = String::new();
    while let Some((before, after)) = rest.split_once("/*") {
        kept.push_str(before);
        rest = after.split_once("*/").map_or("", |(_, after)| after);
    }
    kept.push_str(rest);
    kept.split_whitespace().collect::<Vec<_>>().join(" ")
}

/// The kind of one argument of C's; the length behind a pointer is a part of its slice.
fn kind_in_c(argument: &str) -> &'static str {
    match argument {
        length if length.ends_with("_length") => "",
        read if read.starts_with("const uint8_t *") => "r",
        written if written.starts_with("uint8_t *") => "w",
        number if number.starts_with("uint64_t ") => "n",
        signed if signed.starts_with("int32_t ") => "i",
        other => panic!("an argument of a kind that is not known: {other}"),
    }
}

/// What a function returns, by the words in front of its name; nothing in front of a call.
fn returned_in_c(before: &str) -> Option<String> {
    let mut words = before.split_whitespace().rev();
    match (words.next()?, words.next()) {
        ("uint64_t", _) => Some("n".to_string()),
        ("int32_t", _) => Some("i".to_string()),
        (name, Some("struct")) => Some(name.trim_start_matches("fm3130_").to_string()),
        _ => None,
    }
}

/// The functions that a header declares: those that end in `;` and not in a body.
fn functions_of(header: &str) -> BTreeMap<String, Shape> {
    let text = bare(&text_of(header));
    let mut found = BTreeMap::new();
    for (place, _) in text.match_indices('(') {
        let (before, after) = text.split_at(place);
        let Some((arguments, behind)) = after[1..].split_once(')') else {
            continue;
        };
        let name = before.rsplit([' ', '*']).next().unwrap_or_default();
        if !name.starts_with("fm31") || !behind.starts_with(';') {
            continue;
        }
        let Some(returned) = returned_in_c(&before[..before.len() - name.len()]) else {
            continue;
        };
        let kinds = arguments.split(',').map(|one| kind_in_c(one.trim()));
        found.insert(name.to_string(), (kinds.collect(), returned));
    }
    found
}

fn kind_in_rust(argument: &str) -> &'static str {
    match argument.split_once(": ").map(|(_, kind)| kind) {
        Some("&[u8]") => "r",
        Some("&mut [u8]") => "w",
        Some("u64") => "n",
        Some("i32") => "i",
        _ => panic!("an argument of a kind that is not known: {argument}"),
    }
}

/// The functions of the table in src/lib.rs.
fn functions_of_the_table() -> BTreeMap<String, Shape> {
    let source = text_of("rust/fm3130-sys/src/lib.rs");
    let (_, table) = source.split_once("\nentries! {\n").expect("a table");
    let lines = table.lines().filter(|line| !line.trim().starts_with("///"));
    let text = lines.collect::<Vec<_>>().join(" ");
    let mut found = BTreeMap::new();
    for entry in text.split(';').filter(|entry| entry.contains("fn ")) {
        let (head, returned) = entry.split_once(") -> ").expect("what is returned");
        let (name, arguments) = head.split_once('(').expect("arguments");
        let kinds = arguments
            .split(',')
            .map(str::trim)
            .filter(|one| !one.is_empty())
            .map(kind_in_rust);
        let returned = match returned {
            "u64" => "n".to_string(),
            "i32" => "i".to_string(),
            name => name.to_lowercase(),
        };
        let name = name.trim().trim_start_matches("fn ");
        found.insert(name.to_string(), (kinds.collect(), returned));
    }
    found
}

#[test]
fn the_table_is_that_of_the_headers() {
    let mut headers = functions_of("include/fm3130.h");
    headers.extend(functions_of("include/fm31.h"));
    assert!(headers.len() >= 28, "{} functions are few", headers.len());
    assert_eq!(functions_of_the_table(), headers);
}

#[test]
fn a_wrong_kind_would_be_seen() {
    assert_eq!(
        functions_of("include/fm3130.h")["fm3130_run"],
        ("wwrw".to_string(), "ran".to_string())
    );
    assert_eq!(
        functions_of("include/fm3130.h")["fm3130_trim_residue"],
        ("inn".to_string(), "i".to_string())
    );
}

/// What the page calls, by name: `word('..` an entry that returns a number, `pair('..` one that returns a struct.
#[test]
fn the_page_calls_what_the_headers_have() {
    let mut headers = functions_of("include/fm3130.h");
    headers.extend(functions_of("include/fm31.h"));
    let page = text_of("web/fm3130.mjs") + &text_of("web/family.mjs");
    let mut calls = 0;
    for (place, _) in page.match_indices("'fm31") {
        let name = page[place + 1..].split('\'').next().unwrap_or_default();
        if name.contains('.') {
            continue; // a file
        }
        let shape = headers.get(name);
        let (_, returned) = shape.unwrap_or_else(|| panic!("{name} is in no header"));
        let before = page[..place].trim_end();
        let is_number = returned == "n" || returned == "i";
        assert!(!before.ends_with("word(") || is_number, "{name}");
        assert!(!before.ends_with("pair(") || !is_number, "{name}");
        calls += 1;
    }
    assert!(calls >= 24, "{calls} calls are few");
}

/// The packages of the workspace, as its top names them.
fn packages() -> Vec<String> {
    let workspace = text_of("Cargo.toml");
    let members = workspace
        .lines()
        .find_map(|line| line.strip_prefix("members = "));
    let names = members.expect("members").split('"').skip(1).step_by(2);
    names.map(str::to_string).collect()
}

#[test]
fn there_is_one_version() {
    let version = env!("CARGO_PKG_VERSION");
    let mut lines = vec![
        (
            "include/fm3130.h".to_string(),
            format!("#define FM3130_VERSION \"{version}\""),
        ),
        (
            "python/pyproject.toml".to_string(),
            format!("version = \"{version}\""),
        ),
        (
            "python/fm3130/__init__.py".to_string(),
            format!("__version__ = \"{version}\""),
        ),
    ];
    for package in packages() {
        let line = "version.workspace = true".to_string();
        lines.push((format!("{package}/Cargo.toml"), line));
    }
    assert!(lines.len() > 7, "{} files are few", lines.len());
    for (file, line) in lines {
        let is_there = text_of(&file).lines().any(|it| it == line);
        assert!(is_there, "{file} has no line {line}");
    }
}
