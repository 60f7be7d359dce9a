// SPDX-License-Identifier: Apache-2.0
//! What people read in the files of the tree: the text of a page, the comments of a program.

use std::fs;
use std::path::{Path, PathBuf};

/// Words that stand together, and where they begin: `docs/IMAGE.md:12`.
pub struct Paragraph {
    pub place: String,
    pub text: String,
}

/// Whether a page says what was, beside what is: that of the port to today's kit.
pub fn is_of_the_port(file: &Path) -> bool {
    file == Path::new("docs/PORT.md")
}

/// What is made, or is git's, and is no part of the tree.
pub const NOT_OF_THE_TREE: [&str; 2] = ["build", ".git"];

/// Whether it is a crate's folder of what rt makes.
fn is_made_by_rt(path: &Path) -> bool {
    let crates = path.parent().and_then(Path::parent);
    path.ends_with("out") && crates.is_some_and(|folder| folder.ends_with("crates"))
}

/// The files and folders in a folder, in the order of their names.
pub fn entries_of(folder: &Path) -> Vec<PathBuf> {
    let mut paths: Vec<PathBuf> = fs::read_dir(folder)
        .map(|entries| entries.map(|entry| entry.unwrap().path()).collect())
        .unwrap_or_default();
    paths.sort();
    paths
}

/// Every file of the tree, as a path from its top.
pub fn files_of(top: &Path) -> Vec<PathBuf> {
    let is_of_the_tree = |path: &PathBuf| !NOT_OF_THE_TREE.iter().any(|name| path.ends_with(name));
    entries_of(top)
        .into_iter()
        .filter(is_of_the_tree)
        .flat_map(|path| files_below(&path))
        .map(|path| path.strip_prefix(top).unwrap().to_path_buf())
        .collect()
}

fn files_below(path: &Path) -> Vec<PathBuf> {
    if is_made_by_rt(path) {
        vec![]
    } else if path.is_dir() {
        let entries = entries_of(path);
        entries
            .iter()
            .flat_map(|entry| files_below(entry))
            .collect()
    } else {
        vec![path.to_path_buf()]
    }
}

/// What stands after the last point of a file's name.
pub fn ending_of(file: &Path) -> &str {
    file.extension().and_then(|it| it.to_str()).unwrap_or("")
}

/// What people read in each line of a file; nothing in a line of code.
pub fn lines_of(file: &Path, text: &str) -> Vec<String> {
    match ending_of(file) {
        "md" => text.lines().map(str::to_string).collect(),
        "antt" => comments(text, "--"),
        "rt" | "rs" => comments(text, "//"),
        "sh" => comments(text, "#"),
        "c" | "h" => between_stars(text),
        _ => vec![],
    }
}

/// Comments that go to the end of their line.
fn comments(text: &str, mark: &str) -> Vec<String> {
    let inside = format!(" {mark} ");
    let said = |line: &str| {
        let line = line.trim();
        let after = line
            .strip_prefix(mark)
            .or_else(|| Some(line.split_once(&inside)?.1));
        after
            .unwrap_or_default()
            .trim_start_matches(['/', '!'])
            .to_string()
    };
    text.lines().map(said).collect()
}

/// Comments of C, without the star that begins a line.
fn between_stars(text: &str) -> Vec<String> {
    let mut is_open = false;
    let mut said = |line: &str| {
        let from = match is_open {
            true => line,
            false => line.split_once("/*").map_or("", |(_, rest)| rest),
        };
        let end = from.find("*/");
        is_open = end.is_none() && (is_open || line.contains("/*"));
        let words = &from[..end.unwrap_or(from.len())];
        words.trim().trim_start_matches('*').to_string()
    };
    text.lines().map(&mut said).collect()
}

/// The lines of a page, those of its blocks of code empty: between fences, or set in by four spaces.
fn without_blocks(page: &str) -> Vec<String> {
    let mut is_fenced = false;
    let mut follows_prose = false;
    let mut prose = |line: &str| {
        let is_fence = line.starts_with("```");
        is_fenced ^= is_fence;
        let is_set_in = line.starts_with("    ") && !follows_prose;
        let is_code = is_fenced || is_fence || is_set_in;
        follows_prose = !is_code && !line.is_empty();
        if is_code { "" } else { line }.to_string()
    };
    page.lines().map(&mut prose).collect()
}

/// Whether a line begins a paragraph whatever stands above it: a row of a table, a point of a list, a title.
fn is_a_beginning(line: &str) -> bool {
    ["|", "- ", "#"].iter().any(|mark| line.starts_with(mark))
}

/// The paragraphs of a file. An empty line, or one of code, ends a paragraph.
pub fn paragraphs(file: &Path, text: &str) -> Vec<Paragraph> {
    let lines = match ending_of(file) {
        "md" => without_blocks(text),
        _ => lines_of(file, text),
    };
    let mut found: Vec<Paragraph> = vec![];
    let mut goes_on = false;
    for (number, line) in (1..).zip(&lines) {
        let line = line.trim();
        match found.last_mut() {
            _ if line.is_empty() => {}
            Some(last) if goes_on && !is_a_beginning(line) => {
                last.text += " ";
                last.text += line;
            }
            _ => found.push(Paragraph {
                place: format!("{}:{number}", file.display()),
                text: line.to_string(),
            }),
        }
        goes_on = !line.is_empty();
    }
    found
}
