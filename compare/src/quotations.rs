// SPDX-License-Identifier: Apache-2.0
//! Quotations, and the papers whose words they are (D219).
//!
//! A quotation is what stands between two quotation marks `"` of one paragraph, outside code marks. `..` stands for words
//! that are left out: the pieces between are in one paper, in this order, each of whole words. White space and the marks
//! of Markdown are not compared, nor whether the first letter is a capital, nor a point at the end.
//!
//! The papers are not in the tree. Where they are at hand, in `../shared`, each quotation is looked up in them; and
//! compare/quotations.sums has the sum of each that was found, for places where they are not.

use crate::prose::{self, Paragraph};
use std::collections::BTreeSet;
use std::fs;
use std::path::{Path, PathBuf};

/// How the papers' names begin.
const PAPERS: [&str; 6] = ["000_", "001_", "002_", "003_", "01-scope", "02-change"];

/// The list of sums, which `make quotations` writes.
pub const LIST: &str = "compare/quotations.sums";

const HEADER: &str = "# SPDX-License-Identifier: Apache-2.0\n\
                      # The sums of the quotations that were found in the papers: `make quotations`.\n";

/// Words between quotation marks, and where their paragraph begins.
pub struct Quotation {
    pub place: String,
    pub words: String,
}

/// The text of each paper, without its lines.
pub struct Papers(Vec<String>);

/// Whether a file's quotation marks are held to the papers: pages, headers, the comments of the crates and of the second
/// program.
fn is_held(file: &Path) -> bool {
    match prose::ending_of(file) {
        "md" => !prose::is_of_the_port(file),
        "h" => file.starts_with("include"),
        "antt" | "rt" => file.starts_with("crates"),
        "rs" => file.starts_with("second"),
        _ => false,
    }
}

/// Every quotation of the tree, and the paragraphs with a mark that has no other.
pub fn all(top: &Path) -> (Vec<Quotation>, Vec<String>) {
    let mut found = vec![];
    let mut faults = vec![];
    for file in prose::files_of(top).into_iter().filter(|it| is_held(it)) {
        let text = fs::read_to_string(top.join(&file)).unwrap();
        for paragraph in prose::paragraphs(&file, &text) {
            match quotations_in(&paragraph) {
                Ok(quotations) => found.extend(quotations),
                Err(fault) => faults.push(fault),
            }
        }
    }
    (found, faults)
}

/// The quotations of a paragraph, or what is wrong with its marks.
pub fn quotations_in(paragraph: &Paragraph) -> Result<Vec<Quotation>, String> {
    let place = &paragraph.place;
    let by_code: Vec<&str> = paragraph.text.split('`').collect();
    let prose: Vec<&str> = by_code.iter().step_by(2).copied().collect();
    let prose = prose.join("`");
    let by_marks: Vec<&str> = prose.split('"').collect();
    if by_code.len().is_multiple_of(2) || by_marks.len().is_multiple_of(2) {
        return Err(format!("{place}: a mark has no other"));
    }
    let quotations = by_marks.iter().skip(1).step_by(2);
    Ok(quotations
        .map(|words| Quotation {
            place: place.clone(),
            words: folded(words),
        })
        .collect())
}

/// A text with one space for all white space, and without the marks of Markdown.
fn folded(text: &str) -> String {
    let plain = text.replace(['*', '|'], " ").replace("...", "..");
    plain.split_whitespace().collect::<Vec<&str>>().join(" ")
}

impl Quotation {
    /// The pieces between the words that are left out.
    fn pieces(&self) -> Vec<&str> {
        let pieces = self.words.split("..");
        let plain = pieces.map(|piece| piece.trim().trim_end_matches('.'));
        plain.filter(|piece| !piece.is_empty()).collect()
    }

    fn fault(&self) -> String {
        format!("{}: no paper has \"{}\"", self.place, self.words)
    }

    /// A number that tells these words from others (FNV-1a).
    pub fn sum(&self) -> String {
        let step = |sum: u64, byte: u8| (sum ^ u64::from(byte)).wrapping_mul(0x0100_0000_01b3);
        let pieces = self.pieces().join(" .. ");
        let sum = pieces.bytes().fold(0xcbf2_9ce4_8422_2325, step);
        format!("{sum:016x}")
    }
}

impl Papers {
    pub fn of(texts: &[&str]) -> Papers {
        Papers(texts.iter().map(|text| folded(text)).collect())
    }

    /// The papers, if every one of them is in a folder.
    pub fn in_folder(folder: &Path) -> Option<Papers> {
        let texts = PAPERS.iter().map(|start| paper_in(folder, start));
        texts.collect::<Option<Vec<String>>>().map(Papers)
    }

    /// Whether one of the papers has the pieces of a quotation, in their order.
    pub fn have(&self, quotation: &Quotation) -> bool {
        let pieces = quotation.pieces();
        !pieces.is_empty() && self.0.iter().any(|paper| has_in_order(paper, &pieces))
    }

    /// What to say of the quotations that no paper has.
    pub fn faults(&self, quotations: &[Quotation]) -> Vec<String> {
        let unknown = quotations.iter().filter(|it| !self.have(it));
        unknown.map(Quotation::fault).collect()
    }
}

/// The text of the paper whose name begins so.
fn paper_in(folder: &Path, start: &str) -> Option<String> {
    let is_it = |file: &PathBuf| {
        let name = file.file_name().and_then(|name| name.to_str());
        name.is_some_and(|name| name.starts_with(start))
    };
    let file = prose::entries_of(folder).into_iter().find(is_it)?;
    let text = fs::read_to_string(file).ok()?;
    Some(folded(&text.replace('`', "")))
}

/// Whether a paper has pieces in their order; the first may begin with a capital or not.
fn has_in_order(paper: &str, pieces: &[&str]) -> bool {
    let first = [pieces[0].to_string(), with_other_first(pieces[0])];
    let Some(from) = first.iter().filter_map(|it| end_of(paper, 0, it)).min() else {
        return false;
    };
    let mut ends = pieces[1..].iter();
    ends.try_fold(from, |from, piece| end_of(paper, from, piece))
        .is_some()
}

/// A piece with a small letter for the capital that it begins with, or the other way round.
fn with_other_first(piece: &str) -> String {
    let mut letters = piece.chars();
    let other: String = match letters.next() {
        Some(first) if first.is_uppercase() => first.to_lowercase().collect(),
        Some(first) => first.to_uppercase().collect(),
        None => String::new(),
    };
    other + letters.as_str()
}

/// Where the first place of a piece in a paper ends, from a place on. A piece begins and ends with a whole word.
fn end_of(paper: &str, from: usize, piece: &str) -> Option<usize> {
    let is_whole = |at: &usize| {
        let before = paper[..*at].chars().next_back();
        let after = paper[at + piece.len()..].chars().next();
        let goes_on = |inner: Option<char>, outer: Option<char>| {
            inner.is_some_and(char::is_alphanumeric) && outer.is_some_and(char::is_alphanumeric)
        };
        !goes_on(piece.chars().next(), before) && !goes_on(piece.chars().next_back(), after)
    };
    let places = paper[from..].match_indices(piece).map(|(at, _)| from + at);
    let at = places.into_iter().find(is_whole)?;
    Some(at + piece.len())
}

/// What to say of the quotations whose sums a list does not have.
pub fn unlisted(list: &str, quotations: &[Quotation]) -> Vec<String> {
    let sums: BTreeSet<&str> = list.lines().collect();
    let is_unlisted = |it: &&Quotation| !sums.contains(it.sum().as_str());
    let unlisted = quotations.iter().filter(is_unlisted);
    unlisted
        .map(|it| format!("{}: {LIST} has no sum of \"{}\"", it.place, it.words))
        .collect()
}

/// The text of the list of sums.
pub fn list_of(quotations: &[Quotation]) -> String {
    let sums: BTreeSet<String> = quotations.iter().map(Quotation::sum).collect();
    let lines: String = sums.iter().map(|sum| format!("{sum}\n")).collect();
    HEADER.to_string() + &lines
}
