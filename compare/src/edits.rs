// SPDX-License-Identifier: Apache-2.0
//! The edits that the prover must refuse, and docs/EDITS.md, which lists each with what fails first.
//!
//! `rt must-fail` and `rt ci` say in a line what each edit came to, with the first 160 letters of what failed first. `make test` and
//! `make all-edits` keep what they said; the table is made from that, and a point stays as it is while nothing newer than the edit
//! was said of it.

use crate::crates;
use std::fs;
use std::path::{Path, PathBuf};

/// An edit: its crate, its name, its first line, which says the rule that it breaks, and where it stands: with its crate,
/// so that the gate tries it, or among the further ones.
pub struct Edit {
    pub owner: String,
    pub name: String,
    pub rule: String,
    pub file: PathBuf,
    pub is_further: bool,
}

/// A point of docs/EDITS.md.
#[derive(Clone, PartialEq, Debug)]
pub struct Row {
    pub edit: String,
    pub rule: String,
    pub place: String,
    pub fact: String,
}

/// What is said of the first thing that failed. `clear` is false where it may be no fact but a name, or the shape
/// of the code, that does not fit the proof: such an edit shows nothing.
#[derive(PartialEq, Debug)]
pub struct Refusal {
    pub place: String,
    pub fact: String,
    pub clear: bool,
}

const HEADER: &str = r#"<!-- SPDX-License-Identifier: Apache-2.0 -->
# Edits

Each edit breaks one rule, in the code or in a definition, and leaves the rest as it is: the prover must refuse the crate so
edited. An edit shows something only where a fact fails, and not a name or the order of the proof; so here is, for each, what
fails first. Those named `CRATE/must-fail/..` are tried by the gate each time, the further ones, `edits/CRATE/..`, by
`make all-edits`: an edit proves its whole crate anew, and all of them would take the gate past its hour (D105). `make edits`
writes this page from what the prover said when it last tried each edit, and a test sees that every edit has its line.

Laws have no code, and an edit of their words alone shows only that a false sentence has no proof. What shows that a law sees a wrong
rule is a twin, a device wrong in definition and code alike, which the law must refuse: `twins/` has them, for the laws of `law_power`,
`law_alarm` and `law_phases` in place of edits (D236).

What `f` ensures is the contract of the function `f`; law `F.l` is the law `l` in the file F of the crate's proofs. Where `a` is
not `b`, these are two terms that had to be one, shortened; one that only the prover can read is left out. rt tells the first 160 letters
of what failed, so of a long message the terms are missing. A point stays as it was last told: those of `edits/` that were not tried again
are as an older kit told them.

"#;

/// What the gate last said, and what `make all-edits` did.
const LOGS: [&str; 2] = ["build/log/ci.txt", "build/log/edits.txt"];

/// What begins the line of a point that says what failed.
const FAILS: &str = "  - fails: ";

/// What stands between where it failed and why.
const BECAUSE: &str = "; ";

impl Edit {
    /// Its name in the documents.
    pub fn path(&self) -> String {
        match self.is_further {
            true => format!("edits/{}/{}", self.owner, self.name),
            false => format!("{}/must-fail/{}", self.owner, self.name),
        }
    }

    /// What was last said of it, where that is newer than the edit.
    fn said(&self, top: &Path) -> Option<String> {
        let time = |path: &Path| fs::metadata(path).and_then(|data| data.modified()).ok();
        let mut logs: Vec<PathBuf> = LOGS.iter().map(|log| top.join(log)).collect();
        logs.retain(|log| time(log) >= time(&self.file));
        logs.sort_by_key(|log| time(log));
        let start = format!(
            "rt: must-fail {}/{}.edit: refused, as it must be",
            self.owner, self.name
        );
        logs.iter().rev().find_map(|log| {
            let text = fs::read_to_string(log).ok()?;
            let said = text
                .lines()
                .rev()
                .find_map(|line| line.strip_prefix(&start))?;
            Some(said.to_string())
        })
    }
}

/// The repository's top.
pub fn top() -> PathBuf {
    Path::new(env!("CARGO_MANIFEST_DIR"))
        .parent()
        .unwrap()
        .to_path_buf()
}

/// All edits, crate by crate in the order of crates.txt; of each crate the gate's first.
pub fn all(top: &Path) -> Vec<Edit> {
    crates::all(top)
        .iter()
        .flat_map(|each| edits_of(top, &each.name))
        .collect()
}

fn edits_of(top: &Path, owner: &str) -> Vec<Edit> {
    let gated = top.join("crates").join(owner).join("must-fail");
    let further = top.join("edits").join(owner);
    [(gated, false), (further, true)]
        .into_iter()
        .flat_map(|(folder, is_further)| edits_in(owner, &folder, is_further))
        .collect()
}

fn edits_in(owner: &str, folder: &Path, is_further: bool) -> Vec<Edit> {
    let mut files: Vec<PathBuf> = fs::read_dir(folder)
        .map(|entries| entries.map(|entry| entry.unwrap().path()).collect())
        .unwrap_or_default();
    files.sort();
    files
        .into_iter()
        .map(|file| edit_in(owner, file, is_further))
        .collect()
}

fn edit_in(owner: &str, file: PathBuf, is_further: bool) -> Edit {
    let text = fs::read_to_string(&file).unwrap();
    let first = text.lines().next().unwrap_or_default();
    Edit {
        owner: owner.to_string(),
        name: file.file_stem().unwrap().to_str().unwrap().to_string(),
        rule: first.trim_start_matches('#').trim().to_string(),
        file,
        is_further,
    }
}

/// The points of a page such as docs/EDITS.md: an edit and the rule that it breaks, and below it what fails first.
pub fn rows(page: &str) -> Vec<Row> {
    let lines: Vec<&str> = page.lines().collect();
    lines.windows(2).filter_map(row_of).collect()
}

fn row_of(lines: &[&str]) -> Option<Row> {
    let (edit, rule) = lines[0].strip_prefix("- `")?.split_once("`: ")?;
    let (place, fact) = lines[1].strip_prefix(FAILS)?.split_once(BECAUSE)?;
    Some(Row {
        edit: edit.to_string(),
        rule: rule.to_string(),
        place: place.to_string(),
        fact: fact.to_string(),
    })
}

/// The page anew, and the edits that must be looked at: not tried yet, or refused for something else than a fact.
pub fn page(top: &Path, old: &str) -> (String, Vec<String>) {
    let known = rows(old);
    let mut text = HEADER.to_string();
    let mut faults = vec![];
    for edit in all(top) {
        let path = edit.path();
        let refused = edit.said(top).and_then(|said| refusal(&edit, &said));
        let row = match refused {
            Some(refused) => {
                if !refused.clear {
                    faults.push(format!(
                        "{path}: see whether a fact fails: {}",
                        refused.fact
                    ));
                }
                Row {
                    edit: path,
                    rule: edit.rule,
                    place: refused.place,
                    fact: refused.fact,
                }
            }
            None => match known.iter().find(|row| row.edit == path) {
                Some(row) => Row {
                    rule: edit.rule,
                    ..row.clone()
                },
                None => {
                    faults.push(format!("{path}: not tried yet"));
                    Row {
                        edit: path,
                        rule: edit.rule,
                        place: "not tried yet".to_string(),
                        fact: "—".to_string(),
                    }
                }
            },
        };
        text += &format!("- `{}`: {}\n", row.edit, row.rule);
        text += &format!("{FAILS}{}{BECAUSE}{}\n", row.place, row.fact);
    }
    (text, faults)
}

/// What a line of rt says of the first thing that failed, behind "refused, as it must be".
pub fn refusal(edit: &Edit, line: &str) -> Option<Refusal> {
    let line = line.trim_start_matches(": ");
    // rt says in brackets where an edit shows less: it takes a name away, or a limit was met
    let (is_fact, line) = match line.strip_prefix(" (only ") {
        Some(rest) => (false, rest.split_once("): ")?.1),
        None => (true, line),
    };
    let line = line.strip_prefix("note: ").unwrap_or(line);
    let (at, said) = line.split_once(": ")?;
    let file = at.strip_prefix("./").unwrap_or(at);
    let (name, said) = match said.strip_prefix("error: ") {
        Some(error) => error.strip_prefix('`')?.split_once("`: ")?,
        None => (between(said, "(`", "`)").unwrap_or(""), said),
    };
    let (fact, clear) = fact_of(said);
    Some(Refusal {
        place: place_of(edit, file, name),
        fact,
        clear: clear && is_fact,
    })
}

/// What stands between two marks, the first such place.
fn between<'a>(text: &'a str, before: &str, after: &str) -> Option<&'a str> {
    Some(text.split_once(before)?.1.split_once(after)?.0)
}

/// A place `FILE:LINE:COLUMN` in the edited crate, and the name that is declared or asked for there, in words.
fn place_of(edit: &Edit, at: &str, name: &str) -> String {
    let mut parts = at.split(':');
    let file = parts.next().unwrap();
    let line = parts.next().and_then(|line| line.parse().ok()).unwrap_or(1);
    if file.starts_with("src/") {
        return place_in_function(&function_at(edit, file, line), name);
    }
    let Some(file) = file.strip_prefix("proofs/") else {
        return format!("`{name}` in {file}");
    };
    let of_function = ["Proof", "Answers", "Invariants"]
        .iter()
        .find_map(|kind| file.strip_suffix(&format!("/{kind}.antt")));
    match of_function {
        Some(function) => place_in_function(&function.replace('/', "::"), name),
        None => format!("law `{}.{name}`", file.trim_end_matches(".antt")),
    }
}

/// What of a function's proof fails, by the name of what is asked for.
fn place_in_function(function: &str, name: &str) -> String {
    if let Some((callee, _)) = name.split_once("-requires") {
        let callee = callee.split('-').next().unwrap();
        return format!("what `{function}` asks before `{callee}`");
    }
    match name {
        _ if name.starts_with("returns") => format!("what `{function}` ensures"),
        "" => format!("the proof of `{function}`"),
        _ => format!("`{name}` in the proof of `{function}`"),
    }
}

/// The function of a crate's file that a line is in or begins, also by an attribute. An edit keeps the lines.
fn function_at(edit: &Edit, file: &str, line: usize) -> String {
    let path = top().join("crates").join(&edit.owner).join(file);
    let text = fs::read_to_string(path).unwrap_or_default();
    let from = text.lines().skip(line.saturating_sub(1));
    let attributes = from
        .take_while(|line| line.trim_start().starts_with("#["))
        .count();
    let lines: Vec<&str> = text.lines().take(line + attributes).collect();
    let name = |line: &&str| {
        Some(
            line.split_once("fn ")?
                .1
                .split(['(', '<'])
                .next()?
                .to_string(),
        )
    };
    let named = lines
        .iter()
        .rev()
        .filter(|line| !line.trim_start().starts_with("//"));
    named
        .filter_map(name)
        .next()
        .unwrap_or_else(|| "a function".to_string())
}

/// The fact that fails, in a few words, and whether it is one. The end of a long message is cut off.
fn fact_of(said: &str) -> (String, bool) {
    if said.contains("Need-") || said.contains("has no field") || said.contains("was not admitted")
    {
        return (short(said), false);
    }
    if let Some(rest) = said.strip_prefix("it is not proved that ") {
        let what = rest.split(" (`").next().unwrap().split(';').next().unwrap();
        return (
            format!("no proof is found that {}", plain_words(what)),
            true,
        );
    }
    if let Some(pair) = differing(said).or_else(|| left_over(said)) {
        return (unequal(&pair), true);
    }
    let looked_for = said.contains("no occurrence of the path's")
        || said.contains("no equation of the list has an instance");
    if looked_for {
        return (
            "what is known does not occur in what is to be shown".to_string(),
            true,
        );
    }
    if two_equations(said) || SIDES.iter().any(|words| said.contains(words)) {
        return ("two sides differ".to_string(), true);
    }
    if said.contains("no proof of `") || said.contains("`omega`") {
        return ("no proof is found".to_string(), true);
    }
    match mismatch(said) {
        Some([asked, given]) => match [readable(&asked), readable(&given)] {
            [Some(asked), Some(given)] => {
                (format!("`{asked}` is asked for, `{given}` given"), true)
            }
            _ => (
                "another statement is given than is asked for".to_string(),
                false,
            ),
        },
        None if said.contains("expected type `") => (
            "another statement is given than is asked for".to_string(),
            true,
        ),
        None => (short(said), false),
    }
}

/// Words of messages that say that two sides differ, of which the terms may be cut off.
const SIDES: [&str; 3] = [
    "computed as far as they go, the two ",
    "as printed, the two ",
    "give a proof of that as the last argument, `",
];

/// Words of the prover's without its marks.
fn plain_words(words: &str) -> String {
    words
        .trim()
        .trim_end_matches(" holds when it returns")
        .to_string()
}

/// What was asked for and what was given, where both are statements and the prover prints no two terms.
fn mismatch(said: &str) -> Option<[String; 2]> {
    let (_, rest) = said.split_once("expected type `")?;
    let (asked, rest) = rest.split_once('`')?;
    let (_, given) = rest.split_once("but this has type `")?;
    Some([asked.to_string(), given.split('`').next()?.to_string()])
}

/// The two terms of a message that says where two types differ.
fn differing(said: &str) -> Option<[String; 2]> {
    let start = said
        .find("computed as far as they go, the two")
        .or_else(|| said.find("as printed, the two"));
    if let Some(start) = start {
        let said = &said[start..];
        let (from, and) = if said.contains("one has `") {
            ("one has `", "the other has `")
        } else {
            (" are `", " and `")
        };
        let (_, one) = said.split_once(from)?;
        let (one, rest) = one.split_once('`')?;
        let (_, other) = rest.split_once(and)?;
        return Some([one.to_string(), other.split('`').next()?.to_string()]);
    }
    let (one, other) = said.split_once("` ≟ `")?;
    let one = one.trim_start_matches('`');
    let (other, rest) = other.split_once('`')?;
    rest.starts_with(": does not hold")
        .then(|| [one.to_string(), other.to_string()])
}

/// Whether an equation was to be shown and another one was given, of which the prover prints no two terms.
fn two_equations(said: &str) -> bool {
    said.contains("but this has type `mathlib.Core.Path._≡_ ")
        && said.contains("the expected one begins `Path ")
}

/// The two ends of a path that is left over and is none: the last two arguments of `Path`.
fn left_over(said: &str) -> Option<[String; 2]> {
    let (_, path) = said.split_once("whose two ends are equal, and `Path ")?;
    let (path, _) = path.split_once("` is none")?;
    if path.contains(CUT) {
        return Some([CUT.to_string(), CUT.to_string()]);
    }
    let mut arguments = arguments_of(path);
    let other = arguments.pop()?;
    Some([arguments.pop()?, other])
}

/// The arguments of an application: words, or what stands in brackets.
fn arguments_of(text: &str) -> Vec<String> {
    let mut depth = 0;
    let mut arguments = vec![String::new()];
    for letter in text.chars() {
        depth += i32::from("({".contains(letter)) - i32::from(")}".contains(letter));
        let last = arguments.last().unwrap();
        if letter == ' ' && depth == 0 && last != "record" {
            arguments.push(String::new());
        } else {
            arguments.last_mut().unwrap().push(letter);
        }
    }
    arguments
}

/// How long a term may be.
const LONGEST: usize = 72;

/// Where the prover leaves out the middle of a long term.
const CUT: &str = " bytes]…";

/// What tells a term that only the prover can read: a cut, or a value by its place in the generated proof.
const OPAQUE: [&str; 4] = [CUT, ".resV ", ".Lts.", ".Row.get "];

/// A term as it is shown, where a reader can make something of it.
fn readable(term: &String) -> Option<String> {
    let text = plain(term);
    let short = text.chars().count() <= LONGEST;
    (short && !OPAQUE.iter().any(|mark| term.contains(mark))).then_some(text)
}

fn unequal(pair: &[String; 2]) -> String {
    match pair.each_ref().map(readable) {
        [Some(one), Some(other)] if one != other => format!("`{one}` is not `{other}`"),
        [Some(one), None] | [None, Some(one)] => format!("`{one}` is not the other side"),
        _ => "two sides differ".to_string(),
    }
}

/// A term without the modules of its names, the steps back through a function, and brackets round the whole.
fn plain(term: &str) -> String {
    let words: Vec<String> = term
        .split(' ')
        .filter(|word| *word != ".before")
        .map(|word| {
            let open = word.find(|letter| !"({".contains(letter)).unwrap_or(0);
            let (brackets, name) = word.split_at(open);
            let own = match name.rfind('.') {
                Some(dot) if dot > 0 && dot + 1 < name.len() => &name[dot + 1..],
                _ => name,
            };
            format!("{brackets}{own}")
        })
        .collect();
    settled(&words.join(" ").replace('|', "¦"))
}

/// A term without brackets round the whole, and of a choice that is settled the part that is chosen.
fn settled(term: &str) -> String {
    let arguments = arguments_of(term);
    let words: Vec<&str> = arguments.iter().map(String::as_str).collect();
    match words[..] {
        [one] if one.starts_with('(') && one.ends_with(')') => settled(&one[1..one.len() - 1]),
        ["cond", "true", chosen, _] | ["cond", "false", _, chosen] => settled(chosen),
        _ => term.to_string(),
    }
}

/// The beginning of a message.
fn short(said: &str) -> String {
    let text = plain(said);
    // the other of two marks may be cut off
    let text = match text.matches('`').count() % 2 {
        0 => text,
        _ => text.replace('`', ""),
    };
    if text.chars().count() <= 2 * LONGEST {
        return text;
    }
    text.chars().take(2 * LONGEST).collect::<String>() + "…"
}

#[cfg(test)]
mod tests {
    use super::*;

    fn edit() -> Edit {
        Edit {
            owner: "wire".to_string(),
            name: "x".to_string(),
            rule: String::new(),
            file: PathBuf::new(),
            is_further: false,
        }
    }

    /// The refusal of an edit of which rt says this, at a place in the crate's proofs.
    fn told(place: &str, said: &str) -> Refusal {
        refusal(&edit(), &format!(": ./proofs/{place}:1:2: error: {said}")).unwrap()
    }

    #[test]
    fn two_terms_that_differ_are_told() {
        let said = "`returns`: as printed, the two types differ only where one has `a.B` (expected) and the other has `c` (found)";
        let refused = told("State/step/Answers.antt", said);
        assert_eq!(refused.place, "what `State::step` ensures");
        assert_eq!(refused.fact, "`B` is not `c`");
        assert!(refused.clear);
        let cut = told(
            "State/step/Answers.antt",
            "`returns`: as printed, the two types differ only where one has `a.B",
        );
        assert_eq!((cut.fact.as_str(), cut.clear), ("two sides differ", true));
    }

    #[test]
    fn an_equation_that_is_left_is_told() {
        let said = "`l`: give a proof of that `rw` has no last argument, so what it leaves must be a path whose \
                    two ends are equal, and `Path (A.T b) (m.cond false (f x) (g y)) z` is none";
        let refused = told("Keeps.antt", said);
        assert_eq!(refused.place, "law `Keeps.l`");
        assert_eq!(refused.fact, "`g y` is not `z`");
        let cut = told(
            "Keeps.antt",
            "`l`: give a proof of that as the last argument, `rw L t` (`rw L ?` shows it",
        );
        assert_eq!((cut.fact.as_str(), cut.clear), ("two sides differ", true));
    }

    #[test]
    fn what_a_callee_requires_is_told() {
        for name in ["push-requires-2", "push-found-requires"] {
            let refused = told(
                "run/go/Answers.antt",
                &format!("`{name}`: `search`: no proof of `p`"),
            );
            assert_eq!(refused.place, "what `run::go` asks before `push`");
            assert!(refused.clear);
        }
    }

    #[test]
    fn an_error_of_names_or_shape_is_not_taken_for_a_fact() {
        for said in [
            "`returns`: `tie` has no `Need-returns-3` that can be named from here",
            "`returns`: record `After-push` has no field `join`",
            "`returns`: something else",
        ] {
            assert!(!told("f/Answers.antt", said).clear, "{said}");
        }
    }

    #[test]
    fn what_rt_says_less_of_is_not_taken_for_a_fact() {
        for why in ["because a proof file names what the edit took away, so this says little of the contract: change a value and keep \
                     the names", "by a limit of the prover, which gave no verdict"] {
            let line = format!(" (only {why}): proofs/f/Answers.antt:1:2: error: `returns`: `search`: no proof of `p`");
            let refused = refusal(&edit(), &line).unwrap();
            assert!(!refused.clear && refused.place == "what `f` ensures", "{why}");
        }
    }

    #[test]
    fn points_are_read_as_they_are_written() {
        let page = "Text.\n- `a/must-fail/b`: 01, X: \"y: z\"\n  - fails: what `f` ensures; `1` is not `2`; so\n- none\n";
        let read = Row {
            edit: "a/must-fail/b".to_string(),
            rule: "01, X: \"y: z\"".to_string(),
            place: "what `f` ensures".to_string(),
            fact: "`1` is not `2`; so".to_string(),
        };
        assert_eq!(rows(page), [read]);
    }

    #[test]
    fn a_function_without_a_proof_is_told() {
        let line = ": note: src/gone.rt:9:1: it is not proved that what the function ensures holds when it returns (`returns`); the f";
        let refused = refusal(&edit(), line).unwrap();
        assert_eq!(refused.place, "what `a function` ensures");
        assert_eq!(
            refused.fact,
            "no proof is found that what the function ensures"
        );
        assert!(refused.clear);
    }

    #[test]
    fn the_function_that_a_line_of_code_is_in_is_told() {
        let text = fs::read_to_string(top().join("crates/bits/src/lib.rt")).unwrap();
        let begun = text
            .lines()
            .position(|line| line.contains("fn has("))
            .unwrap();
        assert_eq!(
            function_at(
                &Edit {
                    owner: "bits".to_string(),
                    ..edit()
                },
                "src/lib.rt",
                begun + 2
            ),
            "has"
        );
    }
}
