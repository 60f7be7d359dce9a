// SPDX-License-Identifier: Apache-2.0
//! The public functions of the crates, by the heads that stand in their files.

use crate::edits::top;
use crate::prose::entries_of;
use std::fs;
use std::path::Path;

/// A function that other crates or C can call.
pub struct Public {
    pub owner: String,
    /// As the documents write it: the crate, `src`, the file and the function.
    pub name: String,
    pub signature: String,
    /// Whether it has a `requires`.
    pub asks: bool,
    /// The statements that it ensures.
    pub ensures: Vec<String>,
}

/// A file of a crate's code.
pub struct Code {
    pub owner: String,
    pub file: String,
    pub text: String,
}

fn stem_of(path: &Path) -> String {
    path.file_stem().unwrap().to_string_lossy().to_string()
}

/// The code of all crates, crate by crate.
pub fn code() -> Vec<Code> {
    let mut found = vec![];
    for owner in entries_of(&top().join("crates")) {
        for file in entries_of(&owner.join("src")) {
            found.push(Code {
                owner: stem_of(&owner),
                file: stem_of(&file),
                text: fs::read_to_string(&file).unwrap(),
            });
        }
    }
    found
}

impl Code {
    /// What other crates or C can call: the functions marked `pub`, those that a public trait declares, and those that a type has of a
    /// trait, unless the type is the file's own.
    pub fn public_functions(&self) -> Vec<Public> {
        let lines: Vec<&str> = self.text.lines().collect();
        let functions = (0..lines.len()).filter_map(|from| self.public_at(&lines, from));
        functions.collect()
    }

    /// The public function that begins at a line, if one does.
    fn public_at(&self, lines: &[&str], from: usize) -> Option<Public> {
        let line = lines[from].trim();
        let is_marked = ["pub fn ", "pub extern \"C\" fn "]
            .iter()
            .any(|start| line.starts_with(start));
        let block = block_at(lines, from).map(|at| Block::of(&lines[at..from]));
        match block {
            Some(Block::Trait) if line.starts_with("fn ") => {}
            Some(Block::TypeOf { ref named, .. })
                if line.starts_with("fn ") && !self.has_own(named) => {}
            _ if is_marked => {}
            _ => return None,
        }
        let mut function = public_of(&self.owner, &self.file, &head_at(lines, from).text);
        if let Some(Block::TypeOf { of, named, ghosts }) = block {
            function.add_given(&ghosts);
            if !self.brings_in(&of) {
                function.name_with(&named);
            }
        }
        Some(function)
    }

    /// Whether a type is the file's own, for no other to use.
    fn has_own(&self, named: &str) -> bool {
        let starts = ["struct ", "enum "].map(|kind| format!("{kind}{named}"));
        let is_start = |line: &str| {
            let rest = starts.iter().find_map(|start| line.strip_prefix(start));
            rest.is_some_and(|rest| !rest.starts_with(is_of_word))
        };
        self.text.lines().any(is_start)
    }

    /// Whether the file takes a name from a crate of the tree.
    fn brings_in(&self, name: &str) -> bool {
        let uses = self.text.split("\nuse ").skip(1);
        let paths = uses.filter_map(|rest| Some(rest.split_once(';')?.0));
        let of_tree = paths.filter(|path| !path.starts_with("std::"));
        let mut words = of_tree.flat_map(|path| path.split(|letter| !is_of_word(letter)));
        words.any(|word| word == name)
    }
}

fn is_of_word(letter: char) -> bool {
    letter.is_alphanumeric() || letter == '_'
}

/// The trait in whose block a line stands, and whether the block declares it; else a type has it there.
pub fn trait_at(lines: &[&str], from: usize) -> Option<(String, bool)> {
    let at = block_at(lines, from)?;
    match Block::of(&lines[at..from]) {
        Block::Trait => {
            let named = lines[at].strip_prefix("pub trait ")?;
            let end = named.find(|letter| !is_of_word(letter))?;
            Some((named[..end].to_string(), true))
        }
        Block::TypeOf { of, .. } => Some((of, false)),
        Block::Other => None,
    }
}

/// The line at which the block begins that a line stands in: a trait, or what a type has of one or of its own.
fn block_at(lines: &[&str], from: usize) -> Option<usize> {
    let begins = |line: &str| {
        ["impl ", "impl<", "pub trait ", "trait "]
            .iter()
            .any(|start| line.starts_with(start))
    };
    let mut before = (0..from).rev().take_while(|at| lines[*at] != "}");
    before.find(|at| begins(lines[*at]))
}

/// A block of a file that has functions.
enum Block {
    Trait,
    /// What a type has of a trait, with the statements of its ghost members.
    TypeOf {
        of: String,
        named: String,
        ghosts: Vec<(String, String)>,
    },
    /// What a type has of its own, or what no other file sees.
    Other,
}

impl Block {
    /// The block of these lines, as far as a function in it.
    fn of(lines: &[&str]) -> Block {
        if lines[0].starts_with("pub trait ") {
            return Block::Trait;
        }
        let head = lines[0].split(" where ").next().unwrap();
        match head.split_once(" for ") {
            Some((before, after)) if head.starts_with("impl") => Block::TypeOf {
                of: last_name(before),
                named: last_name(after),
                ghosts: lines.iter().filter_map(|line| ghost_in(line)).collect(),
            },
            _ => Block::Other,
        }
    }
}

/// The name of a trait or a type, without its crate and its parameters: `From` of `impl From<Phase>`, `Display` of `impl fmt::Display`.
fn last_name(text: &str) -> String {
    let text = match text.strip_prefix("impl<") {
        Some(rest) => rest.split_once("> ").map_or(rest, |(_, rest)| rest),
        None => text.trim_start_matches("impl "),
    };
    let path = text.split(['<', ' ', '{']).next().unwrap();
    path.rsplit("::").next().unwrap().to_string()
}

/// A ghost member on one line, `ghost from_gives = { .. };`: its name and its statement.
fn ghost_in(line: &str) -> Option<(String, String)> {
    let (name, statement) = line.trim().strip_prefix("ghost ")?.split_once(" = {")?;
    let statement = statement.trim().strip_suffix("};")?;
    Some((name.to_string(), statement.trim().to_string()))
}

/// A function's head.
pub struct Head {
    /// The text from its first line to its body, on one line.
    pub text: String,
    /// The line at which its body begins; what a trait declares has none, and ends with its clauses.
    pub body: Option<usize>,
}

/// The head of the function that begins at a line.
pub fn head_at(lines: &[&str], from: usize) -> Head {
    let mut head: Vec<&str> = vec![];
    let mut body = None;
    for (at, line) in (from..).zip(lines[from..].iter().map(|line| line.trim())) {
        let depth = depth_of(&head.join(" "));
        let is_clause = ["requires", "ensures"]
            .iter()
            .any(|word| line.starts_with(word));
        let before = line.strip_suffix("{}").or(line.strip_suffix('{'));
        let before = before.filter(|before| !is_clause && depth + depth_of(before) == 0);
        head.push(before.unwrap_or(line).trim_end());
        if before.is_some() {
            body = Some(at);
            break;
        }
        if line.ends_with(';') && depth + depth_of(line) == 0 {
            break;
        }
    }
    Head {
        text: head.join(" ").trim_end_matches([';', ' ']).to_string(),
        body,
    }
}

/// How many brackets of a text are open at its end.
fn depth_of(text: &str) -> i32 {
    let step = |letter| match letter {
        '(' | '{' | '[' => 1,
        ')' | '}' | ']' => -1,
        _ => 0,
    };
    text.chars().map(step).sum()
}

impl Public {
    fn own_name(&self) -> &str {
        self.name.rsplit_once('.').unwrap().1
    }

    /// Adds what a type says that the function of a trait gives: std's `from_gives` is the promise of `from`.
    fn add_given(&mut self, ghosts: &[(String, String)]) {
        let clause = format!("{}_gives", self.own_name());
        let parameters = parameters_in(&self.signature);
        for (_, statement) in ghosts.iter().filter(|(name, _)| *name == clause) {
            self.ensures.push(of_result(statement, &parameters));
        }
    }

    /// Names it as it is called: `Transfer::from`. A file may have the same function of std's traits for several types.
    fn name_with(&mut self, named: &str) {
        let (file, name) = self.name.rsplit_once('.').unwrap();
        self.name = format!("{file}.{named}::{name}");
    }
}

/// The names of a function's parameters.
fn parameters_in(signature: &str) -> Vec<&str> {
    let Some((_, list)) = signature.split_once('(') else {
        return vec![];
    };
    let names = list.split(": ").collect::<Vec<_>>();
    names[..names.len() - 1]
        .iter()
        .filter_map(|before| before.rsplit([' ', '(']).next())
        .collect()
}

/// A statement of a function's arguments and its result, in the words of a clause: `λ phase r. r ≡ f phase` as `result ≡ f phase`,
/// and a definition's name alone as that of the parameters and `result`.
fn of_result(statement: &str, parameters: &[&str]) -> String {
    let Some((bound, body)) = statement
        .strip_prefix('λ')
        .and_then(|rest| rest.split_once(". "))
    else {
        return format!("{statement} {} result", parameters.join(" "));
    };
    let last = bound.split_whitespace().last().unwrap();
    let mut told = String::new();
    let mut rest = body;
    while let Some(start) = rest.find(is_of_word) {
        let end = rest[start..]
            .find(|letter| !is_of_word(letter))
            .map_or(rest.len(), |many| start + many);
        let is_field = rest[..start].ends_with('.') && start > 0;
        told += &rest[..start];
        told += match &rest[start..end] {
            word if word == last && !is_field => "result",
            word => word,
        };
        rest = &rest[end..];
    }
    told + rest
}

/// The function whose head this is, on one line.
pub fn public_of(owner: &str, file: &str, head: &str) -> Public {
    let clauses = clauses_of(head);
    let signature = match clauses.first() {
        Some(first) => &head[..first.at],
        None => head,
    };
    let (_, named) = signature.split_once("fn ").unwrap();
    let name = named.split(['(', '<']).next().unwrap();
    let ensures = clauses.iter().filter(|clause| !clause.asks);
    Public {
        owner: owner.to_string(),
        name: format!("{owner}/src/{file}.{name}"),
        signature: signature.to_string(),
        asks: clauses.iter().any(|clause| clause.asks),
        ensures: ensures.map(|clause| clause.statement.to_string()).collect(),
    }
}

/// A clause of a head on one line: where it begins, whether it is a `requires`, and its statement.
struct Clause<'a> {
    at: usize,
    asks: bool,
    statement: &'a str,
}

/// The clauses of a head: `requires` or `ensures`, maybe a name, and a statement in braces, which may have braces within.
fn clauses_of(head: &str) -> Vec<Clause<'_>> {
    let mut clauses: Vec<Clause> = vec![];
    let mut depth = 0;
    let mut start = 0;
    let mut before = "";
    for (end, letter) in head.char_indices() {
        match letter {
            '{' => {
                if depth == 0 {
                    before = &head[..end];
                    start = end + 1;
                }
                depth += 1;
            }
            '}' => {
                depth -= 1;
                let begun =
                    [" requires ", " ensures "].map(|word| Some((before.rfind(word)?, word)));
                if let (0, Some((at, word))) = (depth, begun.into_iter().flatten().max()) {
                    clauses.push(Clause {
                        at,
                        asks: word == " requires ",
                        statement: head[start..end].trim(),
                    });
                }
            }
            _ => {}
        }
    }
    clauses
}
