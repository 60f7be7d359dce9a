// SPDX-License-Identifier: Apache-2.0
//! 02, number 4: "Whoever calls the tick must pass this on or drop it knowingly". No call of a function that says what
//! rolled over stands alone, so that its answer would be gone without a word.

use compare::public::{self, Code};
use std::collections::{BTreeMap, BTreeSet};

/// What functions of a name return, as it is written, by the name.
type Results = BTreeMap<String, String>;

/// The name that a text begins with.
fn name_at(text: &str) -> &str {
    let ends = text.find(|letter: char| !letter.is_alphanumeric() && letter != '_');
    &text[..ends.unwrap_or(text.len())]
}

/// The lines without what is said of them, and without `pub`.
fn lines_of(text: &str) -> impl Iterator<Item = &str> {
    text.lines()
        .map(|line| line.split("//").next().unwrap().trim())
        .map(|line| line.strip_prefix("pub ").unwrap_or(line))
        .map(|line| line.strip_prefix("pub(crate) ").unwrap_or(line))
}

/// The names in a text.
fn words_of(text: &str) -> impl Iterator<Item = &str> {
    text.split(|letter: char| !letter.is_alphanumeric() && letter != '_')
}

/// What the functions of a file return, a tuple or a type with parameters whole.
fn results_in(text: &str) -> Results {
    let mut found = Results::new();
    let mut last = String::new();
    for line in lines_of(text) {
        if let Some(rest) = line.strip_prefix("fn ") {
            last = name_at(rest).to_string();
        }
        if let Some((_, result)) = line.rsplit_once(") -> ") {
            let results = found.entry(last.clone()).or_default();
            *results += &format!("{result} ");
        }
    }
    found
}

/// The types that say what rolled over: `Rolled`, and each struct with one in it.
fn telling(all: &[Code]) -> BTreeSet<String> {
    let mut found = BTreeSet::from(["Rolled".to_string()]);
    for code in all {
        let mut open = None;
        for line in lines_of(&code.text) {
            open = match line.strip_prefix("struct ") {
                Some(rest) => Some(name_at(rest)),
                None => open.filter(|_| line != "}"),
            };
            let (Some(named), Some((_, of))) = (open, line.split_once(": ")) else {
                continue;
            };
            if words_of(of).any(|word| word == "Rolled") {
                found.insert(named.to_string());
            }
        }
    }
    found
}

/// What a name in a file returns: as the file itself has it, or as the crate has it that the file takes it from.
fn result_of(all: &[Code], code: &Code, name: &str) -> Option<String> {
    if let Some(own) = results_in(&code.text).get(name) {
        return Some(own.clone());
    }
    let text = format!("\n{}", code.text);
    let uses = text.split("\nuse ").skip(1);
    let mut paths = uses.filter_map(|rest| Some(rest.split_once(';')?.0));
    let used = paths.find(|path| {
        let last = path.rsplit("::").next().unwrap();
        words_of(last).any(|word| word == name)
    })?;
    let owner = match name_at(used) {
        "crate" => code.owner.as_str(),
        other => other,
    };
    let files = all.iter().filter(|file| file.owner == owner);
    files
        .filter_map(|file| results_in(&file.text).get(name).cloned())
        .next()
}

/// The call of a line whose answer goes to `_`, all of it or a part: `let (next, _) = ..`.
fn dropped(line: &str) -> Option<&str> {
    let (pattern, call) = line.strip_prefix("let ")?.split_once(" = ")?;
    words_of(pattern).any(|word| word == "_").then_some(call)
}

/// The calls of a file that are statements, from the name on that is called: those of one line, and those of several, whose last
/// line is set in as far as their first.
fn statements_in(text: &str) -> Vec<&str> {
    let indent = |line: &str| line.len() - line.trim_start().len();
    let lines: Vec<&str> = text.lines().collect();
    let ends_in = |from: usize| {
        let mut after = lines[from + 1..].iter();
        after.find(|line| indent(line) == indent(lines[from]))
    };
    let mut found = vec![];
    for (at, line) in lines_of(text).enumerate() {
        let is_long = line.ends_with('(') && ends_in(at).is_some_and(|last| last.trim() == ");");
        let call = dropped(line).unwrap_or(line);
        match call.split_once('(') {
            Some((called, _)) if !called.contains(' ') && (is_long || line.ends_with(");")) => {
                found.push(called);
            }
            _ => {}
        }
    }
    found
}

/// The calls of a file that stand alone, or whose answer goes to a name that is none, and say what rolled over.
fn bare_calls(all: &[Code], code: &Code) -> Vec<String> {
    let telling = telling(all);
    let tells = |result: Option<String>| {
        // what the companion of whatever part tells
        let is_any = |result: &str| result.contains("::Told");
        result.is_some_and(|result| {
            is_any(&result) || words_of(&result).any(|word| telling.contains(word))
        })
    };
    let statements = statements_in(&code.text);
    let bare = statements
        .into_iter()
        .filter(|called| match called.rsplit_once('.') {
            None => tells(result_of(all, code, called)),
            Some((_, method)) => all
                .iter()
                .any(|file| tells(results_in(&file.text).get(method).cloned())),
        });
    bare.map(|called| format!("{}/src/{}: {called}", code.owner, code.file))
        .collect()
}

#[test]
fn no_call_that_says_what_rolled_over_stands_alone() {
    let all = public::code();
    let faults: Vec<String> = all.iter().flat_map(|code| bare_calls(&all, code)).collect();
    assert!(faults.is_empty(), "{}", faults.join("\n"));
    let named = all.iter().filter(|code| code.text.contains("unsaid("));
    let owners: Vec<&str> = named.map(|code| code.owner.as_str()).collect();
    assert_eq!(
        owners,
        ["place_event", "place_rows", "place_tick"],
        "where it is dropped knowingly"
    );
}

#[test]
fn a_call_that_stands_alone_is_noticed() {
    let file = |owner: &str, text: &str| Code {
        owner: owner.to_string(),
        file: "lib".to_string(),
        text: text.to_string(),
    };
    let below = "pub struct Told {\n    pub rolled: Rolled,\n}\n\
                 pub fn tick(image: &mut [u8]) -> Rolled\n{\n}\n\
                 pub fn tell(self) -> Told {\n}\npub fn quiet(image: &mut [u8]) {\n}\n\
                 pub fn beat(self) -> (Self, Rolled)\n{\n}\npub fn serve<C: Desk>(companion: C) -> Served<C, C::Told>\n{\n}\n";
    for (line, is_noticed) in [
        ("tick(image);", true),
        ("let _ = tick(image);", true),
        ("state.tell();", true),
        ("tick(\n        image,\n    );", true),
        ("tick(\n        image,\n    )", false),
        ("companion.beat();", true),
        ("let (next, _) = companion.beat();", true),
        ("let (next, told) = companion.beat();", false),
        ("serve(companion);", true),
        ("let served = serve(companion);", false),
        ("quiet(image);", false),
        ("let rolled = tick(image);", false),
        ("return tick(image);", false),
        ("unsaid(tick(image));", false),
        ("// tick(image);", false),
    ] {
        let above =
            format!("use below::tick;\nuse below::{{quiet, serve}};\nfn f() {{\n    {line}\n}}\n");
        let all = [file("below", below), file("above", &above)];
        assert_eq!(!bare_calls(&all, &all[1]).is_empty(), is_noticed, "{line}");
    }
}
