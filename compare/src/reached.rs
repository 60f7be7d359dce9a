// SPDX-License-Identifier: Apache-2.0
//! Which functions of the crates are called when a function is, by the words of the code. A call of a method, or through the name of a
//! type, is taken for one of every function of that name in the crate and those below it, and one of what a trait declares for one of
//! every type that has the trait; so a little more is found than is called.

use crate::crates;
use crate::edits::top;
use crate::public::{self, Code};
use std::collections::{BTreeMap, BTreeSet};

/// A function: where it is, as the documents write it, and what its body calls.
struct Function {
    owner: String,
    place: String,
    name: String,
    /// The trait that declares it, or of which a type has it.
    of_trait: Option<String>,
    calls: Vec<Call>,
}

/// A call: of a name, in a crate or below it; or of one function of the same file.
struct Call {
    name: String,
    within: Within,
}

enum Within {
    File(String),
    Crate(String),
    Below(String),
    Trait(String),
}

/// The name of the function whose head begins at a line.
fn head_of(line: &str) -> Option<&str> {
    let line = line.trim_start();
    let (before, after) = line.split_once("fn ")?;
    let is_head = ["", "pub ", "pub(crate) ", "pub extern \"C\" "].contains(&before);
    is_head.then(|| after.split(['(', '<']).next().unwrap())
}

/// A function of a file, as far as words tell it.
struct Body<'a> {
    name: &'a str,
    of_trait: Option<String>,
    /// Whether a trait declares it, for types to have.
    is_declared: bool,
    /// What stands in its body; of what a trait declares there is none, or what types have that say nothing else.
    text: Option<String>,
}

/// The functions of a file, each with the lines of its body.
fn bodies(text: &str) -> Vec<Body<'_>> {
    let lines: Vec<&str> = text.lines().collect();
    let heads = lines.iter().enumerate();
    let heads = heads.filter_map(|(at, line)| Some((at, head_of(line)?)));
    heads
        .map(|(at, name)| {
            let indent = lines[at].len() - lines[at].trim_start().len();
            let end = format!("{}}}", " ".repeat(indent));
            let text = public::head_at(&lines, at).body.map(|from| {
                let below = lines[from + 1..].iter();
                let body: Vec<&str> = below.take_while(|line| **line != end).copied().collect();
                body.join("\n")
            });
            let of_trait = public::trait_at(&lines, at);
            Body {
                name,
                is_declared: of_trait
                    .as_ref()
                    .is_some_and(|(_, is_declared)| *is_declared),
                of_trait: of_trait.map(|(of_trait, _)| of_trait),
                text,
            }
        })
        .collect()
}

/// The crate that a file takes a name from, by `use CRATE::..::NAME;` or `use CRATE::..::{NAME, ..};`.
fn imports(code: &Code) -> BTreeMap<&str, String> {
    let uses = code.text.split("\nuse ").skip(1);
    let paths = uses.filter_map(|rest| Some(rest.split_once(';')?.0));
    let mut found = BTreeMap::new();
    for path in paths {
        let from = match path.split("::").next().unwrap() {
            "crate" => code.owner.clone(),
            from => from.to_string(),
        };
        let last = path.rsplit("::").next().unwrap();
        let names = last.split(['{', '}', ',']).map(str::trim);
        found.extend(
            names
                .filter(|name| !name.is_empty())
                .map(|name| (name, from.clone())),
        );
    }
    found
}

/// The names that are called in a body, each with what stands before it.
fn called(body: &str) -> Vec<(&str, char)> {
    let is_word = |letter: char| letter.is_alphanumeric() || letter == '_';
    let mut found = vec![];
    for (at, _) in body.match_indices('(') {
        let from = body[..at].rfind(|letter| !is_word(letter));
        let from = from.map_or(0, |place| place + 1);
        let before = body[..from].chars().next_back().unwrap_or(' ');
        if from < at {
            found.push((&body[from..at], before));
        }
    }
    found
}

/// The functions that are handed to another by their names, as `is_clear` in `places_are(set, is_clear)`.
fn handed_on<'a>(
    body: &'a str,
    own: &BTreeSet<&str>,
    imports: &BTreeMap<&str, String>,
) -> Vec<(&'a str, char)> {
    let words = body.split(|letter: char| "(,\n".contains(letter));
    let alone = words.map(|word| word.trim().trim_end_matches(')'));
    alone
        .filter(|word| own.contains(word) || imports.contains_key(word))
        .map(|word| (word, ' '))
        .collect()
}

fn functions_of(code: &Code) -> Vec<Function> {
    let bodies = bodies(&code.text);
    let own: BTreeSet<&str> = bodies.iter().map(|body| body.name).collect();
    let imports = imports(code);
    let place_of = |name: &str| format!("{}/src/{}.{name}", code.owner, code.file);
    let within = |name: &str, before: char| match imports.get(name) {
        _ if ['.', ':'].contains(&before) => Within::Below(code.owner.clone()),
        _ if own.contains(name) => Within::File(place_of(name)),
        Some(from) => Within::Crate(from.clone()),
        None => Within::Below(code.owner.clone()),
    };
    let calls_of = |body: &Body| {
        let text = body.text.as_deref().unwrap_or_default();
        let calls = called(text)
            .into_iter()
            .chain(handed_on(text, &own, &imports));
        let call = |(name, before): (&str, char)| Call {
            name: name.to_string(),
            within: within(name, before),
        };
        let by_types = body.of_trait.as_ref().filter(|_| body.is_declared);
        let by_types = by_types.map(|of_trait| Call {
            name: body.name.to_string(),
            within: Within::Trait(of_trait.clone()),
        });
        calls.map(call).chain(by_types).collect()
    };
    let function = |body: &Body| Function {
        owner: code.owner.clone(),
        place: place_of(body.name),
        name: body.name.to_string(),
        of_trait: body.of_trait.clone(),
        calls: calls_of(body),
    };
    bodies.iter().map(function).collect()
}

/// Each crate with those that it depends on, and itself.
fn below() -> BTreeMap<String, BTreeSet<String>> {
    let with_itself = |each: crates::Crate| {
        let all = each.below.into_iter().chain([each.name.clone()]);
        (each.name, all.collect())
    };
    crates::all(&top()).into_iter().map(with_itself).collect()
}

/// The functions that are called, directly or not, when those of these names are; their places as the documents write them.
pub fn reached(roots: &[&str]) -> BTreeSet<String> {
    let functions: Vec<Function> = public::code().iter().flat_map(functions_of).collect();
    let below = below();
    let is_called = |call: &Call, function: &Function| {
        call.name == function.name
            && match &call.within {
                Within::File(place) => *place == function.place,
                Within::Crate(owner) => *owner == function.owner,
                Within::Below(owner) => below[owner].contains(&function.owner),
                Within::Trait(of) => function.of_trait.as_ref() == Some(of),
            }
    };
    let is_root = |function: &&Function| roots.contains(&function.name.as_str());
    let mut waiting: Vec<&Function> = functions.iter().filter(is_root).collect();
    let mut reached = BTreeSet::new();
    while let Some(function) = waiting.pop() {
        if reached.insert(function.place.clone()) {
            let is_next =
                |each: &&Function| function.calls.iter().any(|call| is_called(call, each));
            waiting.extend(functions.iter().filter(is_next));
        }
    }
    reached
}

#[cfg(test)]
mod tests {
    use super::*;

    #[test]
    fn bodies_are_told() {
        let text = "pub trait Part {\n    fn a(self)\n        ensures { q };\n}\n\nimpl Part for B {\n    fn a(self) {\n        \
                    c(self)\n    }\n}\n\nfn c(b: B)\n    ensures { q }\n{\n    every(d, b)\n}\n";
        let bodies = bodies(text);
        let told: Vec<_> = bodies
            .iter()
            .map(|body| (body.name, body.of_trait.as_deref(), body.text.as_deref()))
            .collect();
        assert_eq!(
            told,
            [
                ("a", Some("Part"), None),
                ("a", Some("Part"), Some("        c(self)")),
                ("c", None, Some("    every(d, b)")),
            ]
        );
        let own = BTreeSet::from(["d"]);
        let handed = handed_on("    every(d, b)", &own, &BTreeMap::new());
        assert_eq!(handed, [("d", ' ')]);
    }
}
