// SPDX-License-Identifier: Apache-2.0
//! Which files of a Rust package use which, and the circles among them.
//!
//! A file uses the file where a name is defined, by whatever path it says it: a name that a folder's file only hands on
//! (`pub use`) is looked up where it comes from, and handing on is no use. Tests inside a file are passed over.

use crate::prose::{ending_of, files_of};
use crate::rust_words::{is_of_a_word, words_of};
use std::collections::{BTreeMap, BTreeSet, VecDeque};
use std::fs;
use std::path::{Path, PathBuf};
use std::slice;

/// The names that lead from the top of a package to a module or to what is in it; none for the top itself.
type Names = Vec<String>;

/// A name that a `use` brings in, whether it is handed on, and where it comes from.
struct Brought {
    name: String,
    is_handed_on: bool,
    from: Names,
}

/// The modules of a package, each one a file: what it brings in by `use`, and the paths that its code says.
pub struct Package {
    files: BTreeMap<Names, Source>,
}

struct Source {
    brought: Vec<Brought>,
    paths: Vec<Names>,
}

// ---- what a file says of others

/// The names that a `use` brings in, each with the path that it is said by. `*` stands for all names of a module.
fn tree(words: &[&str]) -> Vec<(String, Names)> {
    let mut found = vec![];
    let mut around: Vec<Names> = vec![];
    let mut path: Names = vec![];
    let mut name = None;
    let mut words = words.iter();
    while let Some(&word) = words.next() {
        match word {
            "::" => {}
            "{" => around.push(path.clone()),
            "," | "}" => {
                found.extend(named(name.take(), &path));
                path = match word {
                    "," => around.last().cloned().unwrap_or_default(),
                    _ => {
                        around.pop();
                        vec![]
                    }
                };
            }
            "as" => name = words.next().map(|word| word.to_string()),
            _ => path.push(word.to_string()),
        }
    }
    found.extend(named(name, &path));
    found
}

/// The name by which a path of a `use` is known; a module's own name for `{self}`.
fn named(name: Option<String>, path: &Names) -> Option<(String, Names)> {
    let mut path = path.clone();
    if path.len() > 1 && path.last().is_some_and(|last| last == "self") {
        path.pop();
    }
    let name = name.or_else(|| path.last().cloned())?;
    Some((name, path))
}

/// Every path of more than one name in the code of a file.
fn paths_in(words: &[&str]) -> Vec<Names> {
    let mut found = vec![];
    let mut path: Names = vec![];
    let mut goes_on = false;
    for &word in words.iter().chain(&["."]) {
        let is_name = word.starts_with(is_of_a_word);
        match word {
            "::" if !path.is_empty() => goes_on = true,
            _ if is_name && goes_on => {
                path.push(word.to_string());
                goes_on = false;
            }
            _ => {
                found.extend(Some(std::mem::take(&mut path)).filter(|path| path.len() > 1));
                goes_on = false;
                path.extend(is_name.then(|| word.to_string()));
            }
        }
    }
    found
}

/// The `use`s of a file, each with whether it hands on what it brings in, and the words of the rest.
fn split<'a>(words: &[&'a str]) -> (Vec<(bool, Vec<&'a str>)>, Vec<&'a str>) {
    let mut uses = vec![];
    let mut rest: Vec<&str> = vec![];
    let mut words = words.iter().copied();
    while let Some(word) = words.next() {
        if word == "use" {
            let is_handed_on = matches!(rest.last(), Some(&("pub" | ")")));
            let tree = words.by_ref().take_while(|it| *it != ";");
            uses.push((is_handed_on, tree.collect()));
            rest.push(";"); // the `pub` before it is not that of the next
        } else {
            rest.push(word);
        }
    }
    (uses, rest)
}

/// What a file says: `at` leads to its module, `children` are the names of the modules below it.
fn source(at: &Names, children: &BTreeSet<String>, program: &str) -> Source {
    let words = words_of(program);
    let (uses, rest) = split(&words);
    let mut brought: Vec<Brought> = vec![];
    for (is_handed_on, words) in uses {
        for (name, said) in tree(&words) {
            let from = from_the_top(at, children, &[], &said);
            brought.extend(from.map(|from| Brought {
                is_handed_on: is_handed_on && !rest.contains(&name.as_str()),
                name,
                from,
            }));
        }
    }
    let paths = paths_in(&rest);
    let paths = paths
        .iter()
        .filter_map(|said| from_the_top(at, children, &brought, said))
        .collect();
    Source { brought, paths }
}

/// A path as it leads from the top of the package; nothing for one that leads out of it.
fn from_the_top(
    at: &Names,
    children: &BTreeSet<String>,
    brought: &[Brought],
    said: &Names,
) -> Option<Names> {
    let above = said.iter().take_while(|it| *it == "super").count();
    let (first, behind) = said.split_first()?;
    let known = brought.iter().find(|it| it.name == *first);
    let from = match first.as_str() {
        "crate" => vec![],
        "self" => at.clone(),
        "super" => at[..at.len().checked_sub(above)?].to_vec(),
        _ if known.is_some() => known?.from.clone(),
        _ if children.contains(first) => [at, slice::from_ref(first)].concat(),
        _ => return None,
    };
    let behind = &behind[above.saturating_sub(1)..];
    Some([from.as_slice(), behind].concat())
}

// ---- a package

/// The module that a file below `src` is, by its path from there.
fn module_of(file: &Path) -> Names {
    let mut names: Names = file
        .with_extension("")
        .iter()
        .map(|name| name.to_string_lossy().to_string())
        .collect();
    let is_of_a_folder = |name: &String| ["lib", "main", "mod"].contains(&name.as_str());
    if names.last().is_some_and(is_of_a_folder) {
        names.pop();
    }
    names
}

impl Package {
    /// The package whose `src` is a folder; programs beside its top are packages of their own.
    pub fn read(src: &Path) -> Self {
        let files = files_of(src).into_iter();
        let is_of_it = |file: &PathBuf| ending_of(file) == "rs" && !file.starts_with("bin");
        let with_text = |file: PathBuf| {
            let text = fs::read_to_string(src.join(&file));
            (file, text.unwrap())
        };
        Self::of(files.filter(is_of_it).map(with_text).collect())
    }

    /// A package of files, each by its path from `src` and with its program.
    pub fn of(files: Vec<(PathBuf, String)>) -> Self {
        let modules = files
            .into_iter()
            .map(|(file, text)| (module_of(&file), text));
        let texts: BTreeMap<Names, String> = modules.collect();
        let children = |at: &Names| {
            let is_below = |it: &&Names| it.len() == at.len() + 1 && it.starts_with(at);
            let below = texts.keys().filter(is_below);
            below.filter_map(|it| it.last().cloned()).collect()
        };
        let files = texts
            .iter()
            .map(|(at, text)| (at.clone(), source(at, &children(at), text)))
            .collect();
        Package { files }
    }

    pub fn number_of_files(&self) -> usize {
        self.files.len()
    }

    /// The module in whose file a path's name is defined; nothing for a path that ends at a module.
    fn definer(&self, path: &[String]) -> Option<Names> {
        let mut depth = 0;
        while depth < path.len() && self.files.contains_key(&path[..=depth]) {
            depth += 1;
        }
        let module = &path[..depth];
        let name = path.get(depth)?;
        let brought = &self.files.get(module)?.brought;
        match brought.iter().find(|it| it.name == *name) {
            Some(it) => self.definer(&[it.from.as_slice(), &path[depth + 1..]].concat()),
            None => Some(module.to_vec()),
        }
    }

    /// The modules that a module uses, itself not among them.
    fn used_by(&self, at: &Names) -> BTreeSet<Names> {
        let source = &self.files[at];
        let brought = source.brought.iter().filter(|it| !it.is_handed_on);
        let paths = brought.map(|it| &it.from).chain(&source.paths);
        paths
            .filter_map(|path| self.definer(path))
            .filter(|used| used != at)
            .collect()
    }

    /// The circles of modules that use each other, none twice: of each module in one a shortest way back to itself.
    pub fn circles(&self) -> Vec<String> {
        let uses: BTreeMap<&Names, BTreeSet<Names>> =
            self.files.keys().map(|at| (at, self.used_by(at))).collect();
        let mut told: BTreeSet<Names> = BTreeSet::new();
        let mut circles = vec![];
        for at in self.files.keys() {
            if told.contains(at) {
                continue;
            }
            if let Some(way) = way_back(&uses, at) {
                circles.push(in_words(&way));
                told.extend(way);
            }
        }
        circles
    }
}

/// A shortest way from a module to itself.
fn way_back(uses: &BTreeMap<&Names, BTreeSet<Names>>, at: &Names) -> Option<Vec<Names>> {
    let mut ways = VecDeque::from([vec![at.clone()]]);
    let mut seen = BTreeSet::new();
    while let Some(way) = ways.pop_front() {
        for next in &uses[way.last()?] {
            let longer = [way.as_slice(), slice::from_ref(next)].concat();
            if next == at {
                return Some(longer);
            }
            if seen.insert(next.clone()) {
                ways.push_back(longer);
            }
        }
    }
    None
}

fn in_words(way: &[Names]) -> String {
    let module = |names: &Names| match names.is_empty() {
        true => "the top".to_string(),
        false => names.join("/"),
    };
    way.iter().map(module).collect::<Vec<_>>().join(" uses ")
}
