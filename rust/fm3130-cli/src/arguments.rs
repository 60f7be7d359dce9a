// SPDX-License-Identifier: Apache-2.0
//! The words of a command line, sorted into options and the rest.

use std::collections::BTreeMap;
use std::ffi::{OsStr, OsString};
use std::path::PathBuf;

use fm3130::family::{Select, Size};

use crate::chip::Part;
use crate::failure::{Failure, Outcome};
use crate::nearest::nearest;

/// The options that a command knows, with their dashes.
pub struct Options {
    /// Options that are followed by a value.
    pub with_value: &'static [&'static str],
    /// Options that stand alone.
    pub alone: &'static [&'static str],
}

/// The option that may be given more than once: several parts are a set.
const PART: &str = "--part";

/// A command line in order.
#[derive(Debug)]
pub struct Arguments {
    values: BTreeMap<&'static str, OsString>,
    /// The values of `--part`.
    parts: Vec<OsString>,
    flags: Vec<&'static str>,
    /// The words that are no options.
    pub plain: Vec<OsString>,
}

impl Arguments {
    /// Sorts the words of a command line.
    pub fn sort(
        words: impl IntoIterator<Item = OsString>,
        options: &Options,
    ) -> Outcome<Arguments> {
        let mut sorted = Arguments {
            values: BTreeMap::new(),
            parts: Vec::new(),
            flags: Vec::new(),
            plain: Vec::new(),
        };
        let mut words = words.into_iter();
        while let Some(word) = words.next() {
            if word == "--" {
                sorted.plain.extend(words);
                break;
            }
            sorted.take(word, &mut words, options)?;
        }
        Ok(sorted)
    }

    /// Takes one word, and the next one if it is the value of an option.
    fn take(
        &mut self,
        word: OsString,
        following: &mut impl Iterator<Item = OsString>,
        options: &Options,
    ) -> Outcome {
        // A single dash is standard input, so it is no option.
        if !starts_with_dash(&word) || word == "-" {
            self.plain.push(word);
            return Ok(());
        }
        let (name, value) = split_at_equals(&word);
        if let Some(option) = find(options.alone, &name) {
            if value.is_some() {
                return Err(wrong(format!("{option} takes no value")));
            }
            self.flags.push(option);
            return Ok(());
        }
        let Some(option) = find(options.with_value, &name) else {
            let known = options.with_value.iter().chain(options.alone).copied();
            return Err(wrong(unknown("option", &name, known)));
        };
        let value = match value.or_else(|| following.next()) {
            Some(value) if !value.is_empty() => value,
            _ => return Err(wrong(format!("{option} needs a value"))),
        };
        if option == PART {
            self.parts.push(value);
            return Ok(());
        }
        match self.values.insert(option, value) {
            None => Ok(()),
            Some(_) => Err(wrong(format!("{option} is given twice"))),
        }
    }

    /// True when an option that stands alone is given.
    pub fn has(&self, option: &str) -> bool {
        self.flags.contains(&option)
    }

    /// The file that an option names.
    pub fn path(&self, option: &str) -> Option<PathBuf> {
        self.values.get(option).map(PathBuf::from)
    }

    /// The part that `--part` chooses; without it the FM3130.
    pub fn part(&self) -> Outcome<Part> {
        match self.parts.as_slice() {
            [] => Ok(Part::Fm3130),
            [word] => part_of(word),
            _ => Err(wrong(
                "--part is given twice; several parts are a set, which run, test, events and bus alone know",
            )),
        }
    }

    /// The sizes and select bits of the set that `--part` chooses; none if it chooses one part without
    /// select bits, or none.
    pub fn set(&self) -> Outcome<Option<Vec<(Size, Select)>>> {
        match self.parts.as_slice() {
            [] => Ok(None),
            [word] if !has_select_bits(word) => Ok(None),
            words => {
                let members: Outcome<Vec<_>> = words.iter().map(|word| member_of(word)).collect();
                members.map(Some)
            }
        }
    }

    /// Says that there are more plain words than a command takes.
    pub fn at_most(&self, most: usize) -> Outcome {
        match self.plain.get(most) {
            None => Ok(()),
            Some(word) => Err(wrong(format!(
                "one word too many: {}",
                word.to_string_lossy()
            ))),
        }
    }
}

/// The part that a word chooses.
pub fn part_of(word: &OsStr) -> Outcome<Part> {
    let is_of_a_set = has_select_bits(word);
    let word = word.to_string_lossy();
    if is_of_a_set {
        return Err(wrong(format!(
            "{word} has select bits: it is for a set, which run, test, events and bus alone know"
        )));
    }
    Part::of_word(&word).ok_or_else(|| {
        wrong(format!(
            "{word} is no part; there are fm3130, fm3164 and fm31256"
        ))
    })
}

/// Whether a word chooses a part with its select bits.
fn has_select_bits(word: &OsStr) -> bool {
    word.to_string_lossy().contains('@')
}

/// The size and the select bits of a device of a set.
pub fn member_of(word: &OsStr) -> Outcome<(Size, Select)> {
    let word = word.to_string_lossy();
    let Some((part, select)) = word.split_once('@') else {
        return Err(wrong(format!(
            "{word} has no select bits; in a set every part has its own, such as {word}@0"
        )));
    };
    let Part::Family(size) = part_of(OsStr::new(part))? else {
        return Err(wrong(format!(
            "{word}: the FM3130 has no select bits; a set is of fm3164 and fm31256"
        )));
    };
    let mut known = Select::ALL.into_iter();
    match known.find(|one| one.to_string() == select) {
        Some(select) => Ok((size, select)),
        None => Err(wrong(format!("{word}: select bits are 0, 1, 2 or 3"))),
    }
}

/// Says that a word is not known, and which one it may have been.
pub fn unknown<'known>(
    kind: &str,
    word: &str,
    known: impl IntoIterator<Item = &'known str>,
) -> String {
    match nearest(word, known) {
        Some(near) => format!("unknown {kind} {word}; perhaps {near}"),
        None => format!("unknown {kind} {word}"),
    }
}

/// A wrong command line.
pub fn wrong(words: impl Into<String>) -> Failure {
    Failure::CommandLine(words.into(), None)
}

fn starts_with_dash(word: &OsStr) -> bool {
    word.as_encoded_bytes().first() == Some(&b'-')
}

/// The known spelling of an option.
fn find(known: &'static [&'static str], name: &str) -> Option<&'static str> {
    known.iter().copied().find(|option| *option == name)
}

/// The two sides of `--option=value`. A word that is not UTF-8 has no value that could be cut off;
/// it is no known option either, so it is shown as well as it can be.
fn split_at_equals(word: &OsStr) -> (String, Option<OsString>) {
    match word.to_str().and_then(|text| text.split_once('=')) {
        Some((name, value)) => (name.to_string(), Some(OsString::from(value))),
        None => (word.to_string_lossy().into_owned(), None),
    }
}

#[cfg(test)]
mod tests {
    use super::*;

    const OPTIONS: Options = Options {
        with_value: &["--image", "-o"],
        alone: &["--quiet"],
    };

    fn sort(words: &[&str]) -> Outcome<Arguments> {
        Arguments::sort(words.iter().map(OsString::from), &OPTIONS)
    }

    fn words_of_failure(words: &[&str]) -> String {
        sort(words).unwrap_err().to_string()
    }

    #[test]
    fn options_and_plain_words_in_any_order() {
        let sorted = sort(&["a", "--quiet", "--image=i=1", "-", "-o", "x", "--", "--y"]).unwrap();
        assert_eq!(sorted.plain, ["a", "-", "--y"]);
        assert!(sorted.has("--quiet"));
        assert_eq!(sorted.path("--image"), Some(PathBuf::from("i=1")));
        assert_eq!(sorted.path("-o"), Some(PathBuf::from("x")));
        assert!(sorted.at_most(3).is_ok() && sorted.at_most(2).is_err());
    }

    #[test]
    fn wrong_options_are_named() {
        assert!(words_of_failure(&["--imag", "x"]).contains("unknown option --imag"));
        assert!(words_of_failure(&["--image"]).contains("--image needs a value"));
        assert!(words_of_failure(&["--image="]).contains("--image needs a value"));
        assert!(words_of_failure(&["--quiet=1"]).contains("--quiet takes no value"));
        assert!(words_of_failure(&["-o", "a", "-o", "b"]).contains("-o is given twice"));
    }
}
