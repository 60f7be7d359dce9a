// SPDX-License-Identifier: Apache-2.0
//! `fm3130 help` and `fm3130 --version`.

use std::ffi::OsString;

use crate::arguments::wrong;
use crate::failure::{Failure, Outcome};
use crate::nearest::nearest;
use crate::output::Output;

/// The pages by name. The first line of each file is its licence and is not shown.
const PAGES: [(&str, &str); 14] = [
    ("help", include_str!("../help/help.txt")),
    ("run", include_str!("../help/run.txt")),
    ("test", include_str!("../help/test.txt")),
    ("share", include_str!("../help/share.txt")),
    ("events", include_str!("../help/events.txt")),
    ("bus", include_str!("../help/bus.txt")),
    ("view", include_str!("../help/view.txt")),
    ("fresh", include_str!("../help/fresh.txt")),
    ("judge", include_str!("../help/judge.txt")),
    ("lamps", include_str!("../help/lamps.txt")),
    ("mend", include_str!("../help/mend.txt")),
    ("trim", include_str!("../help/trim.txt")),
    ("version", include_str!("../help/version.txt")),
    ("script", include_str!("../help/script.txt")),
];

/// Shows a page.
pub fn command(words: Vec<OsString>) -> Outcome {
    if words.len() > 1 {
        return Err(wrong("help shows one page at a time"));
    }
    let name = words
        .first()
        .map_or("help".into(), |word| word.to_string_lossy());
    let Some(page) = page(&name) else {
        let near = nearest(&name, PAGES.iter().map(|(known, _)| *known));
        let near = near.map_or(String::new(), |near| format!("; perhaps {near}"));
        return Err(Failure::CommandLine(
            format!("no help on {name}{near}"),
            None,
        ));
    };
    let mut output = Output::new();
    output.text(page)?;
    output.finish()
}

/// Shows the version.
pub fn version(words: Vec<OsString>) -> Outcome {
    if let Some(word) = words.first() {
        let word = word.to_string_lossy();
        return Err(wrong(format!("one word too many: {word}")));
    }
    let mut output = Output::new();
    output.line(concat!("fm3130 ", env!("CARGO_PKG_VERSION")))?;
    output.finish()
}

/// The text of a page.
fn page(name: &str) -> Option<&'static str> {
    let (_, file) = PAGES.iter().find(|(known, _)| *known == name)?;
    file.split_once('\n').map(|(_, text)| text)
}

#[cfg(test)]
mod tests {
    use super::*;

    #[test]
    fn every_page_has_its_parts_and_fits_a_terminal() {
        for (name, file) in PAGES {
            assert!(file.starts_with("# SPDX-License-Identifier: Apache-2.0\n"));
            let text = page(name).unwrap();
            assert!(text.contains("NAME\n"), "{name}");
            for line in text.lines() {
                assert!(line.chars().count() <= 80, "{name}: {line}");
            }
        }
    }
}
