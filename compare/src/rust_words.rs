// SPDX-License-Identifier: Apache-2.0
//! The words and signs of a program in Rust, without comments, without texts in quotation marks, and without what only tests
//! have.

/// What stands before something that only tests have.
const TESTS: [&str; 7] = ["#", "[", "cfg", "(", "test", ")", "]"];

/// Whether a letter is of a name, a number or a word of the language.
pub fn is_of_a_word(letter: char) -> bool {
    letter.is_alphanumeric() || letter == '_'
}

/// The length of a text in quotation marks, with both of them.
fn quoted(text: &str) -> usize {
    let mut is_escaped = true; // the mark that begins it ends nothing
    for (at, letter) in text.char_indices() {
        match letter {
            '"' if !is_escaped => return at + 1,
            '\\' => is_escaped = !is_escaped,
            _ => is_escaped = false,
        }
    }
    text.len()
}

/// The length of a text in quotation marks that escapes nothing, `r".."` or `r#".."#`.
fn raw(text: &str) -> Option<usize> {
    let marks = text.strip_prefix('r')?;
    let inside = marks.trim_start_matches('#');
    let hashes = &marks[..marks.len() - inside.len()];
    let begin = 1 + hashes.len() + 1;
    let end = format!("\"{hashes}");
    inside.starts_with('"').then(|| {
        let length = text[begin..].find(&end);
        length.map_or(text.len(), |length| begin + length + end.len())
    })
}

/// The length of a letter in marks; of a lifetime only its mark.
fn letter(text: &str) -> usize {
    let mut letters = text.char_indices().skip(1);
    match (letters.next(), letters.next()) {
        (Some((_, '\\')), Some((at, escaped))) => {
            let from = at + escaped.len_utf8();
            text[from..]
                .find('\'')
                .map_or(text.len(), |end| from + end + 1)
        }
        (_, Some((at, '\''))) => at + 1,
        _ => 1,
    }
}

/// The length of what a text begins with, and whether it is a word or a sign of code.
fn first_of(text: &str) -> (usize, bool) {
    let until = |end: &str, more: usize| text.find(end).map_or(text.len(), |at| at + more);
    let first = text.chars().next().unwrap_or(' ');
    match first {
        '/' if text.starts_with("//") => (until("\n", 0), false),
        '/' if text.starts_with("/*") => (until("*/", 2), false),
        '"' => (quoted(text), false),
        '\'' => (letter(text), false),
        ':' if text.starts_with("::") => (2, true),
        _ if raw(text).is_some() => (raw(text).unwrap_or(1), false),
        _ if is_of_a_word(first) => (
            text.find(|it| !is_of_a_word(it)).unwrap_or(text.len()),
            true,
        ),
        _ => (first.len_utf8(), !first.is_whitespace()),
    }
}

/// The words and signs of a program in their order.
pub fn words_of(program: &str) -> Vec<&str> {
    let mut found = vec![];
    let mut rest = program;
    while !rest.is_empty() {
        let (length, is_code) = first_of(rest);
        if is_code {
            found.push(&rest[..length]);
        }
        rest = &rest[length..];
    }
    without_tests(&found)
}

/// Words without what only tests have.
fn without_tests<'a>(words: &[&'a str]) -> Vec<&'a str> {
    let mut kept = vec![];
    let mut rest = words;
    while let Some(tests) = rest.windows(TESTS.len()).position(|it| it == TESTS) {
        kept.extend_from_slice(&rest[..tests]);
        rest = &rest[tests + TESTS.len()..];
        rest = &rest[item_length(rest)..];
    }
    kept.extend_from_slice(rest);
    kept
}

/// How many words a function, a module or a `use` is long: up to its `;`, or to the brace that ends it.
fn item_length(words: &[&str]) -> usize {
    let mut depth = 0;
    for (at, word) in words.iter().enumerate() {
        match *word {
            "{" => depth += 1,
            "}" => depth -= 1,
            _ => {}
        }
        if depth == 0 && ["}", ";"].contains(word) {
            return at + 1;
        }
    }
    words.len()
}
