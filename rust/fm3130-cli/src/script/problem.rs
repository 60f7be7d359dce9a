// SPDX-License-Identifier: Apache-2.0
//! What is wrong in a script, and where.

/// A stretch of one line. Lines and columns begin at 1; columns count characters.
#[derive(Clone, Copy, Debug, PartialEq, Eq)]
pub struct Place {
    /// The line.
    pub line: usize,
    /// The first character.
    pub column: usize,
    /// The number of characters, at least 1.
    pub width: usize,
}

/// What is wrong, where, and what to write instead.
#[derive(Clone, Debug, PartialEq, Eq)]
pub struct Problem {
    /// Where.
    pub place: Place,
    /// What is wrong.
    pub message: String,
    /// What to write instead; may be empty.
    pub advice: String,
}

impl Problem {
    /// A problem with advice.
    pub fn new(place: Place, message: impl Into<String>, advice: impl Into<String>) -> Problem {
        Problem {
            place,
            message: message.into(),
            advice: advice.into(),
        }
    }

    /// The problem with the line it is in and a mark below its place.
    pub fn shown_in(&self, name: &str, text: &str) -> String {
        let Place {
            line,
            column,
            width,
        } = self.place;
        let content = text.lines().nth(line - 1).unwrap_or("");
        let number = line.to_string();
        let margin = " ".repeat(number.len());
        let mark = "^".repeat(width);
        let mut shown = format!(
            "{name}:{line}:{column}: {}\n {number} | {}\n {margin} | {}{mark}",
            self.message,
            printable(content),
            blanks_before(content, column)
        );
        if !self.advice.is_empty() {
            shown.push_str("\n ");
            shown.push_str(&self.advice);
        }
        shown
    }
}

/// The line with control characters shown as one sign each, so that the mark stays in its place
/// and the terminal is not disturbed. Tabs stay.
fn printable(content: &str) -> String {
    content
        .chars()
        .map(|sign| match sign {
            '\t' => '\t',
            sign if sign.is_control() => '\u{FFFD}',
            sign => sign,
        })
        .collect()
}

/// Blanks as wide as the characters before a column; a tab is as wide as a tab.
fn blanks_before(content: &str, column: usize) -> String {
    content
        .chars()
        .take(column - 1)
        .map(|sign| if sign == '\t' { '\t' } else { ' ' })
        .collect()
}

#[cfg(test)]
mod tests {
    use super::*;

    #[test]
    fn the_mark_stands_below_the_place() {
        let place = Place {
            line: 2,
            column: 3,
            width: 4,
        };
        let problem = Problem::new(place, "what is lots", "say lost");
        assert_eq!(
            problem.shown_in("a.bus", "[ ]\n\t lots ]\n"),
            "a.bus:2:3: what is lots\n 2 | \t lots ]\n   | \t ^^^^\n say lost"
        );
    }

    #[test]
    fn control_characters_do_not_reach_the_terminal() {
        let place = Place {
            line: 1,
            column: 1,
            width: 1,
        };
        let shown = Problem::new(place, "no", "").shown_in("x", "\x1b[2J");
        assert!(!shown.contains('\x1b'));
    }
}
