// SPDX-License-Identifier: Apache-2.0
//! Standard output and standard error, whose readers may go away.
//!
//! What comes from files and command lines may hold control characters; a terminal is not to obey them.

use std::borrow::Cow;
use std::env;
use std::io::{self, BufWriter, IsTerminal, Write};

use crate::failure::{Failure, Outcome};

/// How a line is coloured where somebody looks on.
#[derive(Clone, Copy, Debug, PartialEq, Eq)]
pub enum Paint {
    /// As it is.
    Plain,
    /// Something was refused or is wrong.
    Bad,
    /// Something was done as it should be.
    Good,
    /// Beside the bus.
    Aside,
}

impl Paint {
    /// A text between what turns the colour on and off.
    fn around(self, text: &str) -> String {
        let code = match self {
            Paint::Plain => return text.to_string(),
            Paint::Bad => "31",
            Paint::Good => "32",
            Paint::Aside => "36",
        };
        format!("\x1b[{code}m{text}\x1b[0m")
    }
}

/// Whether colours are wanted at a terminal: https://no-color.org, and a terminal that has them.
fn wants_colours() -> bool {
    let is_set = |name| env::var_os(name).is_some_and(|value| !value.is_empty());
    !is_set("NO_COLOR") && env::var_os("TERM").is_none_or(|term| term != "dumb")
}

/// A text in which every control character but a tab or the end of a line is a sign of its own.
pub fn printable(text: &str) -> Cow<'_, str> {
    let is_wild = |sign: char| sign.is_control() && sign != '\t' && sign != '\n';
    match text.contains(is_wild) {
        true => Cow::Owned(text.replace(is_wild, "\u{FFFD}")),
        false => Cow::Borrowed(text),
    }
}

/// Where words go: standard output, or beside it where a file is written to it.
pub struct Output {
    writer: BufWriter<Box<dyn Write>>,
    /// Somebody looks on, so that every line is shown when it is written.
    is_terminal: bool,
    has_colours: bool,
}

impl Output {
    /// Takes hold of standard output.
    pub fn new() -> Output {
        Output::on(Box::new(io::stdout().lock()), io::stdout().is_terminal())
    }

    /// Words beside a file that goes to standard output: they go to standard error.
    pub fn beside_file(is_taken: bool) -> Output {
        match is_taken {
            true => Output::on(Box::new(io::stderr()), io::stderr().is_terminal()),
            false => Output::new(),
        }
    }

    fn on(writer: Box<dyn Write>, is_terminal: bool) -> Output {
        Output {
            writer: BufWriter::new(writer),
            is_terminal,
            has_colours: is_terminal && wants_colours(),
        }
    }

    /// Writes a text and ends the line.
    pub fn line(&mut self, text: &str) -> Outcome {
        self.painted(Paint::Plain, text)
    }

    /// The same in a colour, where there are colours.
    pub fn painted(&mut self, paint: Paint, text: &str) -> Outcome {
        let text = printable(text);
        match self.has_colours {
            true => writeln!(self.writer, "{}", paint.around(&text)),
            false => writeln!(self.writer, "{text}"),
        }
        .map_err(|error| Failure::of_output(&error))?;
        match self.is_terminal {
            true => self.finish(),
            false => Ok(()),
        }
    }

    /// Writes a text.
    pub fn text(&mut self, text: &str) -> Outcome {
        self.writer
            .write_all(text.as_bytes())
            .map_err(|error| Failure::of_output(&error))
    }

    /// Makes sure that all is written.
    pub fn finish(&mut self) -> Outcome {
        self.writer
            .flush()
            .map_err(|error| Failure::of_output(&error))
    }
}

/// Says something on standard error. Where that cannot be written there is nobody to tell, and the exit code says the
/// rest.
pub fn say_aside(words: &str) {
    let name = match io::stderr().is_terminal() && wants_colours() {
        true => Paint::Bad.around("fm3130:"),
        false => "fm3130:".to_string(),
    };
    let _ = writeln!(io::stderr(), "{name} {}", printable(words));
}

/// Asks whoever types for a line.
pub fn prompt(words: &str) {
    let mut errors = io::stderr();
    let _ = errors
        .write_all(words.as_bytes())
        .and_then(|()| errors.flush());
}

#[cfg(test)]
mod tests {
    use super::*;

    #[test]
    fn control_characters_are_signs() {
        assert_eq!(printable("a\tb\nc"), "a\tb\nc");
        assert_eq!(
            printable("\x1b[2Jx\r\u{9b}"),
            "\u{FFFD}[2Jx\u{FFFD}\u{FFFD}"
        );
    }

    #[test]
    fn a_colour_ends_where_its_text_ends() {
        assert_eq!(Paint::Bad.around("no"), "\x1b[31mno\x1b[0m");
        assert_eq!(Paint::Plain.around("no"), "no");
    }
}
