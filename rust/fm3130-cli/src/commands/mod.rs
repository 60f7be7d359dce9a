// SPDX-License-Identifier: Apache-2.0
//! The commands.

mod bus;
mod events;
mod fresh;
mod help;
mod judge;
mod lamps;
mod mend;
mod playing;
mod run;
mod run_set;
mod share;
mod test;
mod trim;
mod view;
mod waveform;

use std::ffi::OsString;

use crate::arguments::{part_of, unknown, wrong};
use crate::chip::Part;
use crate::failure::Outcome;

/// The commands that know the FM3130 alone.
const OF_THE_FM3130: [&str; 5] = ["share", "judge", "lamps", "mend", "trim"];

/// What does a command.
type Command = fn(Vec<OsString>) -> Outcome;

/// The commands by name.
const COMMANDS: [(&str, Command); 13] = [
    ("run", run::command),
    ("test", test::command),
    ("share", share::command),
    ("events", events::command),
    ("bus", bus::command),
    ("view", view::command),
    ("fresh", fresh::command),
    ("judge", judge::command),
    ("lamps", lamps::command),
    ("mend", mend::command),
    ("trim", trim::command),
    ("help", help::command),
    ("version", help::version),
];

/// Other words for some of them.
const OTHER_WORDS: [(&str, &str); 4] = [
    ("--help", "help"),
    ("-h", "help"),
    ("--version", "version"),
    ("-V", "version"),
];

/// Does the command that a command line names.
pub fn dispatch(mut words: Vec<OsString>) -> Outcome {
    if words.is_empty() {
        return Err(wrong("no command"));
    }
    let word = words.remove(0);
    let word = word.to_string_lossy();
    let other = OTHER_WORDS.iter().find(|(other, _)| *other == word);
    let wanted = other.map_or(word.as_ref(), |(_, name)| name);
    let Some((name, command)) = COMMANDS.iter().find(|(name, _)| *name == wanted) else {
        let known = COMMANDS.iter().map(|(name, _)| *name);
        return Err(wrong(unknown("command", &word, known)));
    };
    // `fm3130 run --help` is what many type first.
    let asks_for_help = |word: &OsString| word == "--help" || word == "-h";
    if words
        .iter()
        .take_while(|word| *word != "--")
        .any(asks_for_help)
    {
        return help::command(vec![name.into()]);
    }
    if OF_THE_FM3130.contains(name) {
        leave_part_out(name, &mut words).map_err(|failure| failure.in_command(name))?;
    }
    command(words).map_err(|failure| failure.in_command(name))
}

/// Takes `--part fm3130` out of the words of a command that knows that part alone, and refuses others.
fn leave_part_out(command: &str, words: &mut Vec<OsString>) -> Outcome {
    let is_option = |word: &OsString| {
        let word = word.to_string_lossy();
        word == "--part" || word.starts_with("--part=")
    };
    let Some(place) = words.iter().position(is_option) else {
        return Ok(());
    };
    let option = words.remove(place);
    let chosen = match option.to_string_lossy().split_once('=') {
        Some((_, word)) => OsString::from(word),
        None if place < words.len() => words.remove(place),
        None => return Err(wrong("--part needs a value")),
    };
    match part_of(&chosen)? {
        Part::Fm3130 => Ok(()),
        part => Err(wrong(format!(
            "{command} is for the FM3130 alone, and knows no {part}; run, test, events, bus, view and fresh do"
        ))),
    }
}
