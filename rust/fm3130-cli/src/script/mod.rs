// SPDX-License-Identifier: Apache-2.0
//! Bus scripts: a notation that bench engineers know, turned into events.
//!
//! Text goes through [`parse`] to items, and items through [`Plan`] to events; the items of a script
//! of two masters stand in turns. What is wrong in a
//! text is a [`Problem`] that shows its place. The notation is described by `fm3130 help script`.

mod item;
mod parse;
mod plan;
mod problem;

pub use item::{Expected, Turn};
pub use plan::{tally_of, total_of, Expectation, Plan, Step};
pub use problem::Problem;

use std::path::Path;

use fm3130::family::Select;

use crate::chip::Part;
use crate::failure::{Failure, Outcome};
use crate::files;

/// A script: its plan, and the text that it comes from.
#[derive(Clone, Debug, Default)]
pub struct Script {
    /// What is done and expected.
    pub plan: Plan,
    /// The file's name in words.
    pub name: String,
    /// The text.
    pub text: String,
}

impl Script {
    /// A problem with its line and a mark below its place.
    pub fn shown(&self, problem: &Problem) -> String {
        problem.shown_in(&self.name, &self.text)
    }
}

/// Who plays a script.
#[derive(Clone, Debug)]
pub enum Cast {
    /// A device of a part.
    One(Part),
    /// A set, whose devices have these select bits.
    Set(Vec<Select>),
}

impl Cast {
    /// The plan of a text, or the first problem in it.
    pub fn plan_of(&self, text: &str) -> Result<Plan, Problem> {
        let items = match self {
            Cast::One(part) => parse::parse(text, *part)?,
            Cast::Set(selects) => parse::parse_for_set(text, selects)?,
        };
        Ok(Plan::of(&items))
    }

    /// The script in a file; `-` reads standard input.
    pub fn load(&self, path: &Path) -> Outcome<Script> {
        let (name, text) = read(path)?;
        match self.plan_of(&text) {
            Ok(plan) => Ok(Script { plan, name, text }),
            Err(problem) => Err(Failure::Script(problem.shown_in(&name, &text))),
        }
    }
}

/// The turns of a script of two masters, and its name and text without a plan; `-` reads standard input.
pub fn load_turns(path: &Path) -> Outcome<(Vec<Turn>, Script)> {
    let (name, text) = read(path)?;
    match parse::parse_turns(&text) {
        Ok(turns) => {
            let plan = Plan::default();
            Ok((turns, Script { plan, name, text }))
        }
        Err(problem) => Err(Failure::Script(problem.shown_in(&name, &text))),
    }
}

/// The longest script that is read. What it says is in memory too, up to a hundred times as much.
const MOST_BYTES: usize = 4 << 20;

/// A script's name and text.
fn read(path: &Path) -> Outcome<(String, String)> {
    let name = files::name_of(path);
    let bytes = files::read_or_input(path, MOST_BYTES)?;
    if bytes.len() > MOST_BYTES {
        let words = format!("{name}: the script is longer than 4 MiB");
        return Err(Failure::Script(words));
    }
    let text = String::from_utf8(bytes).map_err(|error| {
        let place = error.utf8_error().valid_up_to();
        Failure::Script(format!("{name}: not UTF-8 text at byte {place}"))
    })?;
    Ok((name, text))
}
