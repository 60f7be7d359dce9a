// SPDX-License-Identifier: Apache-2.0
//! A script that somebody types at a terminal: each line is played when it is ended.

use std::io::{self, BufRead, IsTerminal};

use crate::failure::{Failure, Outcome};
use crate::output::{prompt, say_aside};
use crate::script::{Cast, Script};

/// What a line may stand for: more would be printed than anybody reads.
const MOST_EVENTS: u64 = 10_000_000;

/// A script that is typed line by line.
pub struct Typed {
    cast: Cast,
    /// Whether it was said how to go on and how to end.
    is_begun: bool,
}

impl Typed {
    /// Whether somebody can be asked: standard input is a terminal.
    pub fn is_possible() -> bool {
        io::stdin().is_terminal()
    }

    /// A script for a device or a set.
    pub fn new(cast: Cast) -> Typed {
        Typed {
            cast,
            is_begun: false,
        }
    }

    /// The next line that is a script; nothing at the end. What is wrong in a line is said, and nothing of it is
    /// played.
    pub fn next(&mut self) -> Outcome<Option<Script>> {
        if !self.is_begun {
            say_aside("each line is played when it is ended; Control-D ends, `fm3130 help script` has the notation");
            self.is_begun = true;
        }
        loop {
            prompt("fm3130> ");
            let mut text = String::new();
            let read = io::stdin().lock().read_line(&mut text);
            match read {
                Ok(0) => {
                    prompt("\n");
                    return Ok(None);
                }
                Ok(_) => {}
                Err(error) => return Err(Failure::Files(format!("standard input: {error}"))),
            }
            if let Some(script) = self.script_of(text) {
                return Ok(Some(script));
            }
        }
    }

    /// The script of a line, if there is one to be played.
    fn script_of(&self, text: String) -> Option<Script> {
        let name = "standard input".to_string();
        let plan = match self.cast.plan_of(&text) {
            Ok(plan) => plan,
            Err(problem) => {
                say_aside(&problem.shown_in(&name, &text));
                return None;
            }
        };
        let tally = plan.tally();
        if tally.words() > MOST_EVENTS {
            say_aside(
                "that would print more than 10 MB; write it to a file, and run that with --large",
            );
            return None;
        }
        let is_empty = plan.steps.is_empty() && plan.expectations.is_empty();
        (!is_empty).then_some(Script { plan, name, text })
    }
}
