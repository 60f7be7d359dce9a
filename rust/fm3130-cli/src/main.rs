// SPDX-License-Identifier: Apache-2.0
//! The command `fm3130`: plays bus scripts on the proved stand-in, and shows what happened.
//!
//! * `commands`: one module a command, which reads its command line and does the work.
//! * `script`: bus scripts, from text to events. `typing`: one that is typed. `source`: events in chunks.
//! * `chip`: the parts that can be chosen, and a device of any of them.
//! * `bus`: the device does the events; clocks become bytes with a meaning. `expecting`: what a script expects of it.
//! * `transcript`, `waveform`, `drawing`: what happened as text, VCD and SVG.
//! * `listing`: event bytes back to a script. `words`: a device in words.
//! * `mending`: what was put right in an image, in words.
//! * `place`: where an event stands in a list. `recording`: events from a waveform of the two wires.
//! * `panel`: the lamps of the proving record beside what happened.
//! * `sharing`: two masters in turns, as text and SVG.
//! * `trimming`: what trim settings leave of an error, as text.
//! * `amount`: how much is about to be written. `nearest`: the known word that a typo may have been.
//! * `files`, `output`, `progress`, `arguments`, `failure`: the world outside. `interrupt`: what goes on Control-C.

#![deny(unsafe_code)]

mod amount;
mod arguments;
mod bus;
mod chip;
mod commands;
mod drawing;
mod expecting;
mod failure;
mod files;
#[allow(unsafe_code)]
mod interrupt;
mod listing;
mod mending;
mod nearest;
mod output;
mod panel;
mod place;
mod progress;
mod recording;
mod script;
mod sharing;
mod source;
mod transcript;
mod trimming;
mod typing;
mod waveform;
mod words;

use std::env;
use std::process::ExitCode;

fn main() -> ExitCode {
    match commands::dispatch(env::args_os().skip(1).collect()) {
        Ok(()) => ExitCode::SUCCESS,
        Err(failure) => {
            let words = failure.to_string();
            if !words.is_empty() {
                output::say_aside(&words);
            }
            ExitCode::from(failure.exit_code())
        }
    }
}
