// SPDX-License-Identifier: Apache-2.0
//! What the commands that read a waveform of the wires have in common.

use std::fs::File;
use std::io::{self, BufRead, BufReader};
use std::path::Path;

use fm3130::{event, State};

use crate::arguments::{wrong, Arguments};
use crate::failure::{Failure, Outcome};
use crate::files;
use crate::recording::{Recording, SESSION_BEGIN};
use crate::script::Step;

/// The events of a piece that are read at a time.
const PIECE: usize = 65_536;

/// The names of the clock's wire and of the data's.
pub fn wire_names(arguments: &Arguments) -> [String; 2] {
    [("--scl", "SCL"), ("--sda", "SDA")].map(|(option, otherwise)| {
        let given = arguments.path(option);
        given.map_or(otherwise.to_string(), |name| {
            name.to_string_lossy().into_owned()
        })
    })
}

/// Refuses names of wires where there is no waveform.
pub fn test_names(arguments: &Arguments) -> Outcome {
    let names = ["--scl", "--sda"];
    match names.iter().find(|option| arguments.path(option).is_some()) {
        Some(option) if arguments.path("--from-vcd").is_none() => {
            Err(wrong(format!("{option} goes with --from-vcd")))
        }
        _ => Ok(()),
    }
}

/// Opens a waveform file; `-` is standard input. A session file of sigrok is met with what makes a waveform of it.
pub fn open(path: &Path) -> Outcome<Box<dyn BufRead>> {
    let mut input: Box<dyn BufRead> = match files::is_input(path) {
        true => Box::new(BufReader::new(io::stdin())),
        false => {
            let file = File::open(path).map_err(|error| Failure::of_file(path, &error))?;
            Box::new(BufReader::with_capacity(1 << 16, file))
        }
    };
    let begin = input
        .fill_buf()
        .map_err(|error| Failure::of_file(path, &error))?;
    if begin.starts_with(&SESSION_BEGIN) {
        let name = files::name_of(path);
        return Err(failure(
            path,
            &format!("it is a session of sigrok; make a waveform of it: sigrok-cli -i {name} -O vcd -o {name}.vcd"),
        ));
    }
    Ok(input)
}

/// What is wrong with a waveform.
pub fn failure(path: &Path, words: &str) -> Failure {
    Failure::Script(format!("{}: {words}", files::name_of(path)))
}

/// The steps of a waveform, for a device that is in a state before it; it must name the part. Ticks one after the other
/// are one step, so that a long sleep is short.
pub fn steps_of(path: &Path, names: &[String; 2], state: &State) -> Outcome<Vec<Step>> {
    let of_waveform = |words: String| failure(path, &words);
    let mut recording = Recording::open(open(path)?, names, state).map_err(of_waveform)?;
    let mut steps = Vec::new();
    loop {
        let piece = recording.piece(PIECE).map_err(of_waveform)?;
        if piece.is_empty() {
            break;
        }
        piece.iter().for_each(|seen| add(&mut steps, seen.event));
    }
    recording.finish().map_err(of_waveform)?;
    Ok(steps)
}

/// Adds an event to the last step, or begins one: of ticks, or of other events.
fn add(steps: &mut Vec<Step>, event: u8) {
    let is_tick = event == event::TICK;
    match steps.last_mut() {
        Some(step) if is_tick && step.events == [event::TICK] => step.times += 1,
        Some(step) if !is_tick && step.events != [event::TICK] => step.events.push(event),
        _ => steps.push(Step {
            events: vec![event],
            times: 1,
        }),
    }
}
