// SPDX-License-Identifier: Apache-2.0
//! `fm3130 lamps`: plays a script with the proving record, and shows the eight lamps.

use std::ffi::OsString;
use std::path::{Path, PathBuf};

use fm3130::Lamps;

use super::playing::title_of;
use crate::amount::{self, Amount};
use crate::arguments::{wrong, Arguments, Options};
use crate::bus::{self, Grouping, Listener, Outputs};
use crate::chip::{Chip, Part};
use crate::drawing::Drawing;
use crate::expecting::Holding;
use crate::failure::Outcome;
use crate::files::{self, NamedFile, Replacement};
use crate::output::Output;
use crate::panel::Panel;
use crate::script::{Cast, Script};
use crate::source::PlanSource;

const OPTIONS: Options = Options {
    with_value: &["--svg"],
    alone: &[amount::OPTION],
};

/// Plays a script on a fresh device, with the record before any event.
pub fn command(words: Vec<OsString>) -> Outcome {
    let arguments = Arguments::sort(words, &OPTIONS)?;
    arguments.at_most(1)?;
    let Some(path) = arguments.plain.first().map(PathBuf::from) else {
        return Err(wrong("lamps needs a SCRIPT"));
    };
    let svg = arguments.path("--svg");
    test_files(&path, svg.as_deref())?;
    let script = Cast::One(Part::Fm3130).load(&path)?;
    let words = Amount::about("standard output", script.plan.tally().words());
    amount::test(&[words], arguments.has(amount::OPTION))?;
    let output = Output::beside_file(svg.as_deref().is_some_and(files::is_output));
    let mut drawing = svg.map(|path| Replacement::open(&path)).transpose()?;
    play(script, drawing.as_mut(), &title_of(&path), output)?;
    files::commit_all(drawing.into_iter().collect())
}

/// Refuses a drawing that would be written over the script.
fn test_files(script: &Path, svg: Option<&Path>) -> Outcome {
    let script = Some(script).filter(|path| !files::is_input(path));
    let named = [("SCRIPT", script), ("--svg", svg)];
    let named: Vec<NamedFile> = named
        .into_iter()
        .filter_map(|(option, path)| path.map(|path| NamedFile { option, path }))
        .collect();
    files::must_differ(&named)
}

/// Plays a script to the terminal, and to a drawing if there is one.
fn play(
    mut script: Script,
    file: Option<&mut Replacement>,
    title: &str,
    mut output: Output,
) -> Outcome {
    let mut source = PlanSource::new(std::mem::take(&mut script.plan.steps));
    let (mut device, mut lamps) = (Chip::fresh(Part::Fm3130), Lamps::begun());
    let (state, dark) = (device.state(), lamps.report());
    let mut panel = Panel::begin(&mut output, dark)?;
    let mut drawing = file.map(|file| Drawing::new(file, title, &state, Some(dark)));
    let mut listeners: Vec<&mut dyn Listener> = vec![&mut panel];
    listeners.extend(drawing.as_mut().map(|one| one as &mut dyn Listener));
    let mut grouping = Grouping::new(listeners, &state, Some(dark));
    let mut holding = Holding::new(&script.plan.expectations, state.pin());
    let mut outputs = Outputs {
        observers: vec![&mut grouping, &mut holding],
        prints: true,
        answers: None,
        recording: None,
        lamps: Some(&mut lamps),
    };
    bus::play(&mut device, &mut source, &mut outputs)?;
    let held = holding.into_held();
    output.finish()?;
    held.into_outcome(&script)
}
