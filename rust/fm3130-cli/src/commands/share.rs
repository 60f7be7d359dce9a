// SPDX-License-Identifier: Apache-2.0
//! `fm3130 share`: two masters play a script on one device.

use std::ffi::OsString;
use std::path::{Path, PathBuf};

use fm3130::Device;

use crate::amount::{self, Amount};
use crate::arguments::{wrong, Arguments, Options};
use crate::failure::Outcome;
use crate::files::{self, NamedFile, Replacement};
use crate::output::Output;
use crate::script::{Plan, Turn};
use crate::{expecting, script, sharing};

const OPTIONS: Options = Options {
    with_value: &["--svg"],
    alone: &["--quiet", amount::OPTION],
};

/// Plays a script of two masters on a fresh device.
pub fn command(words: Vec<OsString>) -> Outcome {
    let arguments = Arguments::sort(words, &OPTIONS)?;
    arguments.at_most(1)?;
    let Some(path) = arguments.plain.first().map(PathBuf::from) else {
        return Err(wrong("share needs a SCRIPT"));
    };
    let svg = arguments.path("--svg");
    if let Some(svg) = &svg {
        must_differ(&path, svg)?;
    }
    let (turns, script) = script::load_turns(&path)?;
    sharing::test_lengths(&turns)?;
    test_amount(&arguments, &turns)?;
    let mut output = Output::beside_file(svg.as_deref().is_some_and(files::is_output));
    let mut picture = svg.map(|path| Replacement::open(&path)).transpose()?;
    let listens = (!arguments.has("--quiet")).then_some(&mut output);
    let mut unmet = Vec::new();
    let played = sharing::play(Device::fresh(), &turns, listens, &mut unmet)?;
    output.finish()?;
    expecting::outcome_of(&unmet, &script)?;
    if let Some(file) = &mut picture {
        let title = path
            .file_name()
            .map_or("standard input".into(), |name| name.to_string_lossy());
        file.write(sharing::picture_of(&title, &played).as_bytes())?;
    }
    files::commit_all(picture.into_iter().collect())
}

/// Refuses turns of which more would be printed than was asked for, before the first is played.
fn test_amount(arguments: &Arguments, turns: &[Turn]) -> Outcome {
    if arguments.has("--quiet") {
        return Ok(());
    }
    let words = turns
        .iter()
        .map(|turn| Plan::of(&turn.items).tally().words());
    let amount = Amount::about("standard output", words.fold(0, u64::saturating_add));
    amount::test(&[amount], arguments.has(amount::OPTION))
}

/// Refuses a command line in which script and picture are one file.
fn must_differ(script: &Path, svg: &Path) -> Outcome {
    if files::is_input(script) {
        return Ok(());
    }
    let named = |option, path| NamedFile { option, path };
    files::must_differ(&[named("SCRIPT", script), named("--svg", svg)])
}
