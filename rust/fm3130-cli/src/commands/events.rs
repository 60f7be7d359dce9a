// SPDX-License-Identifier: Apache-2.0
//! `fm3130 events`: scripts to event bytes, and back.

use std::ffi::OsString;
use std::path::{Path, PathBuf};

use fm3130::family::{Member, Set};
use fm3130::Device;

use super::waveform;
use crate::amount::{self, Amount};
use crate::arguments::{wrong, Arguments, Options};
use crate::chip::Part;
use crate::failure::Outcome;
use crate::files::{self, NamedFile, Replacement};
use crate::listing::Listing;
use crate::output::Output;
use crate::progress::Progress;
use crate::script::Cast;
use crate::source::{FileSource, PlanSource, Source};

const OPTIONS: Options = Options {
    with_value: &["-o", "--list", "--from-vcd", "--scl", "--sda", "--part"],
    alone: &[amount::OPTION],
};

/// Event bytes on a line of text.
const BYTES_OF_A_LINE: usize = 24;

/// What an event takes as text: two digits, and what stands between it and the next.
const BYTES_AS_TEXT: u64 = 3;

/// Writes the events of a script, or the script of some events.
pub fn command(words: Vec<OsString>) -> Outcome {
    let arguments = Arguments::sort(words, &OPTIONS)?;
    arguments.at_most(1)?;
    let script = arguments.plain.first().map(PathBuf::from);
    let target = arguments.path("-o");
    let is_large = arguments.has(amount::OPTION);
    let cast = cast_of(&arguments)?;
    waveform::test_names(&arguments)?;
    if let Some(path) = arguments.path("--from-vcd") {
        return recorded(&arguments, script.is_some(), &path, &cast);
    }
    match (script, arguments.path("--list")) {
        (Some(_), Some(_)) => Err(wrong("events takes a SCRIPT or --list, not both")),
        (None, None) => Err(wrong("events needs a SCRIPT or --list FILE")),
        (None, Some(_)) if target.is_some() => Err(wrong("--list prints; it takes no -o")),
        (None, Some(path)) => match cast {
            Cast::One(part) => list(FileSource::open(&path, part)?, is_large),
            Cast::Set(_) => Err(wrong("--list knows no sets")),
        },
        (Some(path), None) => {
            if let Some(target) = target.as_ref().filter(|_| !files::is_input(&path)) {
                let named = |option, path| NamedFile { option, path };
                files::must_differ(&[named("SCRIPT", &path), named("-o", target)])?;
            }
            give(source_of(&cast, &path)?, target, is_large)
        }
    }
}

/// Writes or prints the events of a waveform, of a device that was fresh before it.
fn recorded(arguments: &Arguments, has_script: bool, path: &Path, cast: &Cast) -> Outcome {
    if has_script || arguments.path("--list").is_some() {
        return Err(wrong(
            "events takes a SCRIPT, --list or --from-vcd, one of them",
        ));
    }
    let Cast::One(Part::Fm3130) = cast else {
        return Err(wrong("--from-vcd is for the FM3130 alone"));
    };
    let target = arguments.path("-o");
    if let Some(target) = target.as_ref().filter(|_| !files::is_input(path)) {
        let named = |option, path| NamedFile { option, path };
        files::must_differ(&[named("--from-vcd", path), named("-o", target)])?;
    }
    let names = waveform::wire_names(arguments);
    let steps = waveform::steps_of(path, &names, &Device::fresh().state())?;
    give(
        PlanSource::new(steps),
        target,
        arguments.has(amount::OPTION),
    )
}

/// Gives the events of a source to a file, or prints them.
fn give(source: impl Source, target: Option<PathBuf>, is_large: bool) -> Outcome {
    match target {
        Some(target) => write(source, &target, is_large),
        None => print(source, is_large),
    }
}

/// What the events are for: one part, or a set of devices.
fn cast_of(arguments: &Arguments) -> Outcome<Cast> {
    let Some(members) = arguments.set()? else {
        return Ok(Cast::One(arguments.part()?));
    };
    let fresh = members
        .iter()
        .map(|(size, select)| Member::fresh(*size, *select));
    match Set::new(fresh) {
        Ok(_) => Ok(Cast::Set(
            members.into_iter().map(|(_, select)| select).collect(),
        )),
        Err(refusal) => Err(wrong(format!("no set: {refusal}"))),
    }
}

/// The events of a script.
fn source_of(cast: &Cast, path: &Path) -> Outcome<PlanSource> {
    Ok(PlanSource::new(cast.load(path)?.plan.steps))
}

/// Gives a source's chunks to someone, and shows how far it is.
fn for_each_chunk(source: &mut dyn Source, mut take: impl FnMut(&[u8]) -> Outcome) -> Outcome {
    let mut progress = Progress::of(source.total());
    let mut chunk = Vec::new();
    loop {
        source.fill(&mut chunk)?;
        if chunk.is_empty() {
            progress.clear();
            return Ok(());
        }
        take(&chunk)?;
        progress.advance(chunk.len() as u64);
    }
}

/// Writes the events of a source to a file.
fn write(mut source: impl Source, target: &Path, is_large: bool) -> Outcome {
    let name = files::name_of_written(target);
    amount::test(&[Amount::exactly(name, source.total())], is_large)?;
    let mut file = Replacement::open(target)?;
    for_each_chunk(&mut source, |chunk| file.write(chunk))?;
    files::commit_all(vec![file])
}

/// Prints the events of a source as text.
fn print(mut source: impl Source, is_large: bool) -> Outcome {
    let bytes = source.total().saturating_mul(BYTES_AS_TEXT);
    amount::test(&[Amount::exactly("standard output", bytes)], is_large)?;
    let mut output = Output::new();
    let mut column = 0;
    for_each_chunk(&mut source, |chunk| {
        for event in chunk {
            let gap = match column {
                0 => "",
                BYTES_OF_A_LINE => "\n",
                _ => " ",
            };
            column = column % BYTES_OF_A_LINE + 1;
            output.text(&format!("{gap}{event:02X}"))?;
        }
        Ok(())
    })?;
    if column > 0 {
        output.line("")?;
    }
    output.finish()
}

/// Prints the script that some events come from.
fn list(mut source: FileSource, is_large: bool) -> Outcome {
    let bytes = source.tally().words();
    amount::test(&[Amount::about("standard output", bytes)], is_large)?;
    let mut output = Output::new();
    let mut listing = Listing::new();
    for_each_chunk(&mut source, |chunk| {
        for event in chunk {
            for line in listing.take(*event) {
                output.line(&line)?;
            }
        }
        Ok(())
    })?;
    for line in listing.finish() {
        output.line(&line)?;
    }
    output.finish()
}
