// SPDX-License-Identifier: Apache-2.0
//! `fm3130 run`: plays a script on a device.

use std::ffi::OsString;
use std::path::{Path, PathBuf};

use fm3130::capture::{self, Capture};
use fm3130::Phase;

use super::playing::{
    open_asked, open_view, takes_output, test_amounts, test_files, title_of, told, view_beside,
    Audience, Feed,
};
use super::{run_set, waveform};
use crate::amount;
use crate::arguments::{wrong, Arguments, Options};
use crate::bus::Recorded;
use crate::chip::{Chip, Part};
use crate::drawing::Drawing;
use crate::failure::{Failure, Outcome};
use crate::files::{self, Replacement};
use crate::output::Output;
use crate::script::Cast;
use crate::source::FileSource;
use crate::words;

const OPTIONS: Options = Options {
    with_value: &[
        "--image",
        "--memory",
        "--answers",
        "--vcd",
        "--svg",
        "--capture",
        "--events",
        "--from-vcd",
        "--scl",
        "--sda",
        "--part",
    ],
    alone: &["--quiet", "--next-line", amount::OPTION],
};

/// Plays a script or an event file.
pub fn command(words: Vec<OsString>) -> Outcome {
    let arguments = Arguments::sort(words, &OPTIONS)?;
    arguments.at_most(1)?;
    let script = arguments.plain.first().map(PathBuf::from);
    if let Some(members) = arguments.set()? {
        return run_set::command(&arguments, script, &members);
    }
    let part = arguments.part()?;
    let view: Vec<_> = view_beside(&arguments)?.into_iter().collect();
    test_files(&arguments, script.as_deref(), &view)?;
    test_capture(&arguments, part)?;
    waveform::test_names(&arguments)?;
    let is_quiet = arguments.has("--quiet");
    let mut output = Output::beside_file(takes_output(&arguments));
    let (mut device, mut feed, title) = begin(&arguments, script, part, &mut output)?;
    test_length(&arguments, &feed)?;
    let begin = device.clone();
    let mut targets = Targets::open(&arguments, part)?;
    if !is_quiet {
        say_where_it_begins(&device, &mut output)?;
    }
    let transcript = (!is_quiet).then_some(&mut output);
    play_to(&mut device, &mut feed, &mut targets, transcript, &title)?;
    say_how_it_ends(&arguments, &device, &mut output)?;
    output.finish()?;
    targets.commit(&begin, &device)
}

/// The device, what is played on it, and the name of that. A waveform is read by where the device stands, so there
/// the device comes first; of a script what is wrong is found first.
fn begin(
    arguments: &Arguments,
    script: Option<PathBuf>,
    part: Part,
    output: &mut Output,
) -> Outcome<(Chip, Feed, String)> {
    let is_quiet = arguments.has("--quiet");
    if let Some(path) = arguments.path("--from-vcd") {
        let device = load_device(arguments, part, is_quiet, output)?;
        let (feed, title) = recorded_feed(arguments, script, &path, &device)?;
        test_amounts(arguments, &feed)?;
        return Ok((device, feed, title));
    }
    let events = arguments.path("--events");
    let open = |path: &Path| FileSource::open(path, part);
    let (feed, title) = Feed::open(script, events, Cast::One(part), open)?;
    test_amounts(arguments, &feed)?;
    let device = load_device(arguments, part, is_quiet, output)?;
    Ok((device, feed, title))
}

/// The events of a waveform, which is of an FM3130, and the waveform's name.
fn recorded_feed(
    arguments: &Arguments,
    script: Option<PathBuf>,
    path: &Path,
    device: &Chip,
) -> Outcome<(Feed, String)> {
    if script.is_some() || arguments.path("--events").is_some() {
        return Err(wrong(
            "run takes a SCRIPT, --events or --from-vcd, one of them",
        ));
    }
    let Chip::Fm3130(device) = device else {
        return Err(wrong("--from-vcd is for the FM3130 alone"));
    };
    let names = waveform::wire_names(arguments);
    let steps = waveform::steps_of(path, &names, &device.state())?;
    Ok((Feed::of_steps(steps), title_of(path)))
}

/// Refuses a capture of a part that captures know nothing of.
fn test_capture(arguments: &Arguments, part: Part) -> Outcome {
    match arguments.path("--capture") {
        Some(_) if part != Part::Fm3130 => Err(wrong(format!(
            "--capture is for the FM3130 alone: a capture holds no {part}"
        ))),
        _ => Ok(()),
    }
}

/// Refuses a run that is too long for a capture, before anything is done.
fn test_length(arguments: &Arguments, feed: &Feed) -> Outcome {
    let total = feed.tally().events();
    if arguments.path("--capture").is_some() && total > capture::MOST_EVENTS as u64 {
        return Err(too_long(total));
    }
    Ok(())
}

/// A run of so many events is too long for a capture.
fn too_long(total: u64) -> Failure {
    let most = capture::MOST_EVENTS;
    Failure::Script(format!(
        "{total} events are too many for --capture, which holds {most}"
    ))
}

/// The device that the files hold, or a fresh one where there are none.
pub(super) fn load_device(
    arguments: &Arguments,
    part: Part,
    is_quiet: bool,
    output: &mut Output,
) -> Outcome<Chip> {
    let fresh = Chip::fresh(part);
    let mut image = fresh.image().to_vec();
    let mut memory = fresh.memory().to_vec();
    if let Some(path) = arguments.path("--image") {
        files::must_hold_one(&path, part)?;
        image = told(files::load_image(&path, part)?, &path, is_quiet, output)?;
    }
    if let Some(path) = arguments.path("--memory") {
        files::must_hold_one(&path, part)?;
        memory = told(files::load_memory(&path, part)?, &path, is_quiet, output)?;
    }
    Chip::from_parts(part, &image, &memory).map_err(|refusal| Failure::Refused(refusal.to_string()))
}

/// A run that begins inside a transfer says so.
fn say_where_it_begins(device: &Chip, output: &mut Output) -> Outcome {
    let state = device.state();
    match state.phase {
        Phase::Idle => Ok(()),
        _ => output.line(&format!("begins inside: {}", words::bus(&state))),
    }
}

/// The device in words, and what it will do to the line, where these are wanted.
fn say_how_it_ends(arguments: &Arguments, device: &Chip, output: &mut Output) -> Outcome {
    if !arguments.has("--quiet") {
        output.line("")?;
        for line in words::of_device(device) {
            output.line(&line)?;
        }
    }
    if arguments.has("--next-line") {
        let line = device
            .next_line()
            .map_err(|refusal| Failure::Refused(refusal.to_string()))?;
        for line in words::of_next_line(line) {
            output.line(&line)?;
        }
    }
    Ok(())
}

/// Plays what a feed gives to all who want to see it.
fn play_to(
    device: &mut Chip,
    feed: &mut Feed,
    targets: &mut Targets,
    output: Option<&mut Output>,
    title: &str,
) -> Outcome {
    let state = device.state();
    let svg = targets.svg.as_mut();
    let audience = Audience {
        output,
        drawing: svg.map(|file| Drawing::new(file, title, &state, None)),
        vcd: targets.vcd.as_mut(),
        answers: targets.answers.as_mut(),
        recording: targets.capture.as_ref().map(|_| &mut targets.recorded),
    };
    audience.see(device, &state, feed)
}

/// The files that a run writes. All are opened before the run and put in place after it.
struct Targets {
    image: Option<Replacement>,
    memory: Option<Replacement>,
    answers: Option<Replacement>,
    vcd: Option<Replacement>,
    /// Beside the waveform.
    view: Option<Replacement>,
    svg: Option<Replacement>,
    capture: Option<Replacement>,
    /// What goes into the capture.
    recorded: Recorded,
}

impl Targets {
    fn open(arguments: &Arguments, part: Part) -> Outcome<Targets> {
        let open = |option| open_asked(arguments, option);
        Ok(Targets {
            image: open("--image")?,
            memory: open("--memory")?,
            answers: open("--answers")?,
            vcd: open("--vcd")?,
            view: open_view(arguments, part)?,
            svg: open("--svg")?,
            capture: open("--capture")?,
            recorded: Recorded::default(),
        })
    }

    /// Writes the device and the capture of a run that began with another, and puts every file in
    /// its place.
    fn commit(mut self, begin: &Chip, device: &Chip) -> Outcome {
        if let Some(file) = &mut self.image {
            file.write(device.image())?;
        }
        if let Some(file) = &mut self.memory {
            file.write(device.memory())?;
        }
        if let Some(file) = &mut self.capture {
            file.write(&capture_of(begin, &self.recorded)?)?;
        }
        let all = [
            self.image,
            self.memory,
            self.answers,
            self.vcd,
            self.view,
            self.svg,
            self.capture,
        ];
        files::commit_all(all.into_iter().flatten().collect())
    }
}

/// The capture of a run that began with a device.
fn capture_of(begin: &Chip, recorded: &Recorded) -> Outcome<Vec<u8>> {
    let capture = Capture {
        image: begin.image(),
        memory: begin.memory(),
        events: &recorded.events,
        answers: &recorded.answers,
    };
    let total = recorded.events.len() as u64;
    capture.to_file().ok_or_else(|| too_long(total))
}

#[cfg(test)]
mod tests {
    use super::*;

    #[test]
    fn a_capture_that_is_too_long_is_no_empty_file() {
        let of = |events| {
            let recorded = Recorded {
                events: vec![fm3130::event::TICK; events],
                answers: vec![5; events],
            };
            capture_of(&Chip::fresh(Part::Fm3130), &recorded)
        };
        assert_eq!(of(1).unwrap().len(), capture::TABLE_BYTES + 64 + 8192 + 2);
        assert!(of(capture::MOST_EVENTS).is_ok());
        let refused = of(capture::MOST_EVENTS + 1).unwrap_err().to_string();
        assert!(refused.contains("too many for --capture"), "{refused}");
    }
}
