// SPDX-License-Identifier: Apache-2.0
//! What the commands that play a script have in common: what they test first, where events come from, who sees them.

use std::path::{Path, PathBuf};

use crate::amount::{self, Amount, Tally};
use crate::arguments::{wrong, Arguments};
use crate::bus::{self, Grouping, Listener, Observer, Outputs, Player, Recorded};
use crate::chip::{Part, State};
use crate::drawing::Drawing;
use crate::expecting::{self, Held, Holding};
use crate::failure::Outcome;
use crate::files::{self, Loaded, NamedFile, Replacement};
use crate::output::{say_aside, Output};
use crate::script::{Cast, Script, Step};
use crate::source::{FileSource, PlanSource, Source};
use crate::transcript::Transcript;
use crate::typing::Typed;
use crate::waveform::{self, Waveform};

/// Options that name files, with the script first.
const FILES: [&str; 8] = [
    "--events",
    "--from-vcd",
    "--image",
    "--memory",
    "--answers",
    "--vcd",
    "--svg",
    "--capture",
];

/// Refuses a run that would write more than it was asked for, before anything is done.
pub(super) fn test_amounts(arguments: &Arguments, feed: &Feed) -> Outcome {
    let tally = feed.tally();
    let name = |option| {
        let path = arguments.path(option);
        path.map(|path| files::name_of_written(&path))
    };
    let answers = name("--answers").map(|name| Amount::exactly(name, tally.events()));
    let waveform = name("--vcd").map(|name| Amount::about(name, tally.waveform()));
    let words =
        (!arguments.has("--quiet")).then(|| Amount::about("standard output", tally.words()));
    let amounts: Vec<Amount> = [answers, waveform, words].into_iter().flatten().collect();
    amount::test(&amounts, arguments.has(amount::OPTION))
}

/// Options whose files are written and not read, so that one of them may be standard output.
const WRITTEN: [&str; 4] = ["--answers", "--vcd", "--svg", "--capture"];

/// Whether a file is written to standard output, so that words go elsewhere.
pub(super) fn takes_output(arguments: &Arguments) -> bool {
    let named = |option: &&str| arguments.path(option);
    let mut paths = WRITTEN.iter().filter_map(named);
    paths.any(|path| files::is_output(&path))
}

/// Refuses a command line in which two words name one file. Plans are files that no word names.
pub(super) fn test_files(
    arguments: &Arguments,
    script: Option<&Path>,
    plans: &[(&'static str, PathBuf)],
) -> Outcome {
    for option in ["--image", "--memory", "--events"] {
        if arguments
            .path(option)
            .is_some_and(|path| files::is_output(&path))
        {
            return Err(wrong(format!(
                "{option} takes the name of a file, and no -"
            )));
        }
    }
    let paths: Vec<(&str, PathBuf)> = FILES
        .into_iter()
        .filter_map(|option| Some((option, arguments.path(option)?)))
        .collect();
    let mut named: Vec<NamedFile> = script
        .into_iter()
        .filter(|path| !files::is_input(path))
        .map(|path| NamedFile {
            option: "SCRIPT",
            path,
        })
        .collect();
    let all = paths.iter().chain(plans);
    named.extend(all.map(|(option, path)| NamedFile { option, path }));
    files::must_differ(&named)
}

/// Events that are played together, and the script that they come from, which may expect something.
pub struct Piece {
    /// The events.
    pub source: Box<dyn Source>,
    /// The script without its steps; empty for an event file.
    pub script: Script,
}

impl Piece {
    /// A whole script.
    pub fn of(mut script: Script) -> Piece {
        let steps = std::mem::take(&mut script.plan.steps);
        Piece {
            source: Box::new(PlanSource::new(steps)),
            script,
        }
    }
}

/// Where the events of a run come from.
pub(super) enum Feed {
    /// A script or an event file, until it is taken.
    Whole(Option<Piece>),
    /// A script that somebody types, played line by line.
    Typed(Typed),
}

impl Feed {
    /// A script, by who plays it, or an event file, by what opens it; and its name.
    pub fn open(
        script: Option<PathBuf>,
        events: Option<PathBuf>,
        cast: Cast,
        open: impl Fn(&Path) -> Outcome<FileSource>,
    ) -> Outcome<(Feed, String)> {
        let whole = |piece| Feed::Whole(Some(piece));
        match (script, events) {
            (Some(path), None) if files::is_input(&path) && Typed::is_possible() => {
                Ok((Feed::Typed(Typed::new(cast)), title_of(&path)))
            }
            (Some(path), None) => Ok((whole(Piece::of(cast.load(&path)?)), title_of(&path))),
            (None, Some(path)) => {
                let source = Box::new(open(&path)?);
                let script = Script::default();
                Ok((whole(Piece { source, script }), title_of(&path)))
            }
            (Some(_), Some(_)) => Err(wrong("run takes a SCRIPT or --events, not both")),
            (None, None) => Err(wrong("run needs a SCRIPT")),
        }
    }

    /// Steps that come from no script.
    pub fn of_steps(steps: Vec<Step>) -> Feed {
        Feed::Whole(Some(Piece {
            source: Box::new(PlanSource::new(steps)),
            script: Script::default(),
        }))
    }

    /// How many events there are, as far as that is known.
    pub fn tally(&self) -> Tally {
        match self {
            Feed::Whole(Some(piece)) => piece.source.tally(),
            _ => Tally::default(),
        }
    }

    /// What is played next; nothing at the end.
    fn next(&mut self) -> Outcome<Option<Piece>> {
        match self {
            Feed::Whole(piece) => Ok(piece.take()),
            Feed::Typed(typed) => Ok(typed.next()?.map(Piece::of)),
        }
    }

    fn is_typed(&self) -> bool {
        matches!(self, Feed::Typed(_))
    }
}

/// A file's name without its folder, for the head of a drawing.
pub(super) fn title_of(path: &Path) -> String {
    match path.file_name() {
        Some(name) if !files::is_input(path) => name.to_string_lossy().into_owned(),
        _ => "standard input".to_string(),
    }
}

/// The bytes of a part; says so if no file gave them.
pub(super) fn told(
    loaded: Loaded,
    path: &Path,
    is_quiet: bool,
    output: &mut Output,
) -> Outcome<Vec<u8>> {
    if loaded.is_fresh && !is_quiet {
        output.line(&format!("{}: new, begins fresh", path.display()))?;
    }
    Ok(loaded.bytes)
}

/// The file that an option names, to be replaced; nothing without the option.
pub(super) fn open_asked(arguments: &Arguments, option: &str) -> Outcome<Option<Replacement>> {
    let path = arguments.path(option);
    path.map(|path| Replacement::open(&path)).transpose()
}

/// What the view beside a waveform is called where two files are one.
const VIEW: &str = "the view of --vcd";

/// The view beside the waveform that is asked for, as GTKWave opens it. A view that somebody else made stays.
pub(super) fn view_beside(arguments: &Arguments) -> Outcome<Option<(&'static str, PathBuf)>> {
    let Some(path) = arguments.path("--vcd") else {
        return Ok(None);
    };
    let is_special = path.exists() && !path.is_file();
    if files::is_output(&path) || is_special {
        return Ok(None);
    }
    let view = path.with_extension("gtkw");
    let is_ours = !view.exists() || files::begins_with(&view, waveform::VIEW_BEGIN)?;
    Ok(is_ours.then_some((VIEW, view)))
}

/// The same as a file that is to be put in its place.
pub(super) fn open_view(arguments: &Arguments, part: Part) -> Outcome<Option<Replacement>> {
    let (Some((_, view)), Some(path)) = (view_beside(arguments)?, arguments.path("--vcd")) else {
        return Ok(None);
    };
    let mut file = Replacement::open(&view)?;
    file.write(waveform::view_of(&title_of(&path), part).as_bytes())?;
    Ok(Some(file))
}

/// All who want to see a run.
pub(super) struct Audience<'run> {
    /// Where the transcript is printed.
    pub output: Option<&'run mut Output>,
    /// The drawing.
    pub drawing: Option<Drawing<'run>>,
    /// The file for the waveform.
    pub vcd: Option<&'run mut Replacement>,
    /// The file for the answer bytes.
    pub answers: Option<&'run mut Replacement>,
    /// What is kept of all events.
    pub recording: Option<&'run mut Recorded>,
}

impl Audience<'_> {
    /// Plays all that a feed gives, from a first state on. Expectations that are not met are a failure at the end;
    /// whoever types is told at once, and goes on.
    pub fn see(mut self, player: &mut dyn Player, first: &State, feed: &mut Feed) -> Outcome {
        let prints = self.output.is_some();
        let mut transcript = self.output.map(Transcript::new);
        let mut listeners: Vec<&mut dyn Listener> = Vec::new();
        listeners.extend(transcript.as_mut().map(|one| one as &mut dyn Listener));
        listeners.extend(self.drawing.as_mut().map(|one| one as &mut dyn Listener));
        let is_heard = !listeners.is_empty();
        let mut grouping = Grouping::new(listeners, first, None);
        let waveform = self.vcd.map(|file| Waveform::begin(file, first));
        let mut waveform = waveform.transpose()?;
        let (mut pin, mut outcome) = (first.pin(), Ok(()));
        while let Some(mut piece) = feed.next()? {
            let mut holding = Holding::new(&piece.script.plan.expectations, pin);
            let mut observers: Vec<&mut dyn Observer> = Vec::new();
            if is_heard {
                observers.push(&mut grouping);
            }
            observers.extend(waveform.as_mut().map(|one| one as &mut dyn Observer));
            if feed.is_typed() || holding.expects() {
                observers.push(&mut holding);
            }
            let mut outputs = Outputs {
                observers,
                prints,
                answers: self.answers.as_deref_mut(),
                recording: self.recording.as_deref_mut(),
                lamps: None,
            };
            bus::play_some(player, &mut *piece.source, &mut outputs)?;
            let held = holding.into_held();
            pin = held.pin;
            match feed {
                Feed::Typed(_) => say_typed(&mut grouping, &held, &piece.script)?,
                Feed::Whole(_) => outcome = held.into_outcome(&piece.script),
            }
        }
        grouping.finish()?;
        waveform.map_or(Ok(()), |mut one| one.finish())?;
        outcome
    }
}

/// Tells whoever types what a line did, and what of it did not come about.
fn say_typed(grouping: &mut Grouping, held: &Held, script: &Script) -> Outcome {
    grouping.pause()?;
    let shown = expecting::shown_in(&held.unmet, script);
    shown.iter().for_each(|words| say_aside(words));
    Ok(())
}
