// SPDX-License-Identifier: Apache-2.0
//! `fm3130 judge`: the verdict on a capture, or on a waveform of the two wires.

use std::ffi::OsString;
use std::io::BufRead;
use std::path::{Path, PathBuf};

use fm3130::capture::{self, Capture, Entry, Fault, Verdict};
use fm3130::{Answer, Device};

use super::waveform;
use crate::arguments::{wrong, Arguments, Options};
use crate::bus::{self, Grouping, Listener, Observer, Outputs};
use crate::chip::{Chip, Part, State};
use crate::drawing::Drawing;
use crate::failure::{Failure, Outcome};
use crate::files::{self, NamedFile, Replacement};
use crate::output::{say_aside, Output};
use crate::place::{self, Place};
use crate::recording::{self, Counts, Recording, Seen};
use crate::source::ListSource;
use crate::transcript::Transcript;

const OPTIONS: Options = Options {
    with_value: &[
        "--from-vcd",
        "--image",
        "--memory",
        "--scl",
        "--sda",
        "--svg",
    ],
    alone: &["--words"],
};

/// The most events that are shown before the one that differs, and after it.
const MOST_BEFORE: usize = 120;
const MOST_AFTER: usize = 40;

/// Judges a capture or a waveform.
pub fn command(words: Vec<OsString>) -> Outcome {
    let arguments = Arguments::sort(words, &OPTIONS)?;
    arguments.at_most(1)?;
    let recorded = Recorded::named(&arguments)?;
    test_files(&arguments, recorded.path())?;
    let mut picture = Picture::asked(arguments.path("--svg"));
    let has_words = arguments.has("--words");
    let told = match &recorded {
        Recorded::Capture(path) => {
            let file = files::read_or_input(path, capture::MOST_BYTES)?;
            judge_capture(path, &file, has_words, &mut picture)
        }
        Recorded::Waveform(path) => {
            let begin = starting_device(&arguments)?;
            let names = waveform::wire_names(&arguments);
            waveform::open(path).and_then(|input| {
                judge_waveform(path, input, &begin, &names, has_words, &mut picture)
            })
        }
    };
    match told {
        // What could not be written may well be the picture.
        Err(Failure::Files(_)) => told,
        _ => picture.settle(&told).and(told),
    }
}

/// What is judged, with its file; `-` is standard input.
enum Recorded {
    Capture(PathBuf),
    Waveform(PathBuf),
}

impl Recorded {
    fn named(arguments: &Arguments) -> Outcome<Recorded> {
        let plain = arguments.plain.first().map(PathBuf::from);
        match (plain, arguments.path("--from-vcd")) {
            (Some(_), Some(_)) => Err(wrong("judge takes a FILE or --from-vcd, not both")),
            (None, None) => Err(wrong("judge needs a FILE or --from-vcd FILE")),
            (None, Some(path)) => Ok(Recorded::Waveform(path)),
            (Some(path), None) => {
                test_options(arguments)?;
                Ok(Recorded::Capture(path))
            }
        }
    }

    fn path(&self) -> &Path {
        match self {
            Recorded::Capture(path) | Recorded::Waveform(path) => path,
        }
    }
}

/// The options that go with a waveform only.
fn test_options(arguments: &Arguments) -> Outcome {
    let only = ["--image", "--memory", "--scl", "--sda"];
    match only.iter().find(|option| arguments.path(option).is_some()) {
        Some(option) => Err(wrong(format!("{option} goes with --from-vcd"))),
        None => Ok(()),
    }
}

/// Refuses a command line in which two words name one file: a picture must not take the place of what is read.
fn test_files(arguments: &Arguments, file: &Path) -> Outcome {
    let mut paths = vec![("FILE", file.to_path_buf())];
    paths.retain(|(_, path)| !files::is_input(path));
    let options = ["--image", "--memory", "--svg"].into_iter();
    paths.extend(options.filter_map(|option| Some((option, arguments.path(option)?))));
    let named: Vec<NamedFile> = paths
        .iter()
        .map(|(option, path)| NamedFile { option, path })
        .collect();
    files::must_differ(&named)
}

/// The picture that was asked for, if one was.
struct Picture {
    path: Option<PathBuf>,
    is_drawn: bool,
}

impl Picture {
    fn asked(path: Option<PathBuf>) -> Picture {
        Picture {
            path,
            is_drawn: false,
        }
    }

    /// Where words go: beside a picture on standard output.
    fn words(&self) -> Output {
        Output::beside_file(self.path.as_deref().is_some_and(files::is_output))
    }

    /// Draws the wires around an answer that differs.
    fn draw(&mut self, shown: &Shown, index: usize) -> Outcome {
        let Some(path) = &self.path else {
            return Ok(());
        };
        let mut drawn = Replacement::open(path)?;
        let title = format!(
            "Event {index}: {}. By the rules; the recording differs at the arrow.",
            shown.place
        );
        let begin = State::from(shown.device.state());
        let mut drawing = Drawing::new(&mut drawn, &title, &begin, None);
        if let Some(clock) = shown.clock {
            drawing.point_at(clock, "differs", shown.pin_before);
        }
        shown.play(&mut drawing)?;
        self.is_drawn = true;
        files::commit_all(vec![drawn])
    }

    /// Says so where nothing was drawn. An old picture is of another recording, and does not stay.
    fn settle(&self, told: &Outcome) -> Outcome {
        let Some(path) = self.path.as_ref().filter(|_| !self.is_drawn) else {
            return Ok(());
        };
        let why = match told {
            Ok(()) | Err(Failure::ReaderGone) => "no answer differs",
            Err(_) => "nothing was judged",
        };
        let removed = match files::remove(path)? {
            true => "; the one that was there is removed",
            false => "",
        };
        say_aside(&format!(
            "{}: not drawn, since {why}{removed}",
            files::name_of_written(path)
        ));
        Ok(())
    }
}

/// Judges a capture.
fn judge_capture(path: &Path, file: &[u8], has_words: bool, picture: &mut Picture) -> Outcome {
    let verdict = capture::judge(file);
    let words = format!("{}: {verdict}", files::name_of(path));
    let window = match verdict {
        Verdict::Faulty { entry } => return Err(Failure::Refused(words + &reason(file, entry))),
        Verdict::TooLong => return Err(Failure::Refused(words)),
        _ => Window::of_capture(file).ok_or(Failure::Refused(words.clone()))?,
    };
    let (end, difference) = match verdict {
        Verdict::Differs {
            place,
            recorded,
            right,
        } => (place + 1, Some((place, Answer(recorded), Answer(right)))),
        _ => (window.events.len(), None),
    };
    let mut output = picture.words();
    if has_words {
        let mut transcript = Transcript::new(&mut output);
        let mut told = Told::begin(&mut transcript, &window.device);
        told.say(&window.events[..end])?;
        told.finish()?;
    }
    if let Some(difference) = difference {
        tell_difference(&window, difference, picture, &mut output)?;
        return Err(Failure::Differs(words));
    }
    output.line(&match verdict {
        Verdict::Agree { count: 0 } => "no answers: the capture has no events".to_string(),
        verdict => verdict.to_string(),
    })?;
    output.finish()
}

/// Why an entry is faulty, in words. An image of another part is no image here, and its mark says whose it is.
fn reason(file: &[u8], entry: usize) -> String {
    let Some(fault) = Fault::of(file, entry) else {
        return String::new();
    };
    let image = Entry::at(file, entry - 1)
        .filter(|_| fault == Fault::Image)
        .and_then(|found| {
            file.get(found.offset as usize..)?
                .get(..found.length as usize)
        });
    let owner = image.and_then(|image| Part::Fm3130.other_owner(image));
    let whose = owner.map(|owner| format!("; it is the image of {owner}"));
    format!(": {fault}{}", whose.unwrap_or_default())
}

/// Judges a waveform of any length: in pieces, each a capture that begins with the device that the piece before it
/// left. A list may be cut anywhere, so the verdicts are those of the whole.
fn judge_waveform(
    path: &Path,
    input: impl BufRead,
    begin: &Device,
    names: &[String; 2],
    has_words: bool,
    picture: &mut Picture,
) -> Outcome {
    let of_waveform = |words: String| waveform::failure(path, &words);
    let mut recording = Recording::open(input, names, &begin.state()).map_err(of_waveform)?;
    let mut window = Window::before(begin.clone());
    let mut output = picture.words();
    let mut transcript = Transcript::new(&mut output);
    let mut told = Told::begin(&mut transcript, begin);
    let mut difference = None;
    while difference.is_none() {
        let piece = recording.piece(capture::MOST_EVENTS).map_err(of_waveform)?;
        if piece.is_empty() {
            break;
        }
        difference = window.take(&piece)?;
        if has_words {
            let last = difference.map_or(window.end(), |(index, ..)| index + 1);
            told.say(&window.events[window.piece - window.first..last - window.first])?;
        }
    }
    if has_words {
        told.finish()?;
    }
    if let Some(difference) = difference {
        if let Some(words) = recording.seems_swapped() {
            return Err(of_waveform(words));
        }
        tell_difference(&window, difference, picture, &mut output)?;
        return Err(differs(path, difference));
    }
    let counts = recording.finish().map_err(of_waveform)?;
    for line in agreement_of(&counts, window.pins, &recording.beside()) {
        output.line(&line)?;
    }
    output.finish()
}

/// Says that an answer of a recording differs.
fn differs(path: &Path, (place, recorded, right): Difference) -> Failure {
    let verdict = Verdict::Differs {
        place,
        recorded: recorded.0,
        right: right.0,
    };
    Failure::Differs(format!("{}: {verdict}", files::name_of(path)))
}

/// Tells a recording in words, as much as is given.
struct Told<'run> {
    device: Chip,
    grouping: Grouping<'run>,
}

impl<'run> Told<'run> {
    fn begin(transcript: &'run mut Transcript<'_>, device: &Device) -> Told<'run> {
        let device = Chip::from(device.clone());
        let grouping = Grouping::new(vec![transcript], &device.state(), None);
        Told { device, grouping }
    }

    fn say(&mut self, events: &[u8]) -> Outcome {
        let mut outputs = Outputs {
            observers: vec![&mut self.grouping],
            prints: true,
            answers: None,
            recording: None,
            lamps: None,
        };
        bus::play_some(&mut self.device, &mut ListSource::new(events), &mut outputs)
    }

    fn finish(&mut self) -> Outcome {
        self.grouping.finish()
    }
}

/// An answer that differs: its place in the recording, what was recorded, what is right.
type Difference = (usize, Answer, Answer);

/// The last two pieces of a recording: enough to show what is around an event of the second.
struct Window {
    /// The device before the first event.
    device: Device,
    /// Where the first event stands in the recording.
    first: usize,
    /// The place before the first event.
    place: Place,
    events: Vec<u8>,
    /// Where the second piece begins, the device before it, and the place.
    piece: usize,
    device_of_piece: Device,
    place_of_piece: Place,
    /// The device after the last event.
    after: Device,
    /// After how many events a wire showed the pin.
    pins: usize,
}

impl Window {
    /// Before the first piece.
    fn before(device: Device) -> Window {
        let place = Place::before(&device.state());
        Window {
            first: 0,
            place,
            events: Vec::new(),
            piece: 0,
            device_of_piece: device.clone(),
            place_of_piece: place,
            after: device.clone(),
            device,
            pins: 0,
        }
    }

    /// The whole of a sound capture.
    fn of_capture(file: &[u8]) -> Option<Window> {
        let capture = Capture::in_file(file)?;
        let device = Device::from_parts(capture.image, capture.memory).ok()?;
        Some(Window {
            events: capture.events.to_vec(),
            ..Window::before(device)
        })
    }

    fn end(&self) -> usize {
        self.first + self.events.len()
    }

    /// Judges the next piece, which the proved judge sees as a capture; gives the first answer that differs.
    fn take(&mut self, piece: &[Seen]) -> Outcome<Option<Difference>> {
        self.leave_first();
        let events: Vec<u8> = piece.iter().map(|one| one.event).collect();
        let (file, after, pins) = capture_of(piece, &events, &self.after)?;
        self.events.extend(&events);
        self.after = after;
        self.pins += pins;
        match capture::judge(&file) {
            Verdict::Agree { .. } => Ok(None),
            Verdict::Differs {
                place,
                recorded,
                right,
            } => Ok(Some((self.piece + place, Answer(recorded), Answer(right)))),
            // The piece was made to be sound, so this cannot be; it must not seem to agree.
            verdict => Err(Failure::Refused(verdict.to_string())),
        }
    }

    /// The piece that was last is the first, and the one before it is forgotten.
    fn leave_first(&mut self) {
        let kept = self.events.split_off(self.piece - self.first);
        let end = self.piece + kept.len();
        let mut place = self.place_of_piece;
        for (at, event) in (self.piece..).zip(&kept) {
            place.take(*event, at);
        }
        self.device = std::mem::replace(&mut self.device_of_piece, self.after.clone());
        self.place = std::mem::replace(&mut self.place_of_piece, place);
        self.first = std::mem::replace(&mut self.piece, end);
        self.events = kept;
    }
}

impl Window {
    /// The place of an event of the window.
    fn place_of(&self, index: usize) -> Option<Place> {
        let mut place = self.place;
        let events = self.events.get(..=index.checked_sub(self.first)?)?;
        for (at, event) in (self.first..).zip(events) {
            place.take(*event, at);
        }
        Some(place)
    }
}

/// A capture made of a piece of a waveform: the line is the recorded one, and the ACS pin, where no wire shows it,
/// that of the rules. Also the device after it, and after how many events a wire showed the pin.
fn capture_of(piece: &[Seen], events: &[u8], begin: &Device) -> Outcome<(Vec<u8>, Device, usize)> {
    let mut device = begin.clone();
    let mut answers = device
        .run(events)
        .map_err(|refusal| Failure::Refused(refusal.to_string()))?;
    let mut pins = 0;
    for (answer, one) in answers.iter_mut().zip(piece) {
        pins += usize::from(one.pin.is_judged(Answer(*answer).pin()));
        *answer = one.pin.in_answer(*answer) & !1 | u8::from(one.line_is_high);
    }
    let capture = Capture {
        image: begin.image(),
        memory: begin.memory(),
        events,
        answers: &answers,
    };
    let too_long = || Failure::Refused("a piece of the recording is too long".to_string());
    Ok((capture.to_file().ok_or_else(too_long)?, device, pins))
}

/// The device that a waveform begins with: fresh but for the files that are named, which must be there.
fn starting_device(arguments: &Arguments) -> Outcome<Device> {
    let fresh = Device::fresh();
    let mut image = fresh.image().to_vec();
    let mut memory = fresh.memory().to_vec();
    if let Some(path) = arguments.path("--image") {
        image = there(files::load_image(&path, Part::Fm3130)?, &path)?;
    }
    if let Some(path) = arguments.path("--memory") {
        memory = there(files::load_memory(&path, Part::Fm3130)?, &path)?;
    }
    Device::from_parts(&image, &memory).map_err(|refusal| Failure::Refused(refusal.to_string()))
}

fn there(loaded: files::Loaded, path: &Path) -> Outcome<Vec<u8>> {
    match loaded.is_fresh {
        true => Err(Failure::Files(format!("{}: no such file", path.display()))),
        false => Ok(loaded.bytes),
    }
}

/// How many Clocks the part has answered as the rules do, and how many were not its own to answer.
fn agreement_of(counts: &Counts, pins: usize, beside: &[&str]) -> Vec<String> {
    let named = match counts.named {
        0 => "in a transaction that was under way".to_string(),
        1 => "1 slave byte names it".to_string(),
        named => format!("{named} slave bytes name it"),
    };
    let mut lines = vec![format!(
        "all agree: {} answers of the part, in {} events; {named}",
        counts.answers, counts.events
    )];
    if pins > 0 {
        lines.push(format!("the ACS pin agrees after {pins} events"));
    }
    if !beside.is_empty() {
        lines.push(format!("also taken from wires: {}", beside.join(", ")));
    }
    for (count, words) in [
        (counts.anybody, "outside any transfer"),
        (counts.others, "not for the part"),
    ] {
        if count > 0 {
            lines.push(format!("not judged: {} {words}", recording::clocks(count)));
        }
    }
    lines
}

/// The event, its place, what differs, and what the rules say happened around it.
fn tell_difference(
    window: &Window,
    (index, recorded, right): Difference,
    picture: &mut Picture,
    output: &mut Output,
) -> Outcome {
    let Some(shown) = Shown::around(window, index) else {
        return Ok(());
    };
    // First, so that a reader who goes away does not matter to it.
    picture.draw(&shown, index)?;
    let name = format!("Event {index}");
    let words = place::event_words(shown.place.event);
    output.line(&format!("{name:<10} {words}"))?;
    output.line(&format!("{:<10} {}", "Place", shown.place))?;
    for line in differences(recorded, right) {
        output.line(&line)?;
    }
    output.line("")?;
    output.line("By the rules, around it:")?;
    shown.play(&mut Transcript::new(output))?;
    output.finish()
}

/// What differs between two answers, a line each.
fn differences(recorded: Answer, right: Answer) -> Vec<String> {
    let level = |answer: Answer| if answer.line_is_high() { "high" } else { "low" };
    let rows = [
        (
            "Line",
            level(recorded).to_string(),
            level(right).to_string(),
        ),
        (
            "ACS pin",
            recorded.pin().to_string(),
            right.pin().to_string(),
        ),
    ];
    let mut lines: Vec<String> = rows
        .into_iter()
        .filter(|(_, one, other)| one != other)
        .map(|(name, one, other)| format!("{name:<10} recorded {one}, right {other}"))
        .collect();
    // Bits that no right answer has: bit 3 without an alarm, and bits 4 to 7.
    if lines.is_empty() || recorded.0 > 0x0F {
        lines.push(format!(
            "Bits       recorded {:08b}, right {:08b}",
            recorded.0, right.0
        ));
    }
    lines
}

/// The events around one of a sound capture, and the device before the first of them.
struct Shown {
    device: Device,
    events: Vec<u8>,
    place: Place,
    /// The Clock that differs, counted from 0 among those shown.
    clock: Option<usize>,
    /// The ACS pin before the event that differs.
    pin_before: fm3130::Pin,
}

impl Shown {
    fn around(window: &Window, index: usize) -> Option<Shown> {
        let place = window.place_of(index)?;
        let from = begin_of(window, index, &place) - window.first;
        let at = index - window.first;
        let to = end_of(&window.events, at);
        let mut device = window.device.clone();
        device.run(&window.events[..from]).ok()?;
        let mut before = device.clone();
        before.run(&window.events[from..at]).ok()?;
        let events = window.events[from..to].to_vec();
        let clocks = events[..at - from]
            .iter()
            .filter(|event| (2..4).contains(*event));
        let clock = place.is_clock().then(|| clocks.count());
        Some(Shown {
            device,
            events,
            place,
            clock,
            pin_before: before.pin(),
        })
    }

    /// Lets the device do the events before a listener.
    fn play(&self, listener: &mut dyn Listener) -> Outcome {
        let mut device = Chip::from(self.device.clone());
        bus::play_to(listener, &mut device, &mut ListSource::new(&self.events))
    }
}

/// Where to begin: with the transaction, or, where that is long ago, with a byte that is not.
fn begin_of(window: &Window, index: usize, place: &Place) -> usize {
    let is_near = index - place.transaction_begin <= MOST_BEFORE;
    if is_near && place.transaction_begin >= window.first {
        return place.transaction_begin;
    }
    let earliest = window.first.max(index.saturating_sub(MOST_BEFORE));
    (earliest..=index)
        .filter_map(|at| Some((at, window.place_of(at)?)))
        .find(|(at, place)| place.byte_begin == *at)
        .map_or(place.byte_begin.max(window.first), |(at, _)| at)
}

/// Where to end: with the next Stop, or not long after the event.
fn end_of(events: &[u8], index: usize) -> usize {
    let last = (index + MOST_AFTER).min(events.len());
    let stop = events[index..last]
        .iter()
        .position(|event| *event == fm3130::event::STOP);
    stop.map_or(last, |distance| index + distance + 1)
}
