// SPDX-License-Identifier: Apache-2.0
//! Lets a device do the events of a source, chunk by chunk.

use std::fmt;

use fm3130::{event, Answer, Lamps, Pin, MOST_TICKS, UNANSWERED};

use super::moment::{Moment, TickRun};
use super::sleep;
use crate::chip::{Chip, Refused};
use crate::failure::{Failure, Outcome};
use crate::files::Replacement;
use crate::progress::Progress;
use crate::source::{Source, CHUNK};

/// Someone who looks at every event.
pub trait Observer {
    /// An event that is no tick.
    fn moment(&mut self, moment: &Moment) -> Outcome;

    /// Ticks without any other event between them; a long run of ticks comes in several parts.
    fn ticks(&mut self, ticks: &TickRun) -> Outcome;

    /// No event follows.
    fn finish(&mut self) -> Outcome;
}

/// Who does the events of a run: a device, or a set.
pub trait Player {
    /// Does the events of one chunk; the answers are left in the buffer.
    fn play_chunk(&mut self, chunk: &[u8], answers: &mut [u8], outputs: &mut Outputs) -> Outcome;

    /// Does a run of ticks at once: nobody asked for their answers.
    fn sleep_through(&mut self, ticks: u64, outputs: &mut Outputs) -> Outcome;
}

impl Player for Chip {
    fn play_chunk(&mut self, chunk: &[u8], answers: &mut [u8], outputs: &mut Outputs) -> Outcome {
        play_chunk(self, chunk, answers, outputs)
    }

    fn sleep_through(&mut self, ticks: u64, outputs: &mut Outputs) -> Outcome {
        sleep_through(self, ticks, outputs)
    }
}

/// Where a run goes to.
pub struct Outputs<'run> {
    /// Who looks at every event; if nobody does, the device runs a chunk at a time.
    pub observers: Vec<&'run mut dyn Observer>,
    /// Whether an observer prints words.
    pub prints: bool,
    /// The file for the answer bytes.
    pub answers: Option<&'run mut Replacement>,
    /// What is kept of all events.
    pub recording: Option<&'run mut Recorded>,
    /// The proving record, where it is kept.
    pub lamps: Option<&'run mut Lamps>,
}

impl Outputs<'_> {
    /// Whether every event is wanted by itself; if not, long runs of ticks are done at once.
    fn want_each_event(&self) -> bool {
        self.answers.is_some() || self.recording.is_some() || self.lamps.is_some()
    }
}

/// Events and their answers.
#[derive(Default)]
pub struct Recorded {
    /// The events.
    pub events: Vec<u8>,
    /// The answers, one for each.
    pub answers: Vec<u8>,
}

/// Does all events of a source, and no event follows.
pub fn play(player: &mut dyn Player, source: &mut dyn Source, outputs: &mut Outputs) -> Outcome {
    play_some(player, source, outputs)?;
    for observer in &mut outputs.observers {
        observer.finish()?;
    }
    Ok(())
}

/// Does all events of a source, after which others may follow.
pub fn play_some(
    player: &mut dyn Player,
    source: &mut dyn Source,
    outputs: &mut Outputs,
) -> Outcome {
    let mut progress = Progress::of(source.total());
    let mut chunk = Vec::with_capacity(CHUNK);
    let mut answers = vec![UNANSWERED; CHUNK];
    loop {
        let ticks = if outputs.want_each_event() {
            0
        } else {
            source.take_ticks()
        };
        if ticks > 0 {
            player.sleep_through(ticks, outputs)?;
            progress.advance(ticks);
            continue;
        }
        source.fill(&mut chunk)?;
        if chunk.is_empty() {
            break;
        }
        // A run of ticks prints its one line after the last of them.
        let has_words = chunk.iter().any(|event| *event != event::TICK);
        progress.give_way(outputs.prints && has_words);
        player.play_chunk(&chunk, &mut answers, outputs)?;
        if let Some(file) = &mut outputs.answers {
            file.write(&answers[..chunk.len()])?;
        }
        if let Some(recorded) = &mut outputs.recording {
            recorded.events.extend_from_slice(&chunk);
            recorded.answers.extend_from_slice(&answers[..chunk.len()]);
        }
        progress.advance(chunk.len() as u64);
    }
    progress.clear();
    Ok(())
}

/// Does the events of one chunk; the answers are left in the buffer.
fn play_chunk(chip: &mut Chip, chunk: &[u8], answers: &mut [u8], outputs: &mut Outputs) -> Outcome {
    if outputs.observers.is_empty() {
        return chip.run_into(chunk, answers).map_err(refused);
    }
    let mut done = 0;
    for run in chunk.chunk_by(|one, next| *one == event::TICK && *next == event::TICK) {
        let answers = &mut answers[done..done + run.len()];
        if run[0] == event::TICK {
            play_ticks(chip, run, answers, outputs)?;
        } else {
            play_event(chip, run[0], answers, outputs)?;
        }
        done += run.len();
    }
    Ok(())
}

/// Does one event that is no tick.
fn play_event(chip: &mut Chip, event: u8, answers: &mut [u8], outputs: &mut Outputs) -> Outcome {
    let before = chip.state();
    match (&mut outputs.lamps, &mut *chip) {
        (Some(lamps), Chip::Fm3130(device)) => lamps
            .run_into(device, &[event], answers)
            .map_err(Refused::from),
        (_, chip) => chip.run_into(&[event], answers),
    }
    .map_err(refused)?;
    let moment = Moment {
        event,
        answer: Answer(answers[0]),
        before,
        after: chip.state(),
        lamps: outputs.lamps.as_ref().map(|lamps| lamps.report()),
    };
    for observer in &mut outputs.observers {
        observer.moment(&moment)?;
    }
    Ok(())
}

/// Does a run of ticks, one by one: each says which field of the calendar it changed.
fn play_ticks(chip: &mut Chip, ticks: &[u8], answers: &mut [u8], outputs: &mut Outputs) -> Outcome {
    let before = chip.state();
    // The record follows on a copy: the device itself is asked which field of the calendar changed.
    if let (Some(lamps), Chip::Fm3130(device)) = (&mut outputs.lamps, &*chip) {
        let followed = lamps.run(&mut device.clone(), ticks);
        followed.map_err(refused)?;
    }
    let rolled = chip.run_ticks(ticks, answers).map_err(refused)?;
    let run = TickRun {
        count: ticks.len() as u64,
        before,
        after: chip.state(),
        rolled,
        pin_changes: pin_changes(before.pin(), answers),
        lamps: outputs.lamps.as_ref().map(|lamps| lamps.report()),
    };
    for observer in &mut outputs.observers {
        observer.ticks(&run)?;
    }
    Ok(())
}

/// Does a run of ticks at once: nobody asked for their answers.
fn sleep_through(chip: &mut Chip, ticks: u64, outputs: &mut Outputs) -> Outcome {
    let mut left = ticks;
    while left > 0 {
        let run = sleep::through(chip, left.min(MOST_TICKS)).map_err(refused)?;
        left -= run.count;
        for observer in &mut outputs.observers {
            observer.ticks(&run)?;
        }
    }
    Ok(())
}

/// The places in some answers, counted from 1, where the pin is another than before.
fn pin_changes(mut pin: Pin, answers: &[u8]) -> Vec<(u64, Pin)> {
    let mut changes = Vec::new();
    for (index, answer) in answers.iter().enumerate() {
        let now = Answer(*answer).pin();
        if now != pin {
            changes.push((index as u64 + 1, now));
            pin = now;
        }
    }
    changes
}

/// The device refuses events only if a file changed after it was tested.
pub(super) fn refused(refusal: impl fmt::Display) -> Failure {
    Failure::Refused(format!("the device refuses the events: {refusal}"))
}
