// SPDX-License-Identifier: Apache-2.0
//! Where events come from, a chunk at a time, so that a long run needs no long list.

use std::fmt;
use std::fs::File;
use std::io::Read;
use std::path::{Path, PathBuf};

use fm3130::event;
use fm3130::family::edge_2;

use crate::amount::Tally;
use crate::chip::Part;
use crate::failure::{Failure, Outcome};
use crate::script::{tally_of, total_of, Step};

/// The most events of a chunk.
pub const CHUNK: usize = 65_536;

/// The ticks that a source hands out as one run, from so many on.
const LONG: u64 = 60;

/// A source of events.
pub trait Source {
    /// The number of events of the whole source.
    fn total(&self) -> u64;

    /// How many events of each kind it has.
    fn tally(&self) -> Tally;

    /// Puts the next events into a chunk, at most [`CHUNK`]; none at the end.
    fn fill(&mut self, chunk: &mut Vec<u8>) -> Outcome;

    /// Takes a whole run of ticks that comes next, where the source knows its length; else 0, and
    /// nothing is taken.
    fn take_ticks(&mut self) -> u64 {
        0
    }
}

/// The events of a script's plan.
pub struct PlanSource {
    steps: Vec<Step>,
    /// The step under way.
    step: usize,
    /// The events of that step already given.
    given: u64,
}

impl PlanSource {
    /// All events of the steps of a plan.
    pub fn new(steps: Vec<Step>) -> PlanSource {
        PlanSource {
            steps,
            step: 0,
            given: 0,
        }
    }

    /// The ticks left of the step under way, if it is one of ticks that are worth taking at once.
    fn long_ticks(&self) -> Option<u64> {
        let step = self.steps.get(self.step)?;
        let is_long = step.events == [event::TICK] && step.times >= LONG;
        is_long.then(|| step.times - self.given)
    }
}

impl Source for PlanSource {
    fn total(&self) -> u64 {
        total_of(&self.steps)
    }

    fn tally(&self) -> Tally {
        tally_of(&self.steps)
    }

    fn fill(&mut self, chunk: &mut Vec<u8>) -> Outcome {
        chunk.clear();
        // A long run of ticks begins a chunk, so that it can be taken instead.
        while chunk.is_empty() || self.long_ticks().is_none() {
            let Some(step) = self.steps.get(self.step) else {
                return Ok(());
            };
            let length = step.events.len() as u64;
            let end = step.times.saturating_mul(length);
            while self.given < end && chunk.len() < CHUNK {
                chunk.push(step.events[(self.given % length) as usize]);
                self.given += 1;
            }
            if self.given < end {
                return Ok(());
            }
            self.step += 1;
            self.given = 0;
        }
        Ok(())
    }

    fn take_ticks(&mut self) -> u64 {
        let Some(ticks) = self.long_ticks() else {
            return 0;
        };
        self.step += 1;
        self.given = 0;
        ticks
    }
}

/// The events of a list.
pub struct ListSource<'list> {
    events: &'list [u8],
    given: usize,
}

impl<'list> ListSource<'list> {
    /// All events of a list.
    pub fn new(events: &'list [u8]) -> ListSource<'list> {
        ListSource { events, given: 0 }
    }
}

impl Source for ListSource<'_> {
    fn total(&self) -> u64 {
        self.events.len() as u64
    }

    fn tally(&self) -> Tally {
        let mut tally = Tally::default();
        self.events.iter().for_each(|event| tally.add(*event, 1));
        tally
    }

    fn fill(&mut self, chunk: &mut Vec<u8>) -> Outcome {
        let rest = &self.events[self.given..];
        chunk.clear();
        chunk.extend_from_slice(&rest[..rest.len().min(CHUNK)]);
        self.given += chunk.len();
        Ok(())
    }
}

/// The events of a file, one byte an event.
pub struct FileSource {
    path: PathBuf,
    file: File,
    tally: Tally,
}

impl FileSource {
    /// Opens an event file for a part and tests all its bytes, as 01 asks: "all events are tested before the
    /// first is done".
    pub fn open(path: &Path, part: Part) -> Outcome<FileSource> {
        FileSource::open_up_to(path, part.last_event(), &part.unknown_event())
    }

    /// The same for a set of so many devices, each of which has two edges.
    pub fn open_for_set(path: &Path, devices: usize) -> Outcome<FileSource> {
        let last = edge_2(devices - 1);
        let unknown = format!("an event of a set of {devices} is at most {last:02X}h");
        FileSource::open_up_to(path, last, &unknown)
    }

    fn open_up_to(path: &Path, last: u8, unknown: &dyn fmt::Display) -> Outcome<FileSource> {
        if path.exists() && !path.is_file() {
            let words = format!("{}: not a regular file", path.display());
            return Err(Failure::Files(words));
        }
        let tally = test_events(FileSource::open_untested(path)?, last, unknown)?;
        let source = FileSource::open_untested(path)?;
        Ok(FileSource { tally, ..source })
    }

    fn open_untested(path: &Path) -> Outcome<FileSource> {
        let file = File::open(path).map_err(|error| Failure::of_file(path, &error))?;
        Ok(FileSource {
            path: path.to_path_buf(),
            file,
            tally: Tally::default(),
        })
    }
}

impl Source for FileSource {
    fn total(&self) -> u64 {
        self.tally.events()
    }

    fn tally(&self) -> Tally {
        self.tally
    }

    fn fill(&mut self, chunk: &mut Vec<u8>) -> Outcome {
        chunk.clear();
        (&mut self.file)
            .take(CHUNK as u64)
            .read_to_end(chunk)
            .map(|_| ())
            .map_err(|error| Failure::of_file(&self.path, &error))
    }
}

/// How many events a source has, none of which is above the last that is known.
fn test_events(mut source: FileSource, last: u8, unknown: &dyn fmt::Display) -> Outcome<Tally> {
    let mut chunk = Vec::new();
    let mut tally = Tally::default();
    loop {
        source.fill(&mut chunk)?;
        if chunk.is_empty() {
            return Ok(tally);
        }
        if let Some(place) = chunk.iter().position(|byte| *byte > last) {
            return Err(Failure::Script(format!(
                "{}: byte {} is {:02X}h: {}",
                source.path.display(),
                tally.events() + place as u64,
                chunk[place],
                unknown
            )));
        }
        chunk.iter().for_each(|event| tally.add(*event, 1));
    }
}

#[cfg(test)]
mod tests {
    use super::*;

    fn step(events: &[u8], times: u64) -> Step {
        Step {
            events: events.to_vec(),
            times,
        }
    }

    #[test]
    fn long_runs_of_ticks_are_taken_whole() {
        let steps = vec![step(&[0], 1), step(&[4], 59), step(&[4], 60), step(&[1], 1)];
        let mut source = PlanSource::new(steps);
        let mut chunk = Vec::new();
        assert_eq!(source.take_ticks(), 0);
        source.fill(&mut chunk).unwrap();
        assert_eq!(chunk.len(), 60);
        assert_eq!(source.take_ticks(), 60);
        assert_eq!(source.take_ticks(), 0);
        source.fill(&mut chunk).unwrap();
        assert_eq!(chunk, [1]);
        source.fill(&mut chunk).unwrap();
        assert!(chunk.is_empty());
    }

    #[test]
    fn chunks_joined_are_the_plan() {
        let steps = vec![step(&[0], 1), step(&[3, 2, 3], 50_000), step(&[4], 700)];
        let mut source = PlanSource::new(steps);
        let (mut joined, mut chunk) = (Vec::new(), Vec::new());
        loop {
            source.fill(&mut chunk).unwrap();
            if chunk.is_empty() {
                break;
            }
            assert!(chunk.len() <= CHUNK);
            joined.extend_from_slice(&chunk);
        }
        let mut expected = vec![0];
        expected.extend([3, 2, 3].repeat(50_000));
        expected.extend([4; 700]);
        assert_eq!(joined, expected);
        assert_eq!(source.total(), expected.len() as u64);
    }
}
