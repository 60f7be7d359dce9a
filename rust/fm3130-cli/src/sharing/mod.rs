// SPDX-License-Identifier: Apache-2.0
//! Two masters play a script in turns: each turn asks for the bus and is one call.
//!
//! The device and who holds its bus are the proved archive's, behind the two handles of
//! [`fm3130::masters`]. What is printed of an answered turn is the transcript of the same events on
//! a copy of the device.

mod picture;

use fm3130::masters::{self, Handle, Master};
use fm3130::{event, Device, Refusal};

use crate::bus::{self, Outputs};
use crate::chip::Chip;
use crate::expecting::Holding;
use crate::failure::{Failure, Outcome};
use crate::output::Output;
use crate::script::{Expectation, Plan, Problem, Turn};
use crate::source::PlanSource;
use crate::transcript::Transcript;
use crate::words;

pub use picture::picture_of;

/// The most events of a turn: it is one call, so all of them are in memory at once.
const MOST_EVENTS: u64 = 1_000_000;

/// What came of a turn.
pub struct Played {
    /// Who played it.
    pub master: Master,
    /// What was played, as the script has it.
    pub words: String,
    /// Whether it was answered.
    pub answered: Result<(), Refusal>,
    /// Who held the bus while it was played: after the ask.
    pub during: Option<Master>,
    /// Who holds the bus after it.
    pub after: Option<Master>,
}

/// The letter of a master in a script.
pub fn letter(master: Master) -> &'static str {
    match master {
        Master::Rig => "a",
        Master::Handheld => "b",
    }
}

/// Refuses a turn that is too long for one call, before the first is played.
pub fn test_lengths(turns: &[Turn]) -> Outcome {
    let mut totals = turns.iter().map(|turn| Plan::of(&turn.items).total());
    match totals.find(|total| *total > MOST_EVENTS) {
        None => Ok(()),
        Some(total) => Err(Failure::Script(format!(
            "a turn has {total} events; it may have {MOST_EVENTS}"
        ))),
    }
}

/// Plays all turns, whose lengths are tested, on a device; says what happened where somebody listens. What the turns
/// expect is held, and what was not met is noted.
pub fn play(
    device: Device,
    turns: &[Turn],
    mut output: Option<&mut Output>,
    unmet: &mut Vec<Problem>,
) -> Outcome<Vec<Played>> {
    let (rig, handheld) = masters::share(device);
    let mut all = Vec::new();
    for turn in turns {
        let handle = match turn.master {
            Master::Rig => &rig,
            Master::Handheld => &handheld,
        };
        let plan = Plan::of(&turn.items);
        let before = handle.device();
        let played = play_turn(handle, turn, &plan);
        unmet.extend(unmet_in(&played, &before, &plan)?);
        if let Some(output) = output.as_deref_mut() {
            say(&played, before, plan, output)?;
        }
        all.push(played);
    }
    if let Some(output) = output {
        output.line("")?;
        for line in words::of_device(&Chip::from(rig.device())) {
            output.line(&line)?;
        }
        output.line(&format!("Held by    {}", held_by(rig.holder())))?;
    }
    Ok(all)
}

/// Asks for the bus, where the turn has Starts, Stops or Clocks, and calls.
fn play_turn(handle: &Handle, turn: &Turn, plan: &Plan) -> Played {
    let events = events_of(plan);
    let needs_bus = events.iter().any(|event| *event <= event::CLOCK_HIGH);
    let asked = if needs_bus { handle.ask() } else { Ok(()) };
    let during = handle.holder();
    let answered = asked.and_then(|()| handle.call(&events).map(|_| ()));
    Played {
        master: turn.master,
        words: turn.words.clone(),
        answered,
        during,
        after: handle.holder(),
    }
}

/// What a turn expects and did not come about: of a refused one everything.
fn unmet_in(played: &Played, before: &Device, plan: &Plan) -> Outcome<Vec<Problem>> {
    let expectations = &plan.expectations;
    if let Err(refusal) = played.answered {
        let refused = |one: &Expectation| {
            let words = format!("expected something, and the turn is refused: {refusal}");
            Problem::new(one.place, words, "")
        };
        return Ok(expectations.iter().map(refused).collect());
    }
    if expectations.is_empty() {
        return Ok(Vec::new());
    }
    let mut chip = Chip::from(before.clone());
    let mut holding = Holding::new(expectations, chip.state().pin());
    let mut outputs = Outputs {
        observers: vec![&mut holding],
        prints: false,
        answers: None,
        recording: None,
        lamps: None,
    };
    let mut source = PlanSource::new(plan.steps.clone());
    bus::play(&mut chip, &mut source, &mut outputs)?;
    Ok(holding.into_held().unmet)
}

/// The events of a turn, as one list.
fn events_of(plan: &Plan) -> Vec<u8> {
    let steps = plan.steps.iter();
    steps
        .flat_map(|step| step.events.repeat(step.times as usize))
        .collect()
}

/// A turn in words: who plays, what happened on the wires or why nothing did, and who holds the bus.
fn say(played: &Played, before: Device, plan: Plan, output: &mut Output) -> Outcome {
    let who = format!("{}: {}", letter(played.master), played.master);
    match played.answered {
        Err(refusal) => {
            let holder = held_by(played.after);
            return output.line(&format!("{who}, refused: {refusal}; held by {holder}"));
        }
        Ok(()) => output.line(&who)?,
    }
    let mut chip = Chip::from(before);
    let mut transcript = Transcript::new(output);
    bus::play_to(&mut transcript, &mut chip, &mut PlanSource::new(plan.steps))?;
    output.line(&format!("        bus: {}", held_by(played.after)))
}

/// Who holds the bus, in words.
pub fn held_by(holder: Option<Master>) -> String {
    match holder {
        None => "nobody".to_string(),
        Some(master) => format!("{} ({master})", letter(master)),
    }
}
