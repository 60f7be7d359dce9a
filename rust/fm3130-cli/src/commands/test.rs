// SPDX-License-Identifier: Apache-2.0
//! `fm3130 test`: plays scripts on fresh devices, and holds what they expect.

use std::ffi::OsString;
use std::path::{Path, PathBuf};

use fm3130::family::{Member, Select, Set, Size};
use fm3130::Device;

use crate::arguments::{wrong, Arguments, Options};
use crate::bus::{self, Outputs, Player};
use crate::chip::{Chip, Part, State};
use crate::expecting::{self, Holding};
use crate::failure::{Failure, Outcome};
use crate::output::{Output, Paint};
use crate::script::{self, Cast, Plan, Problem, Script};
use crate::sharing;
use crate::source::PlanSource;

const OPTIONS: Options = Options {
    with_value: &["--part"],
    alone: &["--quiet"],
};

/// What a script of two masters ends in.
const OF_TWO_MASTERS: &str = "masters";

/// Tests scripts.
pub fn command(words: Vec<OsString>) -> Outcome {
    let arguments = Arguments::sort(words, &OPTIONS)?;
    if arguments.plain.is_empty() {
        return Err(wrong("test needs a SCRIPT"));
    }
    let bench = Bench::of(&arguments)?;
    let mut output = Output::new();
    let mut sum = Sum::default();
    for path in arguments.plain.iter().map(PathBuf::from) {
        let tested = test(&path, &bench);
        sum.take(&tested);
        if !arguments.has("--quiet") || !tested.is_good() {
            tested.say(&path, &mut output)?;
        }
    }
    output.line(&sum.words())?;
    output.finish()?;
    sum.into_outcome()
}

/// What scripts are played on.
enum Bench {
    One(Part),
    Set(Vec<(Size, Select)>),
}

impl Bench {
    fn of(arguments: &Arguments) -> Outcome<Bench> {
        let Some(members) = arguments.set()? else {
            return Ok(Bench::One(arguments.part()?));
        };
        match fresh(&members) {
            Ok(_) => Ok(Bench::Set(members)),
            Err(words) => Err(wrong(format!("no set: {words}"))),
        }
    }

    fn cast(&self) -> Cast {
        match self {
            Bench::One(part) => Cast::One(*part),
            Bench::Set(members) => Cast::Set(members.iter().map(|(_, select)| *select).collect()),
        }
    }

    /// Fresh devices, and the first state that is seen of them.
    fn player(&self) -> Outcome<(Box<dyn Player>, State)> {
        match self {
            Bench::One(part) => {
                let chip = Chip::fresh(*part);
                let state = chip.state();
                Ok((Box::new(chip), state))
            }
            Bench::Set(members) => {
                let set = fresh(members).map_err(Failure::Refused)?;
                let state = State::of_member(&set.members()[0]);
                Ok((Box::new(set), state))
            }
        }
    }
}

/// A set of fresh devices, or why there is none.
fn fresh(members: &[(Size, Select)]) -> Result<Set, String> {
    let members = members.iter();
    Set::new(members.map(|(size, select)| Member::fresh(*size, *select)))
        .map_err(|refusal| refusal.to_string())
}

/// What came of a script.
enum Tested {
    /// It was played: how many expectations it has, and those not met, shown.
    Played { count: u64, unmet: Vec<String> },
    /// It could not be played.
    Not(Failure),
}

impl Tested {
    fn is_good(&self) -> bool {
        matches!(self, Tested::Played { unmet, .. } if unmet.is_empty())
    }

    fn say(&self, path: &Path, output: &mut Output) -> Outcome {
        let name = crate::files::name_of(path);
        match self {
            Tested::Played { count: 0, .. } => {
                output.painted(Paint::Aside, &format!("none    {name}: it expects nothing"))
            }
            Tested::Played { count, unmet } if unmet.is_empty() => {
                let words = counted(*count, "expectation");
                output.painted(Paint::Good, &format!("ok      {name}: {words}"))
            }
            Tested::Played { unmet, .. } => {
                output.painted(Paint::Bad, &format!("FAILED  {name}"))?;
                unmet.iter().try_for_each(|shown| output.line(shown))
            }
            Tested::Not(failure) => {
                output.painted(Paint::Bad, &format!("FAILED  {name}"))?;
                output.line(&failure.to_string())
            }
        }
    }
}

/// So many things, in words.
fn counted(count: u64, thing: &str) -> String {
    let plural = if count == 1 { "" } else { "s" };
    format!("{count} {thing}{plural}")
}

/// Plays a script on what there is, or by two masters, and holds what it expects.
fn test(path: &Path, bench: &Bench) -> Tested {
    let is_of_two = path.extension().is_some_and(|one| one == OF_TWO_MASTERS);
    let tested = match (is_of_two, bench) {
        (true, Bench::One(Part::Fm3130)) => test_turns(path),
        _ => test_one(path, bench),
    };
    tested.unwrap_or_else(Tested::Not)
}

fn test_one(path: &Path, bench: &Bench) -> Outcome<Tested> {
    let mut script = bench.cast().load(path)?;
    let steps = std::mem::take(&mut script.plan.steps);
    let (mut player, first) = bench.player()?;
    let mut holding = Holding::new(&script.plan.expectations, first.pin());
    let mut outputs = Outputs {
        observers: vec![&mut holding],
        prints: false,
        answers: None,
        recording: None,
        lamps: None,
    };
    bus::play(&mut *player, &mut PlanSource::new(steps), &mut outputs)?;
    let held = holding.into_held();
    Ok(played(held.count, &held.unmet, &script))
}

fn test_turns(path: &Path) -> Outcome<Tested> {
    let (turns, script) = script::load_turns(path)?;
    sharing::test_lengths(&turns)?;
    let mut unmet = Vec::new();
    sharing::play(Device::fresh(), &turns, None, &mut unmet)?;
    let plans = turns.iter().map(|turn| Plan::of(&turn.items));
    let count = plans
        .flat_map(|plan| plan.expectations)
        .map(|one| one.times);
    Ok(played(count.sum(), &unmet, &script))
}

fn played(count: u64, unmet: &[Problem], script: &Script) -> Tested {
    Tested::Played {
        count,
        unmet: expecting::shown_in(unmet, script),
    }
}

/// All scripts together.
#[derive(Default)]
struct Sum {
    scripts: u64,
    met: u64,
    silent: u64,
    expectations: u64,
    /// What came of the first that could not be played.
    failure: Option<u8>,
}

impl Sum {
    fn take(&mut self, tested: &Tested) {
        self.scripts += 1;
        match tested {
            Tested::Played { count: 0, .. } => self.silent += 1,
            Tested::Played { count, .. } => {
                self.expectations += count;
                self.met += u64::from(tested.is_good());
            }
            Tested::Not(failure) => {
                self.failure.get_or_insert(failure.exit_code());
            }
        }
    }

    fn failed(&self) -> u64 {
        self.scripts - self.met - self.silent
    }

    fn words(&self) -> String {
        let silent = match self.silent {
            0 => String::new(),
            silent => format!(", {silent} without expectations"),
        };
        format!(
            "{}: {} as expected, {} failed{silent}; {}",
            counted(self.scripts, "script"),
            self.met,
            self.failed(),
            counted(self.expectations, "expectation")
        )
    }

    /// What was wrong is said already, script by script.
    fn into_outcome(self) -> Outcome {
        match (self.failure, self.failed()) {
            (Some(code), _) => Err(Failure::Told(code)),
            (None, 1..) => Err(Failure::Told(4)),
            (None, 0) if self.met == 0 => {
                let words = "nothing was tested: no script expects anything";
                Err(Failure::Script(words.to_string()))
            }
            (None, 0) => Ok(()),
        }
    }
}
