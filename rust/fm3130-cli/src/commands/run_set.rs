// SPDX-License-Identifier: Apache-2.0
//! `fm3130 run` with select bits: plays a script on a set of devices on one line.

use std::path::{Path, PathBuf};

use fm3130::family::{Member, Select, Set, Size};
use fm3130::IMAGE_BYTES;

use super::playing::{
    open_asked, open_view, takes_output, test_amounts, test_files, told, view_beside, Audience,
    Feed,
};
use crate::arguments::{wrong, Arguments};
use crate::chip::{Part, State};
use crate::drawing::Drawing;
use crate::failure::{Failure, Outcome};
use crate::files::{self, Replacement};
use crate::output::Output;
use crate::script::Cast;
use crate::source::FileSource;
use crate::words;

/// Options that are for one device: with a file, and alone.
const OF_ONE: [&str; 3] = ["--capture", "--next-line", "--from-vcd"];

/// Plays a script or an event file on devices of these sizes and select bits.
pub fn command(
    arguments: &Arguments,
    script: Option<PathBuf>,
    members: &[(Size, Select)],
) -> Outcome {
    test_options(arguments)?;
    let mut beside = plans_of(arguments);
    beside.extend(view_beside(arguments)?);
    test_files(arguments, script.as_deref(), &beside)?;
    let is_quiet = arguments.has("--quiet");
    let mut output = Output::beside_file(takes_output(arguments));
    test_members(members)?;
    let selects: Vec<Select> = members.iter().map(|(_, select)| *select).collect();
    let (mut feed, title) = Feed::open(
        script,
        arguments.path("--events"),
        Cast::Set(selects),
        |path| FileSource::open_for_set(path, members.len()),
    )?;
    test_amounts(arguments, &feed)?;
    let mut set = load_set(arguments, members, is_quiet, &mut output)?;
    let mut targets = Targets::open(arguments, members, title)?;
    let printed = (!is_quiet).then_some(&mut output);
    play_to(&mut set, &mut feed, &mut targets, printed)?;
    if !is_quiet {
        say_how_it_ends(&set, &mut output)?;
    }
    output.finish()?;
    targets.commit(&set)
}

/// The options that name a file of a set, and what its plan is called where two files are one.
const WITH_PLAN: [(&str, &str); 2] = [
    ("--image", "the plan of --image"),
    ("--memory", "the plan of --memory"),
];

/// The plans beside the files of a set, with what they are called.
pub(super) fn plans_of(arguments: &Arguments) -> Vec<(&'static str, PathBuf)> {
    let named = WITH_PLAN.into_iter();
    let beside = |(option, name)| Some((name, files::plan_beside(&arguments.path(option)?)));
    named.filter_map(beside).collect()
}

/// Refuses options that are for one device.
fn test_options(arguments: &Arguments) -> Outcome {
    let is_given = |option: &&str| arguments.path(option).is_some() || arguments.has(option);
    match OF_ONE.into_iter().find(is_given) {
        None => Ok(()),
        Some(option) => Err(wrong(format!(
            "{option} knows no sets; it is for one part without select bits"
        ))),
    }
}

/// Fresh devices of a set.
fn fresh(members: &[(Size, Select)]) -> Vec<Member> {
    let fresh = members.iter();
    fresh
        .map(|(size, select)| Member::fresh(*size, *select))
        .collect()
}

/// Refuses a set that cannot be made even of fresh devices.
pub(super) fn test_members(members: &[(Size, Select)]) -> Outcome {
    match Set::new(fresh(members)) {
        Ok(_) => Ok(()),
        Err(refusal) => Err(wrong(format!("no set: {refusal}"))),
    }
}

/// The set that the files hold, with fresh devices where there are none.
pub(super) fn load_set(
    arguments: &Arguments,
    members: &[(Size, Select)],
    is_quiet: bool,
    output: &mut Output,
) -> Outcome<Set> {
    let fresh = fresh(members);
    let mut load = |option: &str, fresh: Vec<u8>| match arguments.path(option) {
        None => Ok(fresh),
        Some(path) => {
            let loaded = files::load_of_set(&path, &fresh, members)?;
            if !loaded.is_fresh && !is_quiet {
                say_if_there_is_no_plan(&path, members, output)?;
            }
            told(loaded, &path, is_quiet, output)
        }
    };
    let images = load("--image", all_images(&fresh))?;
    let memories = load("--memory", all_memories(&fresh))?;
    made_of(members, &images, &memories).map_err(|words| match arguments.path("--image") {
        Some(path) => Failure::Refused(refused_in(&path, &words)),
        None => Failure::Refused(words),
    })
}

/// A file from before there were plans is taken as the command line has it.
fn say_if_there_is_no_plan(
    path: &Path,
    members: &[(Size, Select)],
    output: &mut Output,
) -> Outcome {
    match files::has_plan(path)? {
        true => Ok(()),
        false => output.line(&format!(
            "{}: no plan beside it, taken as {}",
            path.display(),
            files::plan_words(members).join(", ")
        )),
    }
}

fn refused_in(path: &Path, words: &str) -> String {
    format!("{}: {words}", path.display())
}

/// A set of images and memories that stand one after the other; or why there is none.
pub(super) fn made_of(
    members: &[(Size, Select)],
    images: &[u8],
    memories: &[u8],
) -> Result<Set, String> {
    let (mut devices, mut rest) = (Vec::new(), memories);
    for ((size, select), image) in members.iter().zip(images.chunks(IMAGE_BYTES)) {
        let (memory, others) = rest.split_at(size.bytes());
        rest = others;
        let device = Member::from_parts(*size, *select, image, memory);
        devices.push(device.map_err(|refusal| refusal.to_string())?);
    }
    Set::new(devices).map_err(|refusal| refusal.to_string())
}

/// The images of devices, one after the other.
pub(super) fn all_images(members: &[Member]) -> Vec<u8> {
    members.iter().flat_map(|one| *one.image()).collect()
}

/// The memories of devices, one after the other.
pub(super) fn all_memories(members: &[Member]) -> Vec<u8> {
    let memories = members.iter().map(Member::memory);
    memories.collect::<Vec<_>>().concat()
}

/// The files that a run of a set writes. All are opened before the run and put in place after it.
struct Targets {
    images: Option<Replacement>,
    memories: Option<Replacement>,
    /// Beside each of the two.
    plans: Vec<Replacement>,
    answers: Option<Replacement>,
    vcd: Option<Replacement>,
    /// Beside the waveform.
    view: Option<Replacement>,
    svg: Option<Replacement>,
    /// The drawing's title.
    title: String,
}

impl Targets {
    fn open(arguments: &Arguments, members: &[(Size, Select)], title: String) -> Outcome<Targets> {
        let open = |option| open_asked(arguments, option);
        let plans = plans_of(arguments).into_iter();
        Ok(Targets {
            images: open("--image")?,
            memories: open("--memory")?,
            plans: plans
                .map(|(_, path)| Replacement::open(&path))
                .collect::<Outcome<_>>()?,
            answers: open("--answers")?,
            vcd: open("--vcd")?,
            view: open_view(arguments, Part::Family(members[0].0))?,
            svg: open("--svg")?,
            title,
        })
    }

    /// Writes the devices, and puts every file in its place.
    fn commit(mut self, set: &Set) -> Outcome {
        if let Some(file) = &mut self.images {
            file.write(&all_images(set.members()))?;
        }
        if let Some(file) = &mut self.memories {
            file.write(&all_memories(set.members()))?;
        }
        for file in &mut self.plans {
            file.write(plan_of(set).as_bytes())?;
        }
        let named = [
            self.images,
            self.memories,
            self.answers,
            self.vcd,
            self.view,
            self.svg,
        ];
        let all = named.into_iter().flatten().chain(self.plans);
        files::commit_all(all.collect())
    }
}

/// The plan of a set, a line for each device.
fn plan_of(set: &Set) -> String {
    let members = set.members().iter();
    let members: Vec<_> = members.map(|one| (one.size(), one.select())).collect();
    let words = files::plan_words(&members).into_iter();
    words.map(|word| word + "\n").collect()
}

/// Plays what a feed gives to all who want to see it.
fn play_to(
    set: &mut Set,
    feed: &mut Feed,
    targets: &mut Targets,
    output: Option<&mut Output>,
) -> Outcome {
    let first = State::of_member(&set.members()[0]);
    let selects: Vec<Select> = set.members().iter().map(Member::select).collect();
    let draw = |file| Drawing::new(file, &targets.title, &first, None).of_set(&selects);
    let audience = Audience {
        output,
        drawing: targets.svg.as_mut().map(draw),
        vcd: targets.vcd.as_mut(),
        answers: targets.answers.as_mut(),
        recording: None,
    };
    audience.see(set, &first, feed)
}

/// Each device in words.
fn say_how_it_ends(set: &Set, output: &mut Output) -> Outcome {
    for member in set.members() {
        output.line("")?;
        output.line(&format!("{}@{}", member.size(), member.select()))?;
        for line in words::of_state(&State::of_member(member)) {
            output.line(&line)?;
        }
    }
    Ok(())
}
