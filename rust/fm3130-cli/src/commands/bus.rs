// SPDX-License-Identifier: Apache-2.0
//! `fm3130 bus`: runs a program for which /dev/i2c-N is the device.
//!
//! A library that is loaded before the C library (preload/) gives the program the device. Both share one file: the
//! images, the memories, and the ticks done so far.

use std::env;
use std::ffi::OsString;
use std::fs;
use std::io;
use std::os::unix::process::ExitStatusExt;
use std::path::{Path, PathBuf};
use std::process::{self, Command, ExitStatus};
use std::time::{Duration, SystemTime, UNIX_EPOCH};

use fm3130::family::{Select, Size};
use fm3130::{IMAGE_BYTES, MOST_TICKS};

use super::{playing, run, run_set};
use crate::arguments::{wrong, Arguments, Options};
use crate::chip::{Chip, Part};
use crate::failure::{Failure, Outcome};
use crate::files::{self, Replacement};
use crate::interrupt;
use crate::output::Output;

const OPTIONS: Options = Options {
    with_value: &["--number", "--part", "--image", "--memory"],
    alone: &["--clock", "--quiet"],
};

/// The library, and where it may lie, seen from the command: installed, and as it is built.
const LIBRARY: &str = "libfm3130-bus.so";
const FOLDERS: [&str; 3] = [".", "../lib", "../../lib"];

/// The variable that names the library.
const LIBRARY_VARIABLE: &str = "FM3130_BUS_LIBRARY";

/// The greatest number of a bus.
const MOST_NUMBER: u32 = 9_999;

/// The bytes of the ticks at the end of the file.
const TICKS_BYTES: usize = 8;

/// Runs a program.
pub fn command(words: Vec<OsString>) -> Outcome {
    let arguments = Arguments::sort(words, &OPTIONS)?;
    let Some((program, rest)) = arguments.plain.split_first() else {
        return Err(wrong("bus needs -- COMMAND"));
    };
    let number = number_of(&arguments)?;
    let library = library()?;
    // The program has standard output for itself.
    let mut output = Output::beside_file(true);
    let mut device = Devices::load(&arguments, &mut output)?;
    output.finish()?;
    let targets = Targets::open(&arguments, &device)?;
    let shared = Shared::begin(&device)?;
    let clock = arguments.has("--clock").then(since_1970);
    let mut child = Command::new(program);
    child
        .args(rest)
        .env("LD_PRELOAD", preload(&library))
        .env("FM3130_BUS_NUMBER", number.to_string())
        .env("FM3130_BUS_STATE", shared.file())
        .env("FM3130_BUS_PLAN", device.plan())
        .env("FM3130_BUS_BEGIN", begin_words(clock));
    let status = status_of(child, program)?;
    device.take(&shared.read(&device)?, clock)?;
    targets.commit(&device)?;
    match code_of(status) {
        0 => Ok(()),
        code => Err(Failure::Told(code)),
    }
}

/// The number of the bus, 1 without the option.
fn number_of(arguments: &Arguments) -> Outcome<u32> {
    let Some(word) = arguments.path("--number") else {
        return Ok(1);
    };
    let word = word.to_string_lossy().into_owned();
    let parsed = word.parse().ok().filter(|number| *number <= MOST_NUMBER);
    parsed.ok_or_else(|| {
        wrong(format!(
            "{word} is no number of a bus; 0 to {MOST_NUMBER} are"
        ))
    })
}

/// The library that is loaded into the program.
fn library() -> Outcome<PathBuf> {
    if let Some(named) = env::var_os(LIBRARY_VARIABLE) {
        return Ok(PathBuf::from(named));
    }
    let command = env::current_exe().and_then(fs::canonicalize);
    let folder = command
        .ok()
        .and_then(|path| path.parent().map(Path::to_path_buf));
    let places = FOLDERS
        .iter()
        .filter_map(|one| Some(folder.as_ref()?.join(one).join(LIBRARY)));
    let mut there = places.filter(|path| path.is_file());
    let found = there.next().and_then(|path| fs::canonicalize(path).ok());
    found.ok_or_else(|| {
        Failure::Files(format!(
            "{LIBRARY} is not beside the command: `make library` makes it, and {LIBRARY_VARIABLE} may name it"
        ))
    })
}

/// The libraries to be loaded first: ours, and those that were asked for before.
fn preload(library: &Path) -> OsString {
    let mut all = library.as_os_str().to_os_string();
    if let Some(others) = env::var_os("LD_PRELOAD").filter(|others| !others.is_empty()) {
        all.push(":");
        all.push(others);
    }
    all
}

fn since_1970() -> Duration {
    SystemTime::now()
        .duration_since(UNIX_EPOCH)
        .unwrap_or_default()
}

/// When seconds began to pass, for the library; nothing where none do.
fn begin_words(clock: Option<Duration>) -> String {
    clock.map_or(String::new(), |begin| format!("{:.6}", begin.as_secs_f64()))
}

/// Runs the program to its end. Control-C is for the program; what the device did is kept whatever becomes of it.
fn status_of(mut child: Command, program: &OsString) -> Outcome<ExitStatus> {
    let failed =
        |error: io::Error| Failure::Files(format!("{}: {error}", program.to_string_lossy()));
    let mut child = child.spawn().map_err(failed)?;
    interrupt::ignore();
    child.wait().map_err(failed)
}

/// The exit code of a program; one that a signal ended has that of a shell.
fn code_of(status: ExitStatus) -> u8 {
    let code = status
        .code()
        .unwrap_or_else(|| 128 + status.signal().unwrap_or(0));
    u8::try_from(code).unwrap_or(u8::MAX)
}

/// What is on the bus: one device, or a set.
enum Devices {
    One(Chip),
    Set {
        members: Vec<(Size, Select)>,
        images: Vec<u8>,
        memories: Vec<u8>,
    },
}

impl Devices {
    fn load(arguments: &Arguments, output: &mut Output) -> Outcome<Devices> {
        let is_quiet = arguments.has("--quiet");
        playing::test_files(arguments, None, &run_set::plans_of(arguments))?;
        let Some(members) = arguments.set()? else {
            let chip = run::load_device(arguments, arguments.part()?, is_quiet, output)?;
            return Ok(Devices::One(chip));
        };
        run_set::test_members(&members)?;
        let set = run_set::load_set(arguments, &members, is_quiet, output)?;
        Ok(Devices::Set {
            images: run_set::all_images(set.members()),
            memories: run_set::all_memories(set.members()),
            members,
        })
    }

    fn images(&self) -> &[u8] {
        match self {
            Devices::One(chip) => chip.image(),
            Devices::Set { images, .. } => images,
        }
    }

    fn memories(&self) -> &[u8] {
        match self {
            Devices::One(chip) => chip.memory(),
            Devices::Set { memories, .. } => memories,
        }
    }

    /// A digit for each device of the larger family, its plan byte (fm31.h); nothing for an FM3130.
    fn plan(&self) -> String {
        let digit = |size: Size, select: Select| {
            let size = if size == Size::Kb256 { 4 } else { 0 };
            (size + select.bits()).to_string()
        };
        match self {
            Devices::One(chip) => match chip.state().part {
                Part::Fm3130 => String::new(),
                Part::Family(size) => digit(size, Select::ZERO),
            },
            Devices::Set { members, .. } => {
                let digits = members.iter().map(|(size, select)| digit(*size, *select));
                digits.collect()
            }
        }
    }

    /// Takes what the programs left: images, memories and ticks, and the seconds that have passed since.
    fn take(&mut self, state: &[u8], clock: Option<Duration>) -> Outcome {
        let (images, rest) = state.split_at(self.images().len());
        let (memories, ticks) = rest.split_at(self.memories().len());
        let refused = |words: String| Failure::Refused(format!("the bus left no device: {words}"));
        match self {
            Devices::One(chip) => {
                *chip = Chip::from_parts(chip.state().part, images, memories)
                    .map_err(|refusal| refused(refusal.to_string()))?;
                let done = u64::from_le_bytes(ticks.try_into().unwrap_or_default());
                if let Some(begin) = clock {
                    let passed = since_1970().saturating_sub(begin).as_secs();
                    sleep(chip, passed.saturating_sub(done))?;
                }
            }
            Devices::Set {
                members,
                images: all,
                memories: both,
            } => {
                run_set::made_of(members, images, memories).map_err(refused)?;
                (*all, *both) = (images.to_vec(), memories.to_vec());
            }
        }
        Ok(())
    }
}

/// Lets seconds pass in a part that has a clock.
fn sleep(chip: &mut Chip, mut ticks: u64) -> Outcome {
    let Chip::Fm3130(device) = chip else {
        return Ok(());
    };
    while ticks > 0 {
        let some = ticks.min(MOST_TICKS);
        device
            .catch_up(some)
            .map_err(|refusal| Failure::Refused(refusal.to_string()))?;
        ticks -= some;
    }
    Ok(())
}

/// The files that are written back.
struct Targets {
    image: Option<Replacement>,
    memory: Option<Replacement>,
    /// Beside each of the two, of a set.
    plans: Vec<Replacement>,
}

impl Targets {
    fn open(arguments: &Arguments, devices: &Devices) -> Outcome<Targets> {
        let plans = match devices {
            Devices::One(_) => Vec::new(),
            Devices::Set { .. } => run_set::plans_of(arguments),
        };
        let plans = plans.into_iter().map(|(_, path)| Replacement::open(&path));
        Ok(Targets {
            image: playing::open_asked(arguments, "--image")?,
            memory: playing::open_asked(arguments, "--memory")?,
            plans: plans.collect::<Outcome<_>>()?,
        })
    }

    fn commit(mut self, devices: &Devices) -> Outcome {
        if let Some(file) = &mut self.image {
            file.write(devices.images())?;
        }
        if let Some(file) = &mut self.memory {
            file.write(devices.memories())?;
        }
        if let Devices::Set { members, .. } = devices {
            let plan = files::plan_words(members).join("\n") + "\n";
            for file in &mut self.plans {
                file.write(plan.as_bytes())?;
            }
        }
        let all = [self.image, self.memory].into_iter().flatten();
        files::commit_all(all.chain(self.plans).collect())
    }
}

/// The file that the command shares with the programs, in a folder of its own, which goes with this.
struct Shared {
    folder: PathBuf,
}

impl Shared {
    fn begin(devices: &Devices) -> Outcome<Shared> {
        let folder = env::temp_dir().join(format!("fm3130-bus-{}", process::id()));
        let of_folder = |error: io::Error| Failure::of_file(&folder, &error);
        fs::create_dir(&folder).map_err(of_folder)?;
        let shared = Shared { folder };
        let ticks = [0; TICKS_BYTES];
        let state = [devices.images(), devices.memories(), &ticks].concat();
        let file = shared.file();
        fs::write(&file, state).map_err(|error| Failure::of_file(&file, &error))?;
        Ok(shared)
    }

    fn file(&self) -> PathBuf {
        self.folder.join("device")
    }

    fn read(&self, devices: &Devices) -> Outcome<Vec<u8>> {
        let length = devices.images().len() + devices.memories().len() + TICKS_BYTES;
        let state = files::read_at_most(&self.file(), length)?;
        match state.len() == length {
            true => Ok(state),
            false => Err(Failure::Files("the file of the bus was cut".to_string())),
        }
    }
}

impl Drop for Shared {
    fn drop(&mut self) {
        // Nothing can be done about files that cannot be removed.
        let _ = fs::remove_dir_all(&self.folder);
    }
}

/// An image has the same length in every part, so that the file has one form.
const _: () = assert!(IMAGE_BYTES == 64);
