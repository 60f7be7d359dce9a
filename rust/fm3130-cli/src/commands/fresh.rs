// SPDX-License-Identifier: Apache-2.0
//! `fm3130 fresh`: the files of a fresh device.

use std::ffi::OsString;
use std::path::{Path, PathBuf};

use crate::arguments::{wrong, Arguments, Options};
use crate::chip::Chip;
use crate::failure::{Failure, Outcome};
use crate::files::{self, NamedFile, Replacement};

const OPTIONS: Options = Options {
    with_value: &["--image", "--memory", "--part"],
    alone: &["--force"],
};

/// Writes a fresh image, a fresh memory, or both.
pub fn command(words: Vec<OsString>) -> Outcome {
    let arguments = Arguments::sort(words, &OPTIONS)?;
    arguments.at_most(0)?;
    let part = arguments.part()?;
    let device = Chip::fresh(part);
    let wanted: Vec<(&str, PathBuf, &[u8])> =
        [("--image", device.image()), ("--memory", device.memory())]
            .into_iter()
            .filter_map(|(option, bytes)| Some((option, arguments.path(option)?, bytes)))
            .collect();
    if wanted.is_empty() {
        return Err(wrong("fresh needs --image FILE, --memory FILE or both"));
    }
    let named: Vec<NamedFile> = wanted
        .iter()
        .map(|(option, path, _)| NamedFile { option, path })
        .collect();
    files::must_differ(&named)?;
    for (_, path, _) in &wanted {
        may_be_written(path, arguments.has("--force"))?;
        files::must_hold_one(path, part)?;
    }
    let mut replacements = Vec::new();
    for (_, path, bytes) in &wanted {
        let mut file = Replacement::open(path)?;
        file.write(bytes)?;
        replacements.push(file);
    }
    files::commit_all(replacements)
}

/// A file that is there is not overwritten without being asked to.
fn may_be_written(path: &Path, is_forced: bool) -> Outcome {
    let is_there = path.symlink_metadata().is_ok();
    if files::is_output(path) {
        return Ok(());
    }
    if is_there && !is_forced {
        return Err(Failure::Files(format!(
            "{}: is there already; --force overwrites it",
            path.display()
        )));
    }
    Ok(())
}
