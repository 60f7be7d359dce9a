// SPDX-License-Identifier: Apache-2.0
//! The plan beside a file of a set: which device stands at which place. Images and memories do not say
//! it, so in another order a device would take over the state of another.

use std::ffi::OsStr;
use std::fs;
use std::path::{Path, PathBuf};

use fm3130::family::{Select, Size};

use super::{exists, read_at_most};
use crate::arguments::member_of;
use crate::chip::Part;
use crate::failure::{Failure, Outcome};

/// The longest plan that is read; that of four devices has 40 bytes.
const MOST_BYTES: usize = 256;

/// The file of the plan, beside the file itself: where a link leads to it, there.
pub fn plan_beside(path: &Path) -> PathBuf {
    let target = match path.is_symlink() {
        true => fs::canonicalize(path).unwrap_or_else(|_| path.to_path_buf()),
        false => path.to_path_buf(),
    };
    let mut name = target.file_name().unwrap_or_default().to_os_string();
    name.push(".plan");
    target.with_file_name(name)
}

/// Whether a file has a plan beside it.
pub fn has_plan(path: &Path) -> Outcome<bool> {
    exists(&plan_beside(path))
}

/// Devices in the words of `--part`.
pub fn plan_words(members: &[(Size, Select)]) -> Vec<String> {
    let words = members.iter();
    words
        .map(|(size, select)| format!("{}@{select}", size.to_string().to_lowercase()))
        .collect()
}

/// Refuses a file whose plan has other devices, or the same in another order.
pub fn must_hold(path: &Path, members: &[(Size, Select)]) -> Outcome {
    test(path, members, &plan_words(members).join(", "))
}

/// Refuses a file whose plan has another device than one part by itself, which has select bits 0.
pub fn must_hold_one(path: &Path, part: Part) -> Outcome {
    let words = part.to_string().to_lowercase();
    match part {
        Part::Fm3130 => test(path, &[], &words),
        Part::Family(size) => test(path, &[(size, Select::ZERO)], &words),
    }
}

/// Holds the plan of a file, if it has one, to the devices that are given.
fn test(path: &Path, given: &[(Size, Select)], words: &str) -> Outcome {
    if !has_plan(path)? {
        return Ok(());
    }
    let plan = plan_beside(path);
    let found = read(&plan)?;
    if found == given {
        return Ok(());
    }
    Err(Failure::Refused(format!(
        "{}: {} says that it holds {}; the command line has {words}",
        path.display(),
        plan.display(),
        plan_words(&found).join(", ")
    )))
}

/// The devices of a plan, a line for each.
fn read(plan: &Path) -> Outcome<Vec<(Size, Select)>> {
    let bytes = read_at_most(plan, MOST_BYTES)?;
    let text = String::from_utf8_lossy(&bytes);
    let is_none = |words: &str| {
        let plan = plan.display();
        Failure::Refused(format!("{plan}: no plan of a set, {words}"))
    };
    if text.is_empty() {
        return Err(is_none("it is empty"));
    }
    let lines = text.lines();
    lines
        .map(|line| {
            let wrong = || is_none(&format!("{line:?} is no device such as fm3164@2"));
            member_of(OsStr::new(line.trim())).map_err(|_| wrong())
        })
        .collect()
}

#[cfg(test)]
mod tests {
    use super::*;

    #[test]
    fn a_plan_stands_beside_its_file() {
        let beside = plan_beside(Path::new("folder/set.images"));
        assert_eq!(beside, Path::new("folder/set.images.plan"));
    }

    #[test]
    fn a_plan_has_the_words_of_the_command_line() {
        let members = [(Size::Kb256, Select::ONE), (Size::Kb64, Select::TWO)];
        let words = plan_words(&members);
        assert_eq!(words, ["fm31256@1", "fm3164@2"]);
        for (word, member) in words.iter().zip(members) {
            assert_eq!(member_of(OsStr::new(word)).unwrap(), member);
        }
    }
}
