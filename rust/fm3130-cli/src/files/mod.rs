// SPDX-License-Identifier: Apache-2.0
//! Files: reading what a device is made of, and replacing files whole or not at all.

mod identity;
mod parts;
mod plan;
mod replacement;

pub use identity::{must_differ, NamedFile};
pub use parts::{load_image, load_memory, load_of_set, Loaded};
pub use plan::{has_plan, must_hold_one, plan_beside, plan_words};
pub use replacement::{commit_all, Replacement};

use std::fs;
use std::io::{self, Read};
use std::path::Path;

use crate::failure::{Failure, Outcome};

/// Whether there is such a file; not to know it is a failure, since a fresh part would hide it.
fn exists(path: &Path) -> Outcome<bool> {
    path.try_exists()
        .map_err(|error| Failure::of_file(path, &error))
}

/// The whole of a file that is at most so long; a longer one is cut one byte later, so that its
/// length is seen to be wrong without reading it whole.
pub fn read_at_most(path: &Path, most: usize) -> Outcome<Vec<u8>> {
    let file = fs::File::open(path).map_err(|error| Failure::of_file(path, &error))?;
    let mut bytes = Vec::new();
    file.take(most as u64 + 1)
        .read_to_end(&mut bytes)
        .map_err(|error| Failure::of_file(path, &error))?;
    Ok(bytes)
}

/// Whether a file begins with a text.
pub fn begins_with(path: &Path, text: &str) -> Outcome<bool> {
    Ok(read_at_most(path, text.len())?.starts_with(text.as_bytes()))
}

/// Whether a path stands for standard input.
pub fn is_input(path: &Path) -> bool {
    path == Path::new("-")
}

/// Whether a path that is written stands for standard output.
pub fn is_output(path: &Path) -> bool {
    path == Path::new("-")
}

/// What a file that is written is called in words.
pub fn name_of_written(path: &Path) -> String {
    match is_output(path) {
        true => "standard output".to_string(),
        false => path.display().to_string(),
    }
}

/// What a file is called in words.
pub fn name_of(path: &Path) -> String {
    match is_input(path) {
        true => "standard input".to_string(),
        false => path.display().to_string(),
    }
}

/// The bytes of a file, or of standard input; at most one more than the most is read.
pub fn read_or_input(path: &Path, most: usize) -> Outcome<Vec<u8>> {
    if !is_input(path) {
        return read_at_most(path, most);
    }
    let mut bytes = Vec::new();
    io::stdin()
        .lock()
        .take(most as u64 + 1)
        .read_to_end(&mut bytes)
        .map_err(|error| Failure::Files(format!("{}: {error}", name_of(path))))?;
    Ok(bytes)
}

/// Removes a file; whether one was there. A device such as `/dev/null` stays.
pub fn remove(path: &Path) -> Outcome<bool> {
    if is_output(path) || !path.is_file() {
        return Ok(false);
    }
    // A link stays a link: the file that it leads to is removed.
    fs::canonicalize(path)
        .and_then(fs::remove_file)
        .map(|()| true)
        .map_err(|error| Failure::of_file(path, &error))
}
