// SPDX-License-Identifier: Apache-2.0
//! Whether two words of a command line name one file.

use std::fs;
use std::path::{Path, PathBuf};

use crate::arguments::wrong;
use crate::failure::Outcome;

/// A file, and the word of the command line that names it.
pub struct NamedFile<'line> {
    /// The option, or `SCRIPT`.
    pub option: &'line str,
    /// The file.
    pub path: &'line Path,
}

/// Refuses a command line in which two words name one file: a part written last would destroy the
/// other. Devices such as `/dev/null` may be named twice.
pub fn must_differ(files: &[NamedFile]) -> Outcome {
    for (index, file) in files.iter().enumerate() {
        for other in &files[..index] {
            if name_one_file(file.path, other.path) {
                return Err(wrong(format!(
                    "{} and {} name one file: {}",
                    other.option,
                    file.option,
                    file.path.display()
                )));
            }
        }
    }
    Ok(())
}

fn name_one_file(one: &Path, other: &Path) -> bool {
    let is_special = one.exists() && !one.is_file();
    !is_special && whole_path(one) == whole_path(other)
}

/// The path without links and detours. A file that is not there yet has those of its folder.
fn whole_path(path: &Path) -> PathBuf {
    if let Ok(whole) = fs::canonicalize(path) {
        return whole;
    }
    let folder = match path.parent() {
        Some(folder) if !folder.as_os_str().is_empty() => folder,
        _ => Path::new("."),
    };
    match (fs::canonicalize(folder), path.file_name()) {
        (Ok(folder), Some(name)) => folder.join(name),
        _ => path.to_path_buf(),
    }
}
