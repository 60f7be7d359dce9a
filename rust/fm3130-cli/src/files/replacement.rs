// SPDX-License-Identifier: Apache-2.0
//! Files written whole or not at all.

use std::fs::{self, File, OpenOptions};
use std::io::{self, BufWriter, Write};
use std::path::{Path, PathBuf};
use std::process;

use super::is_output;
use crate::failure::{Failure, Outcome};
use crate::interrupt::Passing;

/// A file that is written beside its target and takes the target's place at the very end. Dropped
/// before that, it leaves the target as it was.
pub struct Replacement {
    target: PathBuf,
    /// Where the bytes go; none if the target is standard output, or a device such as `/dev/null`, which must not be
    /// replaced and is written directly.
    temporary: Option<Passing>,
    writer: BufWriter<Sink>,
}

/// What takes the bytes.
enum Sink {
    File(File),
    Output(io::Stdout),
}

impl Write for Sink {
    fn write(&mut self, bytes: &[u8]) -> io::Result<usize> {
        match self {
            Sink::File(file) => file.write(bytes),
            Sink::Output(output) => output.write(bytes),
        }
    }

    fn flush(&mut self) -> io::Result<()> {
        match self {
            Sink::File(file) => file.flush(),
            Sink::Output(output) => output.flush(),
        }
    }
}

impl Replacement {
    /// Opens a replacement of a file, which need not be there; `-` is standard output. A place that cannot be
    /// written is found here, before any work.
    pub fn open(path: &Path) -> Outcome<Replacement> {
        if is_output(path) {
            return Ok(Replacement::direct(path, Sink::Output(io::stdout())));
        }
        Replacement::try_open(path).map_err(|error| Failure::of_file(path, &error))
    }

    fn try_open(path: &Path) -> io::Result<Replacement> {
        // A link stays a link: the file that it leads to is replaced.
        let target = fs::canonicalize(path).unwrap_or_else(|_| path.to_path_buf());
        if target.is_dir() {
            return Err(io::Error::other("it is a folder"));
        }
        if target.exists() && !target.is_file() {
            let file = OpenOptions::new().write(true).open(&target)?;
            return Ok(Replacement::direct(&target, Sink::File(file)));
        }
        // Known before it is there, so that it goes whenever the command is interrupted.
        let temporary = Passing::new(name_beside(&target)?);
        let file = OpenOptions::new()
            .write(true)
            .create_new(true)
            .open(temporary.path())?;
        // The replaced file's permissions go to the new one.
        if let Ok(old) = fs::metadata(&target) {
            file.set_permissions(old.permissions())?;
        }
        Ok(Replacement {
            writer: BufWriter::new(Sink::File(file)),
            temporary: Some(temporary),
            target,
        })
    }

    /// A target that is written directly.
    fn direct(target: &Path, sink: Sink) -> Replacement {
        Replacement {
            target: target.to_path_buf(),
            temporary: None,
            writer: BufWriter::new(sink),
        }
    }

    /// What could not be written, and why.
    fn failure(&self, error: &io::Error) -> Failure {
        match is_output(&self.target) {
            true => Failure::of_output(error),
            false => Failure::of_file(&self.target, error),
        }
    }

    /// Adds bytes.
    pub fn write(&mut self, bytes: &[u8]) -> Outcome {
        let written = self.writer.write_all(bytes);
        written.map_err(|error| self.failure(&error))
    }

    /// Brings every byte to the disk; after this only the change of names is left.
    fn settle(&mut self) -> Outcome {
        let flushed = self.writer.flush();
        let settled = flushed.and_then(|()| match (self.writer.get_ref(), &self.temporary) {
            (Sink::File(file), Some(_)) => file.sync_all(),
            _ => Ok(()),
        });
        settled.map_err(|error| self.failure(&error))
    }

    /// Takes the target's place.
    fn take_place(&mut self) -> Outcome {
        if let Some(temporary) = &self.temporary {
            fs::rename(temporary.path(), &self.target)
                .map_err(|error| Failure::of_file(&self.target, &error))?;
        }
        self.temporary = None;
        Ok(())
    }
}

impl Drop for Replacement {
    fn drop(&mut self) {
        if let Some(temporary) = &self.temporary {
            // Nothing can be done about a file that cannot be removed.
            let _ = fs::remove_file(temporary.path());
        }
    }
}

/// Puts all replacements in place. Everything that can fail for lack of room comes first, so that
/// the names change only when each file is whole on the disk.
pub fn commit_all(mut replacements: Vec<Replacement>) -> Outcome {
    for replacement in &mut replacements {
        replacement.settle()?;
    }
    for replacement in &mut replacements {
        replacement.take_place()?;
    }
    Ok(())
}

/// A name beside the target that another run does not use.
fn name_beside(target: &Path) -> io::Result<PathBuf> {
    let Some(name) = target.file_name() else {
        return Err(io::Error::other("it is no file name"));
    };
    let mut beside = name.to_os_string();
    beside.push(format!(".{}.part", process::id()));
    Ok(target.with_file_name(beside))
}
