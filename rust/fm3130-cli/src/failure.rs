// SPDX-License-Identifier: Apache-2.0
//! Why a command did not do its work, and the exit code that says so.

use std::fmt;
use std::io;
use std::path::Path;

use crate::chip::Refused;

/// Why a command did not do its work. Under each of them, files are as they were before.
#[derive(Debug)]
pub enum Failure {
    /// A file cannot be read or written, or standard output cannot be written.
    Files(String),
    /// The command line is wrong, that of a command if one is known.
    CommandLine(String, Option<&'static str>),
    /// A script or an event file is wrong, and the text shows the place; or a waveform cannot be judged.
    Script(String),
    /// An image or a memory is refused, by 01's numbers, a capture is malformed, or a trim setting is not
    /// accepted.
    Refused(String),
    /// What a script expects of the device is not so; the text shows the place.
    Unmet(String),
    /// A recorded answer is not the one that the rules give: the file is sound, and the part is not.
    Differs(String),
    /// All was said already; the exit code is left.
    Told(u8),
    /// Whoever read standard output went away, as `head` does; there is nobody to tell.
    ReaderGone,
}

/// The outcome of a part of a command.
pub type Outcome<Value = ()> = Result<Value, Failure>;

impl Failure {
    /// The exit code; `fm3130 help` lists them.
    pub fn exit_code(&self) -> u8 {
        match self {
            Failure::Files(_) | Failure::ReaderGone => 1,
            Failure::CommandLine(..) => 2,
            Failure::Script(_) => 3,
            Failure::Refused(_) | Failure::Unmet(_) => 4,
            Failure::Differs(_) => 5,
            Failure::Told(code) => *code,
        }
    }

    /// The failure of a command, whose page tells how it is called.
    pub fn in_command(self, command: &'static str) -> Failure {
        match self {
            Failure::CommandLine(words, None) => Failure::CommandLine(words, Some(command)),
            other => other,
        }
    }

    /// A file that cannot be read or written.
    pub fn of_file(path: &Path, error: &io::Error) -> Failure {
        Failure::Files(format!("{}: {error}", path.display()))
    }

    /// Standard output that cannot be written.
    pub fn of_output(error: &io::Error) -> Failure {
        match error.kind() {
            io::ErrorKind::BrokenPipe => Failure::ReaderGone,
            _ => Failure::Files(format!("standard output: {error}")),
        }
    }

    /// A file whose content the device refuses.
    pub fn of_refusal(path: &Path, refusal: impl Into<Refused>) -> Failure {
        let refusal = refusal.into();
        Failure::Refused(format!("{}: {refusal}", path.display()))
    }
}

impl fmt::Display for Failure {
    fn fmt(&self, formatter: &mut fmt::Formatter<'_>) -> fmt::Result {
        match self {
            Failure::Files(words)
            | Failure::Script(words)
            | Failure::Refused(words)
            | Failure::Unmet(words)
            | Failure::Differs(words) => formatter.write_str(words),
            Failure::CommandLine(words, None) => {
                write!(formatter, "{words}\ntry `fm3130 help`")
            }
            Failure::CommandLine(words, Some(command)) => {
                write!(formatter, "{words}\ntry `fm3130 help {command}`")
            }
            Failure::ReaderGone | Failure::Told(_) => Ok(()),
        }
    }
}
