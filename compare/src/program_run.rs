// SPDX-License-Identifier: Apache-2.0
//! Writes what a proved program is run on, and what it has to print, into the folder that a command line names.

use std::path::Path;
use std::{env, fs, io, process};

/// Writes the files `stdin` and `stdout`; without a folder, says how the command is used.
pub fn write(command: &str, input_and_output: fn() -> (Vec<u8>, String)) -> io::Result<()> {
    let Some(folder) = env::args().nth(1) else {
        eprintln!("usage: {command} FOLDER");
        process::exit(2);
    };
    let (input, output) = input_and_output();
    fs::write(Path::new(&folder).join("stdin"), input)?;
    fs::write(Path::new(&folder).join("stdout"), output)
}
