// SPDX-License-Identifier: Apache-2.0
//! Runs the command in a folder of its own.

// Each test program uses a part of this module only.
#![allow(dead_code)]

use std::fs;
use std::io::Write;
use std::path::{Path, PathBuf};
use std::process::{Command, Output, Stdio};

/// A folder that is empty at the begin of a test.
pub struct Folder {
    path: PathBuf,
}

/// No link stays in it: the folder lies in the repository's build/, and `rt ci` refuses links.
impl Drop for Folder {
    fn drop(&mut self) {
        for entry in fs::read_dir(&self.path).into_iter().flatten().flatten() {
            if entry.path().is_symlink() {
                let _ = fs::remove_file(entry.path());
            }
        }
    }
}

impl Folder {
    /// An empty folder; every test has a name of its own.
    pub fn new(name: &str) -> Folder {
        let path = Path::new(env!("CARGO_TARGET_TMPDIR")).join(name);
        let _ = fs::remove_dir_all(&path);
        fs::create_dir_all(&path).unwrap();
        Folder { path }
    }

    /// A file in the folder.
    pub fn file(&self, name: &str) -> PathBuf {
        self.path.join(name)
    }

    /// Writes a file.
    pub fn write(&self, name: &str, bytes: impl AsRef<[u8]>) {
        fs::write(self.file(name), bytes).unwrap();
    }

    /// Reads a file.
    pub fn read(&self, name: &str) -> Vec<u8> {
        fs::read(self.file(name)).unwrap()
    }

    /// The names and the bytes of all files.
    pub fn snapshot(&self) -> Vec<(String, Vec<u8>)> {
        let mut files: Vec<(String, Vec<u8>)> = fs::read_dir(&self.path)
            .unwrap()
            .map(|entry| entry.unwrap())
            .filter(|entry| entry.path().is_file())
            .map(|entry| {
                let name = entry.file_name().into_string().unwrap();
                (name, fs::read(entry.path()).unwrap())
            })
            .collect();
        files.sort();
        files
    }

    /// Runs the command in the folder, with a text on standard input.
    pub fn run_with(&self, words: &[&str], input: &str) -> Ran {
        let mut child = Command::new(env!("CARGO_BIN_EXE_fm3130"))
            .args(words)
            .current_dir(&self.path)
            .stdin(Stdio::piped())
            .stdout(Stdio::piped())
            .stderr(Stdio::piped())
            .spawn()
            .unwrap();
        // A command that reads no input may be gone already.
        let _ = child.stdin.take().unwrap().write_all(input.as_bytes());
        Ran::of(child.wait_with_output().unwrap())
    }

    /// Runs the command in the folder.
    pub fn run(&self, words: &[&str]) -> Ran {
        self.run_with(words, "")
    }

    /// Runs the command with its two outputs going elsewhere.
    pub fn run_to(&self, words: &[&str], output: Stdio, errors: Stdio) -> Ran {
        let child = Command::new(env!("CARGO_BIN_EXE_fm3130"))
            .args(words)
            .current_dir(&self.path)
            .stdin(Stdio::null())
            .stdout(output)
            .stderr(errors)
            .spawn()
            .unwrap();
        Ran::of(child.wait_with_output().unwrap())
    }

    /// Runs the command, which must succeed.
    pub fn succeed(&self, words: &[&str]) -> String {
        let ran = self.run(words);
        assert_eq!(ran.code, 0, "{words:?}: {}", ran.errors);
        ran.output
    }
}

/// What a command left.
pub struct Ran {
    /// The exit code.
    pub code: i32,
    /// Standard output.
    pub output: String,
    /// Standard error.
    pub errors: String,
}

impl Ran {
    fn of(output: Output) -> Ran {
        Ran {
            code: output.status.code().unwrap(),
            output: String::from_utf8(output.stdout).unwrap(),
            errors: String::from_utf8(output.stderr).unwrap(),
        }
    }
}

/// The folder of the example scripts.
pub fn scripts() -> PathBuf {
    Path::new(env!("CARGO_MANIFEST_DIR")).join("../../scripts")
}

/// The names of the example scripts for the FM3130, without folder and ending.
pub fn script_names() -> Vec<String> {
    let names = all_script_names();
    let is_for_it = |name: &String| part_of(name) == "fm3130";
    names.into_iter().filter(is_for_it).collect()
}

/// The part that a script is for: another than the FM3130 is named in a comment, as the command takes it.
pub fn part_of(name: &str) -> String {
    let text = fs::read_to_string(script(name)).unwrap();
    let named = text.split("--part ").nth(1);
    let word = named.and_then(|rest| rest.split_whitespace().next());
    word.unwrap_or("fm3130").to_string()
}

/// The names of all example scripts.
pub fn all_script_names() -> Vec<String> {
    let mut names: Vec<String> = fs::read_dir(scripts())
        .unwrap()
        .map(|entry| entry.unwrap().path())
        .filter(|path| path.extension().is_some_and(|ending| ending == "bus"))
        .map(|path| path.file_stem().unwrap().to_str().unwrap().to_string())
        .collect();
    names.sort();
    assert!(names.len() >= 6, "the example scripts are missing");
    names
}

/// The path of an example script.
pub fn script(name: &str) -> String {
    let path = scripts().join(format!("{name}.bus"));
    path.to_str().unwrap().to_string()
}
