// SPDX-License-Identifier: Apache-2.0
//! The crates of crates.txt, in its order.

use std::fs;
use std::path::Path;

/// A crate, and those that its line says it stands on.
pub struct Crate {
    pub name: String,
    /// Whether it is a static library, which exports functions to C.
    pub is_static: bool,
    pub below: Vec<String>,
}

impl Crate {
    /// The library that a thin static library hands on to C: `c_run` for `c_run_c`.
    pub fn handed_on(&self) -> Option<&str> {
        let name = self.name.strip_suffix("_c")?;
        (self.is_static && self.below.iter().any(|below| below == name)).then_some(name)
    }
}

/// All of them, of the repository whose top this is.
pub fn all(top: &Path) -> Vec<Crate> {
    let list = fs::read_to_string(top.join("crates.txt")).unwrap();
    let lines = list.lines().filter(|line| !line.starts_with('#'));
    let halves = lines.filter_map(|line| line.split_once(':'));
    halves.map(crate_of).collect()
}

/// The two halves of a line, `NAME` or `NAME staticlib`, and the crates below.
fn crate_of((head, below): (&str, &str)) -> Crate {
    let mut words = head.split_whitespace();
    Crate {
        name: words.next().unwrap().to_string(),
        is_static: words.next() == Some("staticlib"),
        below: below.split_whitespace().map(str::to_string).collect(),
    }
}
