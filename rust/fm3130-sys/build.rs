// SPDX-License-Identifier: Apache-2.0
//! Links the proved archive, `build/lib/MACHINE/libfm3130.a` below the top of the workspace. `tools/library.sh` puts it there: the
//! one that was proved on this machine, or that of `dist/`.

use std::env;
use std::fs::{self, File};
use std::path::{Path, PathBuf};
use std::process::Command;

/// The file that marks the top of the workspace.
const MARK_OF_THE_TOP: &str = "crates.txt";

/// Where the archives lie, seen from the top, each in a folder for its machine.
const FOLDER_OF_THE_ARCHIVES: &str = "build/lib";

/// The archive's file name.
const ARCHIVE: &str = "libfm3130.a";

/// What puts the archives there, and what says that those of `dist/` have changed.
const PUTS_IT_THERE: &str = "tools/library.sh";
const SUMS: &str = "dist/SUMS";

fn main() {
    println!("cargo::rerun-if-changed=build.rs");
    let package = PathBuf::from(env::var_os("CARGO_MANIFEST_DIR").unwrap_or_default());
    match top_of_workspace(&package) {
        Some(top) => link_archive_below(top),
        None => println!("cargo::error=no folder above this package has a file {MARK_OF_THE_TOP}"),
    }
}

/// The nearest folder, from the package upwards, that holds the mark.
fn top_of_workspace(package: &Path) -> Option<&Path> {
    package
        .ancestors()
        .find(|folder| folder.join(MARK_OF_THE_TOP).is_file())
}

/// Tells cargo where the archive is, or what to do if it is not there.
fn link_archive_below(top: &Path) {
    let machine = env::var("CARGO_CFG_TARGET_ARCH").unwrap_or_default();
    let folder = top.join(FOLDER_OF_THE_ARCHIVES).join(&machine);
    let archive = folder.join(ARCHIVE);
    let was_there = archive.is_file();
    let words = put_there(top);
    if !archive.is_file() {
        let wanted = format!("{FOLDER_OF_THE_ARCHIVES}/{machine}/{ARCHIVE}");
        println!("cargo::error=the proved archive {wanted} is missing: {words}");
        return;
    }
    if !was_there {
        make_older(&archive, &top.join(SUMS));
    }
    println!("cargo::rerun-if-changed={}", archive.display());
    println!("cargo::rerun-if-changed={}", top.join(SUMS).display());
    println!("cargo::rustc-link-search=native={}", folder.display());
    println!("cargo::rustc-link-lib=static=fm3130");
}

/// Sees that the archives are there; what was said about it, in one line. Where the crates have changed and are not proved yet,
/// those that are there stay.
fn put_there(top: &Path) -> String {
    match Command::new(top.join(PUTS_IT_THERE)).output() {
        Ok(done) => {
            let said = String::from_utf8_lossy(&done.stderr);
            said.split('\n').collect::<Vec<_>>().join(" ")
        }
        Err(error) => format!("{PUTS_IT_THERE} could not be run: {error}"),
    }
}

/// Gives a file the time of another. Cargo runs this program again if a file is younger than its last run, and the archive that
/// the run itself has put there would be.
fn make_older(file: &Path, than: &Path) {
    let time = fs::metadata(than).and_then(|it| it.modified());
    if let (Ok(time), Ok(file)) = (time, File::options().write(true).open(file)) {
        // If it cannot be, all is compiled once more.
        let _ = file.set_modified(time);
    }
}
