// SPDX-License-Identifier: Apache-2.0
//! Compiles plain.c: by the kit's clang, which also compiled the proved archive, or else by `cc`. Which one it was
//! is handed to the program, so that the table can name it.

use std::env;
use std::path::{Path, PathBuf};
use std::process::Command;

fn main() {
    for file in ["build.rs", "plain.c", "plain.h"] {
        println!("cargo::rerun-if-changed={file}");
    }
    let package = PathBuf::from(env::var_os("CARGO_MANIFEST_DIR").expect("cargo sets it"));
    let out = PathBuf::from(env::var_os("OUT_DIR").expect("cargo sets it"));
    let compiler = clang_of_the_kit(&package).unwrap_or_else(|| "cc".to_string());
    compile(&compiler, &package.join("plain.c"), &out.join("plain.o"));
    archive(&out);
    println!("cargo::rustc-link-search=native={}", out.display());
    println!("cargo::rustc-link-lib=static=plain");
    println!("cargo::rustc-env=C_COMPILER={}", first_line(&compiler));
    println!("cargo::rustc-env=RUST_COMPILER={}", rust_compiler());
}

/// The kit's clang for this machine, where there is one.
fn clang_of_the_kit(package: &Path) -> Option<String> {
    let said = words(Command::new(package.join("../tools/kit.sh")))?;
    let machine = words(Command::new("uname").arg("-m"))?;
    let clang = format!("{said}/on/{machine}/toolchain/bin/clang");
    Path::new(&clang).is_file().then_some(clang)
}

/// The kit has no headers of its own, so those of `cc` are lent to its clang.
fn compile(compiler: &str, source: &Path, object: &Path) {
    let headers = words(Command::new("cc").arg("-print-file-name=include")).unwrap_or_default();
    let done = Command::new(compiler)
        .args(["-O3", "-fPIC", "-Wall", "-Wextra", "-Werror", "-isystem"])
        .arg(headers)
        .arg("-c")
        .arg(source)
        .arg("-o")
        .arg(object)
        .status();
    assert!(
        done.is_ok_and(|status| status.success()),
        "{compiler} failed"
    );
}

fn archive(out: &Path) {
    let done = Command::new("ar")
        .arg("rcs")
        .arg(out.join("libplain.a"))
        .arg(out.join("plain.o"))
        .status();
    assert!(done.is_ok_and(|status| status.success()), "ar failed");
}

fn first_line(compiler: &str) -> String {
    let version = words(Command::new(compiler).arg("--version")).unwrap_or_default();
    version.lines().next().unwrap_or("unknown").to_string()
}

/// The compiler of Rust, and the LLVM in it.
fn rust_compiler() -> String {
    let rustc = env::var("RUSTC").expect("cargo sets it");
    let version = words(Command::new(rustc).arg("-vV")).unwrap_or_default();
    let mut parts = version.lines().take(1).collect::<Vec<_>>();
    parts.extend(version.lines().filter(|line| line.starts_with("LLVM")));
    parts.join(", ")
}

/// What a command prints, where it ends well.
fn words(mut command: impl std::borrow::BorrowMut<Command>) -> Option<String> {
    let output = command.borrow_mut().output().ok()?;
    let text = String::from_utf8(output.stdout).ok()?;
    output.status.success().then(|| text.trim().to_string())
}
