// SPDX-License-Identifier: Apache-2.0
//! No files of a Rust package use each other in a circle.

use compare::edits::top;
use compare::layers::Package;

/// The packages of the workspace, each with a number of files that would be few; without the second program, which is
/// written apart and has circles.
const PACKAGES: [(&str, usize); 5] = [
    ("compare", 15),
    ("bench", 10),
    ("rust/fm3130-sys", 1),
    ("rust/fm3130", 25),
    ("rust/fm3130-cli", 50),
];

#[test]
fn no_files_of_a_package_stand_in_a_circle() {
    let mut faults = vec![];
    for (name, few) in PACKAGES {
        let package = Package::read(&top().join(name).join("src"));
        let count = package.number_of_files();
        assert!(count >= few, "{name}: {count} files are few");
        let circles = package.circles();
        faults.extend(circles.iter().map(|circle| format!("{name}: {circle}")));
    }
    assert!(faults.is_empty(), "{}", faults.join("\n"));
}

/// The circles of a package of these files, each with its program.
fn circles_of(files: &[(&str, &str)]) -> Vec<String> {
    let files = files
        .iter()
        .map(|(file, text)| (file.into(), text.to_string()));
    Package::of(files.collect()).circles()
}

#[test]
fn a_circle_is_noticed_by_whatever_path_a_file_is_used() {
    let lib = "mod a; mod b; pub use a::{One, Two as Other}; pub use b::*;";
    for used in [
        "use crate::a::One;",
        "use super::a::{self, One};",
        "use crate::{a};\nfn f() -> a::One { a::One }",
        "fn f() -> crate::a::One { crate::a::One }",
        "use crate::Other;",
        "fn f() { super::One::new() }",
        "#[cfg(test)]\nmod tests { fn g() {} }\nuse crate::One;",
    ] {
        let circles = circles_of(&[
            ("lib.rs", lib),
            ("a.rs", "use crate::b::Three;"),
            ("b.rs", used),
        ]);
        assert_eq!(circles, ["a uses b uses a"], "{used}");
    }
}

#[test]
fn a_long_circle_is_named_whole() {
    let circles = circles_of(&[
        ("main.rs", "mod a; mod c; fn main() { a::run() }"),
        ("a/mod.rs", "mod b; pub use b::Below; use b::More;"),
        ("a/b.rs", "use crate::c::Third;"),
        ("c.rs", "use crate::a::run;"),
    ]);
    assert_eq!(circles, ["a uses a/b uses c uses a"]);
}

#[test]
fn what_is_no_use_makes_no_circle() {
    let lib = "mod a; mod b; pub use a::One; pub const LENGTH: usize = 1;";
    for no_use in [
        "// use crate::a::One;\n/* crate::a::One */",
        "const WORDS: &str = \"\\\" crate::a::One\";",
        "const WORDS: &str = r#\"\" crate::a::One\"#;",
        "fn f<'a>(mark: &'a str) -> char { '\"' } // \" crate::a::One",
        "#[cfg(test)]\nmod tests { use crate::a::One; }",
        "pub use crate::a::One;",
        "use other::a::One;",
        "use crate::LENGTH;",
    ] {
        let circles = circles_of(&[
            ("lib.rs", lib),
            ("a.rs", "use crate::b::Three;"),
            ("b.rs", no_use),
        ]);
        assert!(circles.is_empty(), "{no_use}: {circles:?}");
    }
}
