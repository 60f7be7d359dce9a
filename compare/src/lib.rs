// SPDX-License-Identifier: Apache-2.0
//! Holds the proved programs to what the second program says. Nothing here knows
//! the rules: one side is `second`, the other is the proved program.
//!
//! * [`archive`]: the proved program's entries, as C sees them.
//! * [`image`]: the second program's device as the 64 bytes of docs/IMAGE.md.
//! * [`lists`]: a list of events on both, whole and in pieces.
//! * [`family`]: the larger family on both, at each size.
//! * [`lamps`]: the lamps on both, and lists that try them.
//! * [`set`]: one to four parts of the larger family on one line, on both.
//! * [`standin`]: what the proved stand-in is run on, and what it has to print.
//! * [`captures`]: files to judge, the second program's verdict on each, and what the proved judge is run on.
//! * [`panel`]: what the proved program of the lamps is run on, and what it has to print.
//! * [`program_run`]: writes what such a program is run on, and what it has to print.
//! * [`almanac`]: what the proved calendar has to print.
//! * [`layers`]: which files of a Rust package use which. [`rust_words`]: the words of a program in Rust.
//! * [`edits`]: what the prover said of each edit that it must refuse. [`crates`]: the crates of crates.txt.
//! * [`public`]: the public functions of the crates. [`reached`]: what is called when a function is.
//! * [`prose`]: what people read in the files of the tree. [`points`]: a page of points.
//! * [`quotations`]: quotations, and the papers whose words they are.

pub mod almanac;
pub mod archive;
pub mod captures;
pub mod crates;
pub mod edits;
pub mod family;
pub mod image;
pub mod lamps;
pub mod layers;
pub mod lists;
pub mod panel;
pub mod points;
pub mod program_run;
pub mod prose;
pub mod public;
pub mod quotations;
pub mod reached;
pub mod rust_words;
pub mod set;
pub mod standin;
