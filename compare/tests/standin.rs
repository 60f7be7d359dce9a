// SPDX-License-Identifier: Apache-2.0
//! `rt` runs the proved program on `crates/main_standin/stdin` and holds it to `stdout`; this holds both files to the
//! second program.

use compare::standin::{input_and_output, sample};

#[test]
fn stored_files_are_the_second_programs() {
    let (input, output) = input_and_output();
    assert!(
        include_bytes!("../../crates/main_standin/stdin")[..] == input[..],
        "stdin is not the sample"
    );
    assert!(
        include_str!("../../crates/main_standin/stdout") == output,
        "stdout is not the second program's"
    );
}

#[test]
fn the_sample_has_200_000_events() {
    let events: usize = sample().iter().map(Vec::len).sum();
    assert!(events >= 200_000, "{events}");
}
