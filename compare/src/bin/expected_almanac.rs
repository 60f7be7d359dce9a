// SPDX-License-Identifier: Apache-2.0
//! Prints what the proved program `main_almanac` has to print; `crates/main_almanac/stdout` is this text.

fn main() {
    print!("{}", compare::almanac::expected());
}
