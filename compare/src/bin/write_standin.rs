// SPDX-License-Identifier: Apache-2.0
//! Writes what the proved program `main_standin` is run on, and what it has to print, into the folder named.

fn main() -> std::io::Result<()> {
    compare::program_run::write("write_standin", compare::standin::input_and_output)
}
