// SPDX-License-Identifier: Apache-2.0
//! Writes what the proved program `main_panel` is run on, and what it has to print, into the folder named.

fn main() -> std::io::Result<()> {
    compare::program_run::write("write_panel", compare::panel::input_and_output)
}
