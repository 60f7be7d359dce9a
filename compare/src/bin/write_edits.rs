// SPDX-License-Identifier: Apache-2.0
//! Writes docs/EDITS.md from the logs of the edits that the prover refused, and names each edit that shows nothing yet.

use compare::edits::{page, top};

fn main() -> std::io::Result<()> {
    let file = top().join("docs/EDITS.md");
    let old = std::fs::read_to_string(&file).unwrap_or_default();
    let (text, faults) = page(&top(), &old);
    std::fs::write(&file, text)?;
    for fault in &faults {
        eprintln!("{fault}");
    }
    std::process::exit(i32::from(!faults.is_empty()));
}
