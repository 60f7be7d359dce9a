// SPDX-License-Identifier: Apache-2.0
//! Looks up every quotation of the tree in the papers, and writes the list of their sums; where one is in no paper, or the
//! papers are not at hand, it says so and writes nothing.

use compare::edits::top;
use compare::quotations::{all, list_of, Papers, LIST};

fn main() -> std::io::Result<()> {
    let Some(papers) = Papers::in_folder(&top().join("../shared")) else {
        eprintln!("the papers are not all in ../shared: no quotation can be looked up");
        std::process::exit(1);
    };
    let (quotations, mut faults) = all(&top());
    faults.extend(papers.faults(&quotations));
    for fault in &faults {
        eprintln!("{fault}");
    }
    if faults.is_empty() {
        std::fs::write(top().join(LIST), list_of(&quotations))?;
        println!("{LIST}: {} quotations", quotations.len());
    }
    std::process::exit(i32::from(!faults.is_empty()));
}
