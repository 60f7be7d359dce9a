// SPDX-License-Identifier: Apache-2.0
//! Prints K1 to K12: the name, the sentence and what was found.

fn main() {
    let mut all_hold = true;
    for case in second::table::cases() {
        let verdict = if case.holds() { "holds" } else { "FAILS" };
        println!("{}: {}", case.name, case.sentence);
        println!("    found    {}", case.found);
        if !case.holds() {
            println!("    expected {}", case.expected);
            all_hold = false;
        }
        println!("    {verdict}");
    }
    if !all_hold {
        std::process::exit(1);
    }
}
