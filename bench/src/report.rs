// SPDX-License-Identifier: Apache-2.0
//! The tables, in Markdown.

use crate::sleeping::Slept;
use crate::timing::CALL_LENGTHS;
use std::fs;
use std::thread::available_parallelism;

/// What was found out about one side on one list.
pub struct Finding {
    pub list: &'static str,
    pub side: &'static str,
    pub nanoseconds: f64,
    pub instructions: f64,
}

/// The machine and the compilers, with no name of a host.
pub fn machine() -> String {
    let cores = available_parallelism().map_or(1, usize::from);
    format!(
        "{}, {} cores ({}). The proved archive: the kit's clang, -O3. plain.c: {}, -O3. Rust: {}, -O3.\n",
        std::env::consts::ARCH,
        cores,
        processor(),
        env!("C_COMPILER"),
        env!("RUST_COMPILER"),
    )
}

/// The processor as Linux names it: its model, or on ARM the numbers of its maker and part.
fn processor() -> String {
    let text = fs::read_to_string("/proc/cpuinfo").unwrap_or_default();
    let mut found: Vec<&str> = Vec::new();
    for line in text.lines() {
        let wanted = ["model name", "CPU implementer", "CPU part"];
        let line = line.trim();
        if wanted.iter().any(|word| line.starts_with(word)) && !found.contains(&line) {
            found.push(line);
        }
    }
    let words: Vec<String> = found
        .iter()
        .map(|line| line.replace(['\t', ':'], ""))
        .collect();
    words.join(", ")
}

/// Each list's rows, the proved program first: its time is divided by that of each.
pub fn speeds(findings: &[Finding]) -> String {
    let mut table = String::from(
        "| list | side | ns an event | events a second | time of proved / time of side | instructions an event |\n\
         |---|---|---|---|---|---|\n",
    );
    let mut proved = 0.0;
    for finding in findings {
        if finding.side == "proved" {
            proved = finding.nanoseconds;
        }
        table += &format!(
            "| {} | {} | {:.2} | {:.0} million | {:.2} | {:.1} |\n",
            finding.list,
            finding.side,
            finding.nanoseconds,
            1000.0 / finding.nanoseconds,
            proved / finding.nanoseconds,
            finding.instructions
        );
    }
    table
}

/// The cost of one call by the length of its list.
pub fn calls(nanoseconds: &[[f64; 3]]) -> String {
    let mut table = String::from(
        "| events in the call | proved, ns a call | plain.c with the same tests | proved / that | plain.c, nothing tested |\n\
         |---|---|---|---|---|\n",
    );
    for (length, [proved, tested, plain]) in CALL_LENGTHS.iter().zip(nanoseconds) {
        table += &format!(
            "| {length} | {proved:.1} | {tested:.1} | {:.2} | {plain:.1} |\n",
            proved / tested
        );
    }
    table
}

/// A leap year of ticks in one call, by the alarm that is set.
pub fn sleeps(slept: &[Slept]) -> String {
    let mut table = String::from(
        "| alarm | proved, ns a call | plain Rust, ns a call | proved / plain Rust | day numbers alone, ns | a call for no tick, ns | an empty list run, ns | the ticks one by one, ms |\n\
         |---|---|---|---|---|---|---|---|\n",
    );
    for sleep in slept {
        table += &format!(
            "| {} | {:.0} | {:.0} | {:.2} | {:.0} | {:.0} | {:.0} | {:.0} |\n",
            sleep.alarm,
            sleep.proved,
            sleep.plain,
            sleep.proved / sleep.plain,
            sleep.bare,
            sleep.none,
            sleep.empty,
            sleep.single / 1.0e6
        );
    }
    table
}
