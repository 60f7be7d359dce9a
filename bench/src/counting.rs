// SPDX-License-Identifier: Apache-2.0
//! Instructions, counted by valgrind: this program starts itself once more for a list and a side. The count repeats
//! exactly, whatever else the machine does.

use crate::sides::Side;
use crate::timing::memory_of;
use crate::traffic::Traffic;
use second::MEMORY_BYTES;
use std::env;
use std::process::Command;

/// The function between whose beginning and end valgrind counts.
const COUNTED: &str = "bench_counted";

#[no_mangle]
#[inline(never)]
fn bench_counted(side: &mut dyn Side, events: &[u8], answers: &mut [u8]) {
    side.run(events, answers);
}

/// The run that is counted.
pub fn run_counted(side: &mut dyn Side, traffic: &Traffic) {
    let mut answers = vec![0; traffic.events.len()];
    side.reset(&memory_of(traffic));
    bench_counted(side, &traffic.events, &mut answers);
}

/// The events before the one that is counted by itself: a transfer with its first bits, so that a Clock falls in a byte.
const BEFORE: [u8; 4] = [0, 3, 2, 3];

/// The call of one event that is counted.
pub fn run_one_counted(side: &mut dyn Side, event: u8) {
    let mut answers = [0; BEFORE.len()];
    side.reset(&[0; MEMORY_BYTES]);
    side.run(&BEFORE, &mut answers);
    bench_counted(side, &[event], &mut answers[..1]);
}

/// Instructions an event.
pub fn count(traffic: &Traffic, side: &str) -> f64 {
    collected(&["--count", traffic.name, side]) / traffic.events.len() as f64
}

/// Instructions of a call of one event.
pub fn count_one(event: u8, side: &str) -> f64 {
    collected(&["--count-one", &event.to_string(), side])
}

/// Instructions that valgrind counts in this program, started with these words.
fn collected(words: &[&str]) -> f64 {
    let this = env::current_exe().expect("the system knows this program's place");
    let output = Command::new("valgrind")
        .args(["--tool=callgrind", "--callgrind-out-file=/dev/null"])
        .arg(format!("--toggle-collect={COUNTED}"))
        .arg(this)
        .args(words)
        .output()
        .unwrap_or_else(|error| panic!("valgrind: {error}; `tools/setup.sh bench` installs it"));
    let said = String::from_utf8_lossy(&output.stderr);
    let collected = said
        .lines()
        .find_map(|line| line.split_once("Collected :"))
        .unwrap_or_else(|| panic!("valgrind counted nothing:\n{said}"));
    collected
        .1
        .trim()
        .parse()
        .expect("valgrind prints a number")
}
