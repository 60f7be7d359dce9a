// SPDX-License-Identifier: Apache-2.0
//! The clock: all sides in one process, in alternating rounds; of each side the fastest round counts.

use crate::sides::{PlainC, Proved, Side, TestedC};
use crate::traffic::Traffic;
use second::generate::fill_memory;
use second::MEMORY_BYTES;
use std::hint::black_box;
use std::time::Instant;

/// Enough that each side has a round which nothing disturbed.
const ROUNDS: usize = 60;

/// The lengths of lists at which the cost of one call is shown.
pub const CALL_LENGTHS: [usize; 4] = [1, 10, 100, 10_000];

/// The memory that a list begins with.
pub fn memory_of(traffic: &Traffic) -> Vec<u8> {
    let mut memory = vec![0; MEMORY_BYTES];
    fill_memory(traffic.memory_seed, &mut memory);
    memory
}

/// Panics unless all sides leave the same answers and the same memory as the second program, which stands last.
pub fn check(sides: &mut [Box<dyn Side>], traffic: &Traffic) {
    let memory = memory_of(traffic);
    let mut left = Vec::new();
    for side in sides.iter_mut() {
        let mut answers = vec![0xEE; traffic.events.len()];
        side.reset(&memory);
        side.run(&traffic.events, &mut answers);
        left.push((side.name(), answers, side.memory().to_vec()));
    }
    let (_, answers, memory) = left.last().expect("there are sides");
    for (name, found, found_memory) in &left {
        let same = found == answers && found_memory == memory;
        assert!(
            same,
            "{name} and the second program differ on {}",
            traffic.name
        );
    }
}

/// Nanoseconds an event, for each side.
pub fn time(sides: &mut [Box<dyn Side>], traffic: &Traffic) -> Vec<f64> {
    let memory = memory_of(traffic);
    let mut answers = vec![0; traffic.events.len()];
    let mut fastest = vec![f64::INFINITY; sides.len()];
    for _ in 0..ROUNDS {
        for (side, best) in sides.iter_mut().zip(&mut fastest) {
            side.reset(&memory);
            *best = best.min(time_once(side.as_mut(), &traffic.events, &mut answers));
        }
    }
    let events = traffic.events.len() as f64;
    fastest.iter().map(|best| best / events).collect()
}

/// Nanoseconds of one run.
fn time_once(side: &mut dyn Side, events: &[u8], answers: &mut [u8]) -> f64 {
    let began = Instant::now();
    side.run(black_box(events), black_box(answers));
    began.elapsed().as_nanos() as f64
}

/// Nanoseconds a call of the proved program, of plain.c with the same tests, and of plain.c without any, for lists of so
/// many events each.
pub fn time_calls(traffic: &Traffic, length: usize) -> [f64; 3] {
    let memory = memory_of(traffic);
    let mut sides: [Box<dyn Side>; 3] = [
        Box::new(Proved::new()),
        Box::new(TestedC::new()),
        Box::new(PlainC::new()),
    ];
    let mut answers = vec![0; length];
    let mut fastest = [f64::INFINITY; 3];
    let calls = (traffic.events.len() / length) as f64;
    for _ in 0..ROUNDS {
        for (side, best) in sides.iter_mut().zip(&mut fastest) {
            side.reset(&memory);
            let began = Instant::now();
            for events in traffic.events.chunks_exact(length) {
                side.run(black_box(events), black_box(&mut answers));
            }
            *best = best.min(began.elapsed().as_nanos() as f64 / calls);
        }
    }
    fastest
}
