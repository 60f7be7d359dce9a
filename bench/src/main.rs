// SPDX-License-Identifier: Apache-2.0
//! Times the proved list run beside plain programs of the same shape, and prints the tables.
//!
//!     bench                      all tables
//!     bench --sleep              the table of catching up alone
//!     bench --hold FILE          the counts of the proved archive, held to those that the file stores (x86-64)
//!     bench --count LIST SIDE    one run, for valgrind to count; --count-one EVENT SIDE: a call of one event
//!
//! * [`traffic`]: the lists of events.
//! * [`sides`]: the programs; [`plain`] is the one in Rust that is written for speed.
//! * [`timing`], [`counting`]: the clock, and instructions by valgrind; [`holding`] sees that no count grows.
//! * [`sleeping`]: many ticks in one call; [`plain_sleep`] is the same work by a plain program, and [`sameness`] sees that it is.
//! * [`report`]: the tables.

mod counting;
mod holding;
mod plain;
mod plain_sleep;
mod report;
mod sameness;
mod sides;
mod sleeping;
mod timing;
mod traffic;

use report::Finding;
use sides::Side;
use traffic::Traffic;

fn main() {
    let words: Vec<String> = std::env::args().skip(1).collect();
    match words.as_slice() {
        [] => print_tables(),
        [option] if option == "--sleep" => println!("{}", report::sleeps(&sleeping::all())),
        [option, file] if option == "--hold" => hold(file),
        [option, list, side] if option == "--count" => run_for_valgrind(list, side),
        [option, event, side] if option == "--count-one" => run_one_for_valgrind(event, side),
        _ => {
            eprintln!(
                "usage: bench [--sleep | --hold FILE | --count LIST SIDE | --count-one EVENT SIDE]"
            );
            std::process::exit(2);
        }
    }
}

fn print_tables() {
    let lists = traffic::all();
    let mut sides = sides::all();
    for list in &lists {
        timing::check(&mut sides, list);
    }
    sameness::check_runs(sameness::IMAGES);
    println!("{}", report::machine());
    for list in &lists {
        println!(
            "- `{}`: {}, {} events",
            list.name,
            list.about,
            list.events.len()
        );
    }
    let findings: Vec<Finding> = lists
        .iter()
        .flat_map(|list| measure(&mut sides, list))
        .collect();
    println!("\n{}", report::speeds(&findings));
    println!("{}", report::calls(&call_times(&lists[0])));
    println!("{}", report::sleeps(&sleeping::all()));
}

/// Time and instructions of every side on one list.
fn measure(sides: &mut [Box<dyn Side>], list: &Traffic) -> Vec<Finding> {
    let times = timing::time(sides, list);
    sides
        .iter()
        .zip(times)
        .map(|(side, nanoseconds)| Finding {
            list: list.name,
            side: side.name(),
            nanoseconds,
            instructions: counting::count(list, side.name()),
        })
        .collect()
}

fn call_times(list: &Traffic) -> Vec<[f64; 3]> {
    timing::CALL_LENGTHS
        .iter()
        .map(|length| timing::time_calls(list, *length))
        .collect()
}

/// Ends with status 1 where a count has grown, or is not stored.
fn hold(file: &str) {
    let document = std::fs::read_to_string(file).unwrap_or_else(|error| {
        eprintln!("bench: {file}: {error}");
        std::process::exit(2);
    });
    if !holding::hold(&document) {
        eprintln!("bench: a count has grown by more than a twentieth, or is not stored in {file}");
        std::process::exit(1);
    }
}

fn run_one_for_valgrind(event: &str, side: &str) {
    let mut sides = sides::all();
    let side = sides.iter_mut().find(|each| each.name() == side);
    match (event.parse(), side) {
        (Ok(event), Some(side)) => counting::run_one_counted(side.as_mut(), event),
        _ => panic!("there is no such event or side"),
    }
}

fn run_for_valgrind(list: &str, side: &str) {
    let lists = traffic::all();
    let mut sides = sides::all();
    let list = lists.iter().find(|each| each.name == list);
    let side = sides.iter_mut().find(|each| each.name() == side);
    match (list, side) {
        (Some(list), Some(side)) => counting::run_counted(side.as_mut(), list),
        _ => panic!("there is no such list or side"),
    }
}
