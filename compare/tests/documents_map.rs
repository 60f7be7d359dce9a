// SPDX-License-Identifier: Apache-2.0
//! docs/STATEMENTS.md is a map to the code that runs.
//!
//! * A sentence that has code by value has code in the image, and the other way round.
//! * What stands as code in the image is called when C has events done; what stands by value and is called there stands in both lines.
//! * Every function of the crates that change the image is on it, and every edit of theirs.
//!
//! And the way of docs/READING.md has every file of definitions that the contract of the list run rests on.

use compare::edits::{self, top};
use compare::points::{self, Point};
use compare::reached::reached;
use std::collections::BTreeSet;
use std::fs;

const BY_VALUE: &str = "by value";
const IN_THE_IMAGE: &str = "in the image";

/// The entries for C that have events done, or begin a device.
const RUN: [&str; 3] = ["fm3130_run", "fm3130_step", "fm3130_fresh"];

fn page() -> String {
    fs::read_to_string(top().join("docs/STATEMENTS.md")).unwrap()
}

fn points() -> Vec<Point> {
    points::points_of(&page())
}

#[test]
fn code_by_value_and_code_in_the_image_stand_together() {
    let mut both = 0;
    for point in points() {
        let [value, image] = [BY_VALUE, IN_THE_IMAGE].map(|label| point.lines.contains_key(label));
        assert_eq!(value, image, "{}", point.about);
        both += usize::from(value);
    }
    assert!(both > 50, "{both} sentences are few");
}

#[test]
fn code_in_the_image_is_code_that_runs() {
    let reached = reached(&RUN);
    let mut faults = vec![];
    for point in points() {
        let names = point.names(IN_THE_IMAGE).into_iter();
        let idle = names.filter(|name| !reached.contains(*name));
        faults.extend(idle.map(|name| format!("{}: {name} does not run", point.about)));
    }
    assert!(faults.is_empty(), "{}", faults.join("\n"));
}

#[test]
fn code_by_value_that_runs_stands_in_both_lines() {
    let reached = reached(&RUN);
    let mut faults = vec![];
    for point in points() {
        let image = point.names(IN_THE_IMAGE);
        let names = point.names(BY_VALUE).into_iter();
        let running = names.filter(|name| reached.contains(*name) && !image.contains(name));
        faults.extend(running.map(|name| format!("{}: {name} runs too", point.about)));
    }
    assert!(faults.is_empty(), "{}", faults.join("\n"));
}

/// The parts of the page on 01's rules of the device. The viewer's functions in Rattle are entries too.
const OF_THE_DEVICE: [&str; 5] = [
    "Event bytes and answer bytes",
    "Entries and refusal numbers",
    "Transfers",
    "Registers",
    "Ticks, alarm, power",
];

#[test]
fn a_rule_of_the_device_with_one_code_has_code_that_runs() {
    let reached = reached(&[&RUN[..], &["view", "view_number", "fm3130_view_number"]].concat());
    let mut names = 0;
    for point in points() {
        if !OF_THE_DEVICE.contains(&point.title.as_str()) {
            continue;
        }
        for name in point
            .names("code")
            .into_iter()
            .filter(|name| name.contains('.'))
        {
            assert!(
                reached.contains(name),
                "{}: {name} does not run",
                point.about
            );
            names += 1;
        }
    }
    assert!(names > 10, "{names} functions are few");
}

/// The crates that change the image when an event is done.
const OF_THE_IMAGE: [&str; 6] = [
    "place_companion/src/",
    "place_tick/src/",
    "place_clock/src/",
    "place_event/src/",
    "place_rows/src/",
    "place_list/src/",
];

#[test]
fn what_changes_the_image_is_on_the_map() {
    let points = points();
    let names = |point| [IN_THE_IMAGE, "code"].map(|label| Point::names(point, label));
    let on_map: BTreeSet<&str> = points.iter().flat_map(names).flatten().collect();
    let of_image = |name: &&String| OF_THE_IMAGE.iter().any(|folder| name.starts_with(folder));
    let reached = reached(&RUN);
    let off_map = |name: &&String| !on_map.contains(name.as_str());
    let gone: Vec<&String> = reached.iter().filter(of_image).filter(off_map).collect();
    assert!(gone.is_empty(), "not on the map: {gone:?}");
}

#[test]
fn edits_of_what_changes_the_image_are_on_the_map() {
    let page = page();
    let edits = edits::all(&top());
    let of_image = edits.iter().filter(|edit| {
        let folder = format!("{}/src/", edit.owner);
        OF_THE_IMAGE.contains(&folder.as_str())
    });
    let paths: Vec<String> = of_image.map(|edit| edit.path()).collect();
    assert!(paths.len() > 12, "{} edits are few", paths.len());
    let off_map = |path: &&String| !page.contains(&format!("`{path}`"));
    let gone: Vec<&String> = paths.iter().filter(off_map).collect();
    assert!(gone.is_empty(), "not on the map: {gone:?}");
}

#[test]
fn what_runs_is_told_from_what_does_not() {
    let reached = reached(&["fm3130_run"]);
    for name in [
        "c_run/src/run.run_events",
        "place_clock/src/receive.put",
        "place_companion/src/lib.store",
        "calendar/src/lib.next",
    ] {
        assert!(reached.contains(name), "{name}");
    }
    for name in [
        "fm3130/src/step.step",
        "bus/src/event.other",
        "wire/src/storing.put",
        "fm3130_companion/src/part.store",
    ] {
        assert!(!reached.contains(name), "{name}");
    }
}

/// What a trait declares is done by each type that has it.
#[test]
fn what_a_trait_declares_leads_to_what_types_do() {
    let reached = reached(&["advance"]);
    for name in [
        "bus_deeds/src/serve.serve",
        "bus_deeds/src/serve.store",
        "fm3130_companion/src/part.store",
        "fm31_counters/src/part.store",
        "fm3130_companion/src/write.written",
    ] {
        assert!(reached.contains(name), "{name}");
    }
}

/// A file of specs that a line brings in, as the documents write it: `wire/specs/Bits`.
fn file_used(line: &str) -> Option<String> {
    let path = line
        .trim_start_matches("unfoldable ")
        .trim_start_matches("pub ");
    let (owner, rest) = path.strip_prefix("use Rattle.")?.split_once(".specs.")?;
    let module = rest.split([' ', '{']).next()?.trim_end_matches('.');
    let names: Vec<&str> = module.split('.').collect();
    let longest = (1..=names.len()).rev().map(|many| names[..many].join("/"));
    let mut files = longest.map(|file| format!("{owner}/specs/{file}"));
    files.find(|file| spec(file).is_some())
}

fn spec(file: &str) -> Option<String> {
    fs::read_to_string(top().join(format!("crates/{file}.antt"))).ok()
}

/// A file of specs and all that it uses, directly or not; what the prover declares of the code is no file.
fn rests_on(file: &str) -> BTreeSet<String> {
    let mut found = BTreeSet::new();
    let mut waiting = vec![file.to_string()];
    while let Some(file) = waiting.pop() {
        if found.insert(file.clone()) {
            let text = spec(&file).unwrap();
            waiting.extend(text.lines().filter_map(file_used));
        }
    }
    found
}

#[test]
fn the_way_has_every_file_that_the_list_run_rests_on() {
    let page = fs::read_to_string(top().join("docs/READING.md")).unwrap();
    let (_, way) = page.split_once("\n## The way, in order\n").unwrap();
    let way = way.split("\n## ").next().unwrap();
    let named: BTreeSet<&str> = points::names_in(way).into_iter().collect();
    let files = rests_on("c_run/specs/Run");
    let gone: Vec<&String> = files
        .iter()
        .filter(|file| !named.contains(file.as_str()))
        .collect();
    assert!(gone.is_empty(), "not on the way: {gone:?}");
    let told = format!("rests on {} files", files.len());
    assert!(page.contains(&told), "docs/READING.md does not say: {told}");
}
