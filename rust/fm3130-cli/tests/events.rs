// SPDX-License-Identifier: Apache-2.0
//! Scripts to events and back, and event files on the device.

mod support;

use support::{all_script_names, part_of, script, Folder};

#[test]
fn events_are_printed_in_hexadecimal() {
    let folder = Folder::new("events-printed");
    let printed = folder.run_with(&["events", "-"], "[ A0 ] t:20");
    let expected = "00 03 02 03 02 02 02 02 02 03 01 04 04 04 04 04 04 04 04 04 04 04 04 04\n\
                    04 04 04 04 04 04 04\n";
    assert_eq!(printed.output, expected);
    assert_eq!(folder.run_with(&["events", "-"], "# nothing").output, "");
}

/// Lists an event file, and turns the listing into events again.
fn there_and_back(folder: &Folder, part: &str) -> Vec<u8> {
    let listing = folder.succeed(&["events", "--list", "events", "--part", part]);
    folder.write("listing.bus", listing);
    folder.succeed(&["events", "listing.bus", "-o", "again", "--part", part]);
    folder.read("again")
}

#[test]
fn a_listing_is_a_script_of_the_same_events() {
    let folder = Folder::new("events-back");
    for name in all_script_names() {
        let part = part_of(&name);
        folder.succeed(&["events", &script(&name), "-o", "events", "--part", &part]);
        let again = there_and_back(&folder, &part);
        assert_eq!(folder.read("events"), again, "{name}");
    }
    for list in second::generate::random(5, 24_000) {
        folder.write("events", &list.events);
        let again = there_and_back(&folder, "fm3130");
        assert_eq!(list.events, again, "{}", list.name);
        // The same with edges in it, for a part that counts them.
        let with_edges: Vec<u8> = list.events.iter().map(|one| one * 7 % 10).collect();
        folder.write("events", &with_edges);
        let again = there_and_back(&folder, "fm31256");
        assert_eq!(with_edges, again, "{} with edges", list.name);
    }
}

#[test]
fn event_files_get_the_answers_of_the_second_program() {
    let folder = Folder::new("events-answers");
    for list in second::generate::random(31, 40_000) {
        let mut device = second::Device::fresh();
        folder.write("events", &list.events);
        folder.succeed(&["run", "--events", "events", "--quiet", "--answers", "quiet"]);
        folder.succeed(&["run", "--events", "events", "--answers", "told"]);
        assert_eq!(
            folder.read("quiet"),
            device.run(&list.events),
            "{}",
            list.name
        );
        assert_eq!(folder.read("quiet"), folder.read("told"), "{}", list.name);
    }
}

#[test]
fn an_event_file_longer_than_a_chunk() {
    let folder = Folder::new("events-long");
    let mut events = Vec::new();
    for list in second::generate::random(8, 200_000) {
        events.extend(list.events);
    }
    folder.write("events", &events);
    folder.succeed(&["run", "--events", "events", "--answers", "answers"]);
    let expected = second::Device::fresh().run(&events);
    assert!(folder.read("answers") == expected);
}
