// SPDX-License-Identifier: Apache-2.0
//! K1 to K12 of 01 and the exact run.

use second::table;
use second::{Calendar, Device};

#[test]
fn every_case_of_the_table_holds() {
    let cases = table::cases();
    let names: Vec<&str> = cases.iter().map(|case| case.name).collect();
    let expected = [
        "K1", "K2", "K3", "K4", "K5", "K6", "K7", "K8", "K9", "K10", "K11", "K12",
    ];
    assert_eq!(names, expected);
    for case in cases {
        assert_eq!(case.found, case.expected, "{}", case.name);
        assert!(case.holds());
    }
}

#[test]
fn a_case_with_another_finding_does_not_hold() {
    let mut case = table::cases().remove(4);
    case.found = "12:34:0a 15/06/21 day 3 CF 0".to_string();
    assert!(!case.holds());
}

#[test]
fn the_exact_run_byte_by_byte() {
    let events = [0, 3, 2, 3, 2, 2, 2, 2, 2, 3, 1];
    let answers = Device::fresh().run(&events);
    assert_eq!(answers, [5, 5, 4, 5, 4, 4, 4, 4, 4, 4, 5]);
    assert_eq!(answers.len(), 11);
}

#[test]
fn the_list_is_the_events_one_by_one() {
    let events = [0, 3, 2, 3, 2, 2, 2, 2, 2, 3, 1, 4, 5, 6, 7];
    let mut by_list = Device::fresh();
    let by_list_answers = by_list.run(&events);
    let mut one_by_one = Device::fresh();
    for (index, event) in events.iter().enumerate() {
        assert_eq!(one_by_one.event(*event), by_list_answers[index]);
    }
    assert_eq!(one_by_one, by_list);
}

#[test]
fn an_empty_list_changes_nothing() {
    let mut device = Device::fresh();
    assert!(device.run(&[]).is_empty());
    assert_eq!(device, Device::fresh());
}

#[test]
#[should_panic(expected = "events are 0 to 7")]
fn an_event_above_seven_is_not_an_event() {
    Device::fresh().event(8);
}

#[test]
fn the_fresh_device() {
    let device = Device::fresh();
    assert_eq!(
        device.registers,
        [0x90, 0x80, 0, 0, 0, 1, 1, 1, 0, 0, 0, 0, 0, 0, 0]
    );
    let first_second = Calendar {
        seconds: 0,
        minutes: 0,
        hours: 0,
        day: 1,
        date: 1,
        month: 1,
        year: 0,
    };
    assert_eq!(device.core, first_second);
    assert_eq!(device.memory, vec![0; 8192]);
    assert_eq!(device.power, second::Power::On);
    assert_eq!(device.memory_address, 0);
    assert_eq!(device.companion_address, 0);
    assert!(device.between_transfers());
}
