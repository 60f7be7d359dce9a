// SPDX-License-Identifier: Apache-2.0
//! 02, number 4: "Let the tick itself say the highest field that changed:
//! nothing, seconds, minutes, hours, date, month or year."

use second::calendar::{calendar_from_numbers, midnights};
use second::generate::{self, StartingState};
use second::registers::STORED_BITS;
use second::{Calendar, Device, Power, Rolled};
use std::collections::BTreeMap;

/// A device that runs and holds a calendar, in the core and in 02h to 08h.
fn running(core: Calendar) -> Device {
    StartingState::running(0x00, core, core).device()
}

/// What one tick says.
fn said(device: &mut Device) -> Rolled {
    let (answer, rolled) = device.event_told(4);
    assert_eq!(answer & 1, 1);
    rolled
}

fn count(counts: &mut BTreeMap<u8, u32>, rolled: Rolled) {
    *counts.entry(rolled.number()).or_insert(0) += 1;
}

#[test]
fn the_cases_have_the_numbers_0_to_6_in_the_order_of_the_request() {
    let cases = [
        Rolled::Nothing,
        Rolled::Seconds,
        Rolled::Minutes,
        Rolled::Hours,
        Rolled::Date,
        Rolled::Month,
        Rolled::Year,
    ];
    let numbers: Vec<u8> = cases.iter().map(|case| case.number()).collect();
    assert_eq!(numbers, [0, 1, 2, 3, 4, 5, 6]);
}

/// Every midnight of the century: the year if it is the first of January, else
/// the month if it is a first, else the date.
#[test]
fn every_midnight() {
    let mut counts = BTreeMap::new();
    for (before, after, _) in midnights() {
        let mut device = running(before);
        let expected = match (after.date, after.month) {
            (0x01, 0x01) => Rolled::Year,
            (0x01, _) => Rolled::Month,
            _ => Rolled::Date,
        };
        let rolled = said(&mut device);
        assert_eq!(rolled, expected, "{before:?}");
        assert_eq!(device.core, after);
        count(&mut counts, rolled);
        // the second after midnight
        assert_eq!(said(&mut device), Rolled::Seconds);
    }
    assert_eq!(counts, BTreeMap::from([(4, 35_325), (5, 1_100), (6, 100)]));
}

/// Every second of a day that ends a month, told by its number.
#[test]
fn every_second_of_a_day() {
    let mut device = running(calendar_from_numbers((0, 0, 0), 2, (30, 4, 21)));
    let mut counts = BTreeMap::new();
    for second in 0..86_400_u32 {
        let expected = match second {
            86_399 => Rolled::Month,
            _ if second % 3600 == 3599 => Rolled::Hours,
            _ if second % 60 == 59 => Rolled::Minutes,
            _ => Rolled::Seconds,
        };
        let rolled = said(&mut device);
        assert_eq!(rolled, expected, "second {second}");
        count(&mut counts, rolled);
    }
    let expected = [(1, 84_960), (2, 1_416), (3, 23), (5, 1)];
    assert_eq!(counts, BTreeMap::from(expected));
}

/// Every hour end and every minute end on several dates.
#[test]
fn hour_ends_and_minute_ends() {
    for date in [(1, 1, 0), (28, 2, 21), (29, 2, 96), (31, 12, 99)] {
        for hour in 0..23 {
            let mut device = running(calendar_from_numbers((hour, 59, 59), 1, date));
            assert_eq!(said(&mut device), Rolled::Hours);
        }
        for hour in 0..24 {
            for minute in 0..59 {
                let mut device = running(calendar_from_numbers((hour, minute, 59), 1, date));
                assert_eq!(said(&mut device), Rolled::Minutes);
            }
        }
    }
}

/// The century's end is the end of a year, 99 to 00.
#[test]
fn the_year_at_the_centurys_end() {
    let mut device = running(calendar_from_numbers((23, 59, 59), 7, (31, 12, 99)));
    assert_eq!(said(&mut device), Rolled::Year);
    assert_eq!(device.core.year, 0x00);
}

/// The day of the week changes with the date and is not a case of its own.
#[test]
fn the_day_of_the_week_is_not_told() {
    for day in 1..=7 {
        let mut device = running(calendar_from_numbers((23, 59, 59), day, (15, 6, 21)));
        assert_eq!(said(&mut device), Rolled::Date);
        let mut device = running(calendar_from_numbers((12, 59, 59), day, (15, 6, 21)));
        assert_eq!(said(&mut device), Rolled::Hours);
    }
}

#[test]
fn an_invalid_core_says_nothing() {
    for invalid in generate::invalid_calendars() {
        for control in 0..4 {
            let shown = calendar_from_numbers((1, 2, 3), 4, (5, 6, 7));
            let mut device = StartingState::running(control, shown, invalid).device();
            assert_eq!(said(&mut device), Rolled::Nothing);
            // though 02h to 08h may change
            let expected = if control == 0 { invalid } else { shown };
            assert_eq!(device.registers[0x02..=0x08], expected.to_bytes());
        }
    }
}

/// Every byte that a field of the core can hold: nothing, exactly if invalid.
#[test]
fn every_byte_of_the_core() {
    let base = calendar_from_numbers((23, 59, 59), 7, (29, 2, 96));
    let mut silent = 0;
    for place in 0..7 {
        for value in 0..=STORED_BITS[2 + place] {
            let mut bytes = base.to_bytes();
            bytes[place] = value;
            let core = Calendar::from_bytes(bytes);
            let rolled = said(&mut running(core));
            assert_eq!(rolled == Rolled::Nothing, !core.is_valid(), "{core:?}");
            silent += u32::from(rolled == Rolled::Nothing);
        }
    }
    assert!(silent > 300, "{silent}");
}

#[test]
fn a_stopped_oscillator_says_nothing() {
    for power in [Power::On, Power::Backup] {
        let mut device = running(calendar_from_numbers((23, 59, 59), 7, (31, 12, 99)));
        device.power = power;
        device.registers[0x01] = 0x80;
        assert_eq!(said(&mut device), Rolled::Nothing);
        device.registers[0x01] = 0x3F;
        assert_eq!(said(&mut device), Rolled::Year);
    }
}

#[test]
fn without_a_supply_a_tick_says_nothing() {
    let mut device = running(calendar_from_numbers((23, 59, 59), 7, (31, 12, 99)));
    device.power = Power::Gone;
    assert_eq!(said(&mut device), Rolled::Nothing);
    device.power = Power::Backup;
    assert_eq!(said(&mut device), Rolled::Year);
}

/// The core is told, also while R or W keeps it from 02h to 08h.
#[test]
fn w_and_r_do_not_matter() {
    for control in 0..4 {
        let core = calendar_from_numbers((12, 59, 59), 7, (31, 12, 99));
        let shown = calendar_from_numbers((0, 0, 0), 1, (1, 1, 0));
        let mut device = StartingState::running(control, shown, core).device();
        assert_eq!(said(&mut device), Rolled::Hours);
    }
}

/// The highest field in which two calendars differ, by looking from the highest
/// field down; the day of the week is left out.
fn highest_difference(before: &Calendar, after: &Calendar) -> u8 {
    let places = [6, 5, 4, 2, 1, 0];
    let (old, new) = (before.to_bytes(), after.to_bytes());
    let found = places.iter().position(|place| old[*place] != new[*place]);
    found.map_or(0, |index| 6 - index as u8)
}

/// "answer bytes stay the same", and events other than ticks say nothing.
#[test]
fn answers_stay_the_same_and_other_events_say_nothing() {
    let mut told = 0;
    let mut lists = generate::random(71, 300_000);
    lists.extend(generate::structured(72, 300_000));
    for list in lists {
        let mut device = list.device();
        let mut plain = list.device();
        for event in &list.events {
            let before = device.core;
            let (answer, rolled) = device.event_told(*event);
            assert_eq!(plain.event(*event), answer);
            let expected = match *event {
                4 => highest_difference(&before, &device.core),
                _ => 0,
            };
            assert_eq!(rolled.number(), expected);
            told += u32::from(expected > 0);
        }
        assert_eq!(device, plain);
    }
    assert!(told > 4_000, "{told}");
}

#[test]
fn a_list_is_told_event_by_event() {
    let mut device = running(calendar_from_numbers((9, 59, 58), 1, (1, 1, 1)));
    let told = device.run_told(&[4, 0, 4, 1, 5, 4, 6, 4]);
    let numbers: Vec<u8> = told.iter().map(|(_, rolled)| rolled.number()).collect();
    assert_eq!(numbers, [1, 0, 3, 0, 0, 1, 0, 0]);
}

/// The lists of three ticks: the second tick ends what the family is about.
#[test]
fn the_lists_of_ticks_say_what_they_are_for() {
    let lists = generate::ticks_told();
    assert_eq!(lists.len(), 46_605);
    assert_eq!(generate::count_handed_in_events(&lists), 139_815);
    let mut counts: BTreeMap<&str, BTreeMap<u8, u32>> = BTreeMap::new();
    for list in &lists {
        let told = list.device().run_told(&list.events);
        let numbers: Vec<u8> = told.iter().map(|(_, rolled)| rolled.number()).collect();
        assert_eq!((numbers[0], numbers[2]), (1, 1));
        count(counts.entry(list.family).or_default(), told[1].1);
    }
    let midnight_counts = BTreeMap::from([(4, 35_325), (5, 1_100), (6, 100)]);
    assert_eq!(counts["midnights"], midnight_counts);
    let minute_counts = BTreeMap::from([(2, 9_912), (3, 161), (4, 2), (5, 3), (6, 2)]);
    assert_eq!(counts["minute-ends"], minute_counts);
}

/// The program that runs a list can say it too.
#[test]
fn the_program_writes_the_numbers() {
    use std::io::Write;
    use std::process::{Command, Stdio};
    let mut script = generate::Script::new();
    let calendar = calendar_from_numbers((23, 59, 58), 6, (31, 1, 30));
    script.load_calendar(calendar, 0x00).ticks(2);
    let mut child = Command::new(env!("CARGO_BIN_EXE_second-answers"))
        .arg("--rolled")
        .stdin(Stdio::piped())
        .stdout(Stdio::piped())
        .spawn()
        .expect("the program starts");
    let mut input = child.stdin.take().expect("it has an input");
    input.write_all(&script.events).expect("it is read");
    drop(input);
    let output = child.wait_with_output().expect("it ends");
    assert!(output.status.success());
    let mut expected = vec![0; script.events.len() - 2];
    expected.extend([1, 5]);
    assert_eq!(output.stdout, expected);
}
