// SPDX-License-Identifier: Apache-2.0
//! The proving record on both programs: the report after each event, and what lists and pieces of them leave.

use compare::lamps::{hold, proved, refused_bytes, transactions, Master};
use compare::lists::Case;
use compare::{archive, image, panel};
use second::generate::{exhaustive, lamps, random, structured};
use second::Device;

/// Events that come after a bus has hung, one by one.
const AFTERWARDS: [&[u8]; 8] = [
    &[0],
    &[1],
    &[2],
    &[3],
    &[4, 4, 0],
    &[4, 4, 4],
    &[5],
    &[6, 7],
];

/// A hang at every clock of every byte of every kind of transaction, and what then comes.
#[test]
fn hangs_at_every_clock() {
    let mut changes = 0;
    for (kind, transaction) in transactions().into_iter().enumerate() {
        for place in 0..=transaction.events.len() {
            for afterwards in AFTERWARDS {
                let mut master = proved();
                master.events.extend(&transaction.events[..place]);
                master.events.extend(afterwards);
                let case = master.read_at(0x1000, 3).stop().ticks(3);
                changes += hold(&case.case(format!("hang {kind} at {place}")));
            }
        }
    }
    assert!(changes > 5_000, "{changes}");
}

/// Each kind of refused byte, its ninth clock low, high, late or never.
#[test]
fn refused_bytes_darken_all() {
    let ninths: [&[u8]; 8] = [
        &[2],
        &[3],
        &[0],
        &[1],
        &[4, 3],
        &[7, 2],
        &[4, 4, 4, 0],
        &[5],
    ];
    for (kind, byte) in refused_bytes().into_iter().enumerate() {
        for ninth in ninths {
            let mut master = byte.clone();
            master.events.extend(ninth);
            let case = master.stop().read_at(0x1000, 1).stop();
            hold(&case.case(format!("refused {kind}, then {ninth:?}")));
        }
    }
}

/// Every event at every place of a proving read and of what follows it: power events and ticks above all.
#[test]
fn every_event_at_every_place() {
    let list = proved()
        .read_at(0x1002, 2)
        .start()
        .byte(0xA1)
        .read(1)
        .stop()
        .ticks(2);
    for place in 0..=list.events.len() {
        for event in 0..8 {
            let mut events = list.events.clone();
            events.insert(place, event);
            hold(&Master { events }.case(format!("event {event} at {place}")));
        }
    }
}

/// 0 to 4 ticks before and after each Stop, with the oscillator running and halted, and on backup.
#[test]
fn ticks_around_each_stop() {
    let running = Master::default().start().bytes(&[0xD0, 0x01, 0x00]).stop();
    for before in 0..=4 {
        for after in 0..=4 {
            for again in 0..=4 {
                for prefix in [Master::default(), running.clone()] {
                    let list = prefix
                        .then(&proved())
                        .ticks(before)
                        .read_at(0x1000, 3)
                        .ticks(after)
                        .stop()
                        .ticks(again)
                        .start()
                        .stop();
                    hold(&list.case(format!("ticks {before} {after} {again}")));
                }
            }
        }
    }
}

/// Reads of 1 to 12 bytes from every address around the lamps' ends, and across 1FFFh; upper address bits are ignored.
#[test]
fn reads_over_the_ends() {
    let written = Master::default()
        .write(0x0FFC, &[1; 16])
        .write(0x1FFC, &[1; 8]);
    let addresses = (0x0FF8..=0x100A).chain(0x1FF8..=0x1FFF);
    for address in addresses.chain([0x3000, 0xF000, 0x9003]) {
        for count in [1, 2, 7, 8, 9, 12] {
            let list = written.clone().read_at(address, count).stop().ticks(3);
            hold(&list.case(format!("{count} bytes at {address:04X}h")));
        }
    }
}

/// Every value that is asked of, in every lamp, with the line left high and pulled low at each clock.
#[test]
fn values_and_a_master_that_pulls() {
    let mut lit = 0;
    for lamp in 0..8 {
        for value in [0, 1, 2, 3, 0xFF] {
            for pulled in [0xFF, 0xFE, 0xFD, 0x7F, 0x01, 0x00] {
                let list = Master::default()
                    .write(0x1000 + lamp, &[value])
                    .address(0x1000 + lamp)
                    .start()
                    .byte(0xA1)
                    .byte(pulled)
                    .stop();
                lit += hold(&list.case(format!("lamp {lamp}, {value:02X}h, {pulled:02X}h")));
            }
        }
    }
    // 1 with its last bit let through, 3 and FFh pulled down to 1.
    assert_eq!(lit, 8 * (4 + 2 + 1));
}

#[test]
fn the_generators_lists() {
    let mut changes = 0;
    for list in lamps(43, 400_000) {
        changes += hold(&Case::of(&list));
    }
    assert!(changes > 1_500, "{changes}");
    for list in exhaustive().iter().step_by(97) {
        hold(&Case::of(list));
    }
    for list in structured(47, 200_000).iter().chain(&random(53, 200_000)) {
        hold(&Case::of(list));
    }
}

/// Refused by the first number that fits; nothing is written, and no lamp is lit.
#[test]
fn refusals_write_nothing() {
    let fresh = image::of(&Device::fresh());
    let mut record = [0; 20];
    record[5] = 3;
    for (image_length, memory_length, event, answers_length, record_length, number) in [
        (63, 8191, 8, 0, 19, 1),
        (63, 8192, 8, 0, 19, 2),
        (64, 8192, 8, 0, 19, 2),
        (64, 8192, 8, 0, 20, 3),
        (64, 8192, 4, 0, 20, 4),
    ] {
        let mut bytes = fresh[..image_length].to_vec();
        let mut memory = vec![0xAA; memory_length];
        let mut answers = vec![0xEE; answers_length];
        let mut kept = record[..record_length].to_vec();
        let shown = archive::lamps(&mut bytes, &mut memory, &[event], &mut answers, &mut kept);
        assert_eq!((shown.number, shown.report), (number, 0));
        assert_eq!(bytes, fresh[..image_length]);
        assert_eq!(kept, record[..record_length]);
        assert!(
            memory.iter().all(|byte| *byte == 0xAA) && answers.iter().all(|byte| *byte == 0xEE)
        );
    }
}

/// Each byte of a record at each value: refused exactly outside its limits.
#[test]
fn the_limits_of_a_record() {
    let greatest = |place: usize| match place {
        0 => 1,
        1 => 31,
        2 | 3 => 255,
        place if place % 2 == 0 => 2,
        _ => 3,
    };
    let (fresh, mut memory) = (image::of(&Device::fresh()), vec![0; 8192]);
    for place in 0..20 {
        for byte in 0..=255 {
            let mut record = [0; 20];
            record[place] = byte;
            let shown = archive::lamps(&mut fresh.clone(), &mut memory, &[], &mut [], &mut record);
            let expected = if byte <= greatest(place) { 0 } else { 2 };
            assert_eq!(shown.number, expected, "byte {place} is {byte}");
        }
    }
}

#[test]
fn stored_files_are_the_second_programs() {
    let (input, output) = panel::input_and_output();
    assert!(
        include_bytes!("../../crates/main_panel/stdin")[..] == input[..],
        "stdin is not the sample"
    );
    assert!(
        include_str!("../../crates/main_panel/stdout") == output,
        "stdout is not the second program's"
    );
    assert!(input.len() <= panel::MOST && output.lines().count() > 300);
}
