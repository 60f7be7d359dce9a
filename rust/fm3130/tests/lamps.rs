// SPDX-License-Identifier: Apache-2.0
//! The lamps of the wrapper and of the second program on the same lists, and a record that is kept as bytes.

use fm3130::{master, Device, Lamps, Refusal, Report};
use second::generate;
use second::proving_record::ProvingRecord;

/// A record that is put away as bytes after each piece, and taken up again.
#[test]
fn reports_are_the_second_programs() {
    let mut lit = 0;
    for list in generate::lamps(3130, 60_000) {
        let mut expected = (ProvingRecord::new(), list.device());
        let mut device = Device::fresh();
        device.memory_mut().copy_from_slice(&expected.1.memory);
        let mut lamps = Lamps::begun();
        for piece in list.events.chunks(5) {
            let reports = expected.0.run(&mut expected.1, piece);
            lamps.run(&mut device, piece).unwrap();
            let last = reports.last().unwrap();
            for lamp in 0..Report::LAMPS {
                let is_lit = lamps.report().is_lit(lamp);
                assert_eq!(is_lit, last[usize::from(lamp)], "{}", list.name);
                lit += u64::from(is_lit);
            }
            lamps = Lamps::from_bytes(lamps.bytes()).unwrap();
        }
        assert_eq!(device.memory()[..], expected.1.memory[..]);
    }
    assert!(lit > 1_000, "{lit}");
}

#[test]
fn a_refused_list_changes_nothing() {
    let (mut device, mut lamps) = (Device::fresh(), Lamps::begun());
    let before = (device.clone(), lamps.clone());
    assert_eq!(
        lamps.run(&mut device, &[0, 1, 8]),
        Err(Refusal::UnknownEvent)
    );
    assert_eq!((device, lamps), before);
}

#[test]
fn no_lamp_is_lit_after_a_refusal() {
    let (mut device, mut lamps) = (Device::fresh(), Lamps::begun());
    device.memory_mut()[0x1000] = 1;
    let mut read = [0; master::read_events_count(1)];
    master::read_events(0x1000, 1, &mut read).unwrap();
    lamps.run(&mut device, &read).unwrap();
    assert_eq!(lamps.report(), Report(1));
    let record = *lamps.bytes();
    lamps.run(&mut device, &[8]).unwrap_err();
    assert_eq!((lamps.report(), *lamps.bytes()), (Report(0), record));
    // The record stands, so the next call that is answered reports again.
    lamps.run(&mut device, &[]).unwrap();
    assert_eq!(lamps.report(), Report(1));
}

#[test]
fn bytes_that_hold_no_record() {
    for place in 0..20 {
        let mut bytes = [0; 20];
        bytes[place] = 0xFF;
        // The low byte of the address, and the line so far, may be any byte.
        let is_record = place == 2 || place == 3;
        assert_eq!(
            Lamps::from_bytes(&bytes).is_some(),
            is_record,
            "byte {place}"
        );
    }
}
