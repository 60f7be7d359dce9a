// SPDX-License-Identifier: Apache-2.0
//! Two handles on one device: what each is refused, when the bus is freed, and what a read may rely
//! on, with the masters also on threads of their own.

use std::thread;

use fm3130::masters::{share, Handle, Master};
use fm3130::{event, Answer, Device, Refusal};

/// Start, A0h and an address.
fn opening(address: u16) -> Vec<u8> {
    let mut events = vec![event::START];
    for byte in [0xA0, (address >> 8) as u8, (address & 0xFF) as u8] {
        events.extend(event::written_byte(byte));
    }
    events
}

/// A whole write of one byte.
fn write(address: u16, byte: u8) -> Vec<u8> {
    let mut events = opening(address);
    events.extend(event::written_byte(byte));
    events.push(event::STOP);
    events
}

/// Start, A1h, one byte, Stop: from the current address.
fn current_read() -> Vec<u8> {
    let mut events = vec![event::START];
    events.extend(event::written_byte(0xA1));
    events.extend(event::read_byte(false));
    events.push(event::STOP);
    events
}

/// A read that sets its address first.
fn read(address: u16) -> Vec<u8> {
    let mut events = opening(address);
    events.extend(current_read());
    events
}

/// The byte at the end of a read's answers, before its ninth clock and the Stop.
fn byte_in(answers: &[u8]) -> u8 {
    let bits = &answers[answers.len() - 10..answers.len() - 2];
    bits.iter().fold(0, |byte, answer| {
        byte << 1 | u8::from(Answer(*answer).line_is_high())
    })
}

fn transact(handle: &Handle, events: &[u8]) -> Vec<u8> {
    handle.ask().unwrap();
    let answers = handle.call(events).unwrap();
    assert_eq!(handle.holder(), None);
    answers
}

#[test]
fn a_master_keeps_the_bus_until_its_stop() {
    let (rig, handheld) = share(Device::fresh());
    rig.ask().unwrap();
    let whole = write(0x0123, 0x5A);
    let (first, rest) = whole.split_at(30);
    rig.call(first).unwrap();
    let before = rig.device();
    assert_eq!(handheld.ask(), Err(Refusal::NotHeld));
    assert_eq!(handheld.call(&read(0)), Err(Refusal::NotHeld));
    assert_eq!((rig.device(), rig.holder()), (before, Some(Master::Rig)));
    handheld.call(&[event::TICK]).unwrap();
    rig.call(rest).unwrap();
    assert_eq!(rig.holder(), None);
    assert_eq!(byte_in(&transact(&handheld, &read(0x0123))), 0x5A);
}

#[test]
fn a_repeated_start_keeps_the_bus_and_lost_power_frees_it() {
    let (rig, handheld) = share(Device::fresh());
    rig.ask().unwrap();
    rig.call(&[event::START, event::STOP, event::START])
        .unwrap();
    assert_eq!(rig.holder(), Some(Master::Rig));
    handheld.call(&[event::POWER_LOST_WITH_BACKUP]).unwrap();
    assert_eq!(rig.holder(), None);
    handheld.ask().unwrap();
    rig.call(&[event::POWER_RETURNED]).unwrap();
    assert_eq!(rig.holder(), Some(Master::Handheld));
}

#[test]
fn unknown_events_come_before_the_bus() {
    let (rig, _) = share(Device::fresh());
    assert_eq!(rig.call(&[event::START, 8]), Err(Refusal::UnknownEvent));
    assert_eq!(rig.call(&[event::START]), Err(Refusal::NotHeld));
    assert_eq!(rig.call(&[]), Ok(vec![]));
    assert_eq!(Refusal::NotHeld.number(), 7);
    assert_eq!(
        Refusal::NotHeld.to_string(),
        "this master does not hold the bus (number 7)"
    );
}

/// The assurance, and that a read from the current address has none.
#[test]
fn a_read_that_sets_its_address_does_not_notice_the_other() {
    let session = |other: &[u8], last: &[u8]| {
        let mut device = Device::fresh();
        device.memory_mut()[..4].copy_from_slice(&[0x11, 0x22, 0x33, 0x44]);
        let (rig, handheld) = share(device);
        transact(&rig, &read(0));
        if !other.is_empty() {
            transact(&handheld, other);
        }
        transact(&rig, last)
    };
    for other in [write(0x1000, 0xFF), read(2), current_read()] {
        assert_eq!(session(&other, &read(1)), session(&[], &read(1)));
    }
    assert_eq!(byte_in(&session(&[], &current_read())), 0x22);
    assert_eq!(byte_in(&session(&read(2), &current_read())), 0x44);
}

/// Each thread asks until it gets the bus: no transaction of the other falls inside its own.
#[test]
fn masters_on_two_threads_do_not_meet_in_a_transaction() {
    let (rig, handheld) = share(Device::fresh());
    let play = |handle: Handle, address: u16| {
        thread::spawn(move || {
            for byte in 0..200 {
                while handle.ask() == Err(Refusal::NotHeld) {
                    thread::yield_now();
                }
                let whole = write(address, byte);
                let (first, rest) = whole.split_at(20);
                handle.call(first).unwrap();
                handle.call(rest).unwrap();
                while handle.ask() == Err(Refusal::NotHeld) {
                    thread::yield_now();
                }
                assert_eq!(byte_in(&handle.call(&read(address)).unwrap()), byte);
            }
        })
    };
    let threads = [play(rig.clone(), 0x0100), play(handheld, 0x0200)];
    for thread in threads {
        thread.join().unwrap();
    }
    let device = rig.device();
    assert_eq!(
        (device.memory()[0x0100], device.memory()[0x0200]),
        (199, 199)
    );
}
