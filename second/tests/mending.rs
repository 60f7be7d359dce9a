// SPDX-License-Identifier: Apache-2.0
//! 02, number 14: "each field that is out of range on its own goes to its lowest
//! legal figure, then a date beyond its month's end goes to the last day."

use second::calendar::{calendar_from_numbers, midnights};
use second::device::{Phase, Transfer};
use second::generate::{self, any_state, RandomSource, StartingState};
use second::mend::{mend, mend_calendar, Change};
use second::registers::STORED_BITS;
use second::{Calendar, Device, LogicalDevice, State};
use std::sync::OnceLock;

/// A running device's state with these calendars in 02h to 08h and in the core.
fn state_with(shown: Calendar, core: Calendar) -> State {
    State::from(StartingState::running(0x00, shown, core))
}

fn noon() -> Calendar {
    calendar_from_numbers((12, 0, 0), 4, (10, 11, 12))
}

/// The BCD bytes of the figures from one to another, written out as text.
fn bcd_bytes(first: u8, last: u8) -> Vec<u8> {
    (first..=last)
        .map(|figure| u8::from_str_radix(&figure.to_string(), 16).expect("two digits"))
        .collect()
}

/// The legal bytes of each field on its own, the lowest first.
fn legal_bytes() -> &'static [Vec<u8>; 7] {
    static LEGAL: OnceLock<[Vec<u8>; 7]> = OnceLock::new();
    LEGAL.get_or_init(|| {
        [
            bcd_bytes(0, 59),
            bcd_bytes(0, 59),
            bcd_bytes(0, 23),
            (1..=7).collect(),
            bcd_bytes(1, 31),
            bcd_bytes(1, 12),
            bcd_bytes(0, 99),
        ]
    })
}

/// The years that divide by 4, as bytes.
fn leap_years() -> &'static [u8] {
    static LEAP: OnceLock<Vec<u8>> = OnceLock::new();
    LEAP.get_or_init(|| bcd_bytes(0, 99).into_iter().step_by(4).collect())
}

/// The rule with lists instead of numbers.
fn mended_by_lists(bytes: [u8; 7]) -> [u8; 7] {
    let mut mended = bytes;
    for (byte, legal) in mended.iter_mut().zip(legal_bytes()) {
        if !legal.contains(byte) {
            *byte = legal[0];
        }
    }
    let last = last_date(mended[5], mended[6]);
    // bytes of legal dates are in the order of their figures
    if mended[4] > last {
        mended[4] = last;
    }
    mended
}

/// The last date of a legal month of a legal year, all as bytes.
fn last_date(month: u8, year: u8) -> u8 {
    match month {
        0x02 if leap_years().contains(&year) => 0x29,
        0x02 => 0x28,
        0x04 | 0x06 | 0x09 | 0x11 => 0x30,
        _ => 0x31,
    }
}

/// What the rule promises of any seven bytes.
fn check(bytes: [u8; 7]) {
    let once = mend_calendar(Calendar::from_bytes(bytes));
    assert_eq!(once.to_bytes(), mended_by_lists(bytes), "{bytes:02X?}");
    assert!(once.is_valid(), "{bytes:02X?}");
    assert_eq!(mend_calendar(once), once, "{bytes:02X?}");
    let was_valid = Calendar::from_bytes(bytes).is_valid();
    assert_eq!(was_valid, once.to_bytes() == bytes, "{bytes:02X?}");
}

#[test]
fn every_byte_of_every_field() {
    for place in 0..7 {
        for byte in 0..=255 {
            for other in [noon(), calendar_from_numbers((23, 59, 59), 7, (31, 12, 99))] {
                let mut bytes = other.to_bytes();
                bytes[place] = byte;
                check(bytes);
            }
        }
    }
}

/// Every date, month and year that the registers can hold.
#[test]
fn every_date_month_and_year() {
    let legal = legal_bytes();
    let lasts: Vec<Vec<u8>> = (0..=255)
        .map(|year| (0..=0x1F).map(|month| last_date(month, year)).collect())
        .collect();
    for year in 0..=255_u8 {
        let year_mended = if legal[6].contains(&year) { year } else { 0 };
        for month in 0..=0x1F_u8 {
            let month_mended = if legal[5].contains(&month) { month } else { 1 };
            let last = lasts[usize::from(year_mended)][usize::from(month_mended)];
            for date in 0..=0x3F_u8 {
                let date_mended = if legal[4].contains(&date) { date } else { 1 };
                let expected = [0, 0, 0, 1, date_mended.min(last), month_mended, year_mended];
                let bytes = [0, 0, 0, 1, date, month, year];
                let found = mend_calendar(Calendar::from_bytes(bytes));
                assert_eq!(found.to_bytes(), expected, "{bytes:02X?}");
            }
        }
    }
}

#[test]
fn any_seven_bytes() {
    let mut source = RandomSource::new(14);
    for _ in 0..100_000 {
        let mut bytes = [0; 7];
        bytes.copy_from_slice(&source.bytes(7));
        check(bytes);
    }
}

/// "Valid registers give an empty list".
#[test]
fn valid_calendars_stay() {
    for (evening, morning, _) in midnights() {
        assert_eq!(mend_calendar(evening), evening);
        assert_eq!(mend_calendar(morning), morning);
    }
    for shown in generate::valid_calendars() {
        for core in generate::valid_calendars() {
            let state = state_with(shown, core);
            let mended = mend(state).expect("well-formed");
            assert_eq!(mended.state, state);
            assert_eq!(mended.changes, []);
        }
    }
}

/// The date, month and year that a date, month and year become, all as bytes.
fn mended_date(date: u8, month: u8, year: u8) -> (u8, u8, u8) {
    let bytes = [0, 0, 0, 1, date, month, year];
    let mended = mend_calendar(Calendar::from_bytes(bytes));
    (mended.date, mended.month, mended.year)
}

#[test]
fn dates_beyond_the_months_end() {
    assert_eq!(mended_date(0x31, 0x04, 0x21), (0x30, 0x04, 0x21));
    assert_eq!(mended_date(0x30, 0x02, 0x21), (0x28, 0x02, 0x21));
    assert_eq!(mended_date(0x29, 0x02, 0x21), (0x28, 0x02, 0x21));
    assert_eq!(mended_date(0x31, 0x02, 0x20), (0x29, 0x02, 0x20));
    assert_eq!(mended_date(0x29, 0x02, 0x00), (0x29, 0x02, 0x00));
}

/// First every field on its own, then the date by the mended month and year.
#[test]
fn the_month_and_the_year_are_mended_first() {
    // month 13 becomes January, which has a 31st
    assert_eq!(mended_date(0x31, 0x13, 0x21), (0x31, 0x01, 0x21));
    assert_eq!(mended_date(0x31, 0x00, 0x21), (0x31, 0x01, 0x21));
    // year FFh becomes 00, which divides by 4
    assert_eq!(mended_date(0x29, 0x02, 0xFF), (0x29, 0x02, 0x00));
    assert_eq!(mended_date(0x31, 0x02, 0x9A), (0x29, 0x02, 0x00));
    // 32 and 2Ah are no dates of any month: the first, not the last
    assert_eq!(mended_date(0x32, 0x04, 0x21), (0x01, 0x04, 0x21));
    assert_eq!(mended_date(0x2A, 0x02, 0x21), (0x01, 0x02, 0x21));
    assert_eq!(mended_date(0x00, 0x02, 0x21), (0x01, 0x02, 0x21));
}

fn change(register: u8, old: u8, new: u8) -> Change {
    Change { register, old, new }
}

/// "It lists each register changed with the old and the new byte, in register
/// order."
#[test]
fn the_list_is_in_register_order() {
    let worst = Calendar::from_bytes([0x7F, 0x6A, 0x3F, 0x00, 0x3F, 0x1F, 0xFF]);
    let mended = mend(state_with(worst, noon())).expect("well-formed");
    let expected = [
        change(0x02, 0x7F, 0x00),
        change(0x03, 0x6A, 0x00),
        change(0x04, 0x3F, 0x00),
        change(0x05, 0x00, 0x01),
        change(0x06, 0x3F, 0x01),
        change(0x07, 0x1F, 0x01),
        change(0x08, 0xFF, 0x00),
    ];
    assert_eq!(mended.changes, expected);
    let april = calendar_from_numbers((8, 15, 30), 5, (31, 4, 21));
    let mended = mend(state_with(april, noon())).expect("well-formed");
    assert_eq!(mended.changes, [change(0x06, 0x31, 0x30)]);
}

/// "and, by itself but by the same rule, the core": W and R are 0 here, and the
/// registers do not take the core.
#[test]
fn the_core_is_mended_by_itself() {
    for wrong in generate::invalid_calendars() {
        let mended = mend(state_with(noon(), wrong)).expect("well-formed");
        assert_eq!(mended.changes, []);
        assert_eq!(mended.state.shown_calendar(), noon());
        assert_eq!(mended.state.core, mend_calendar(wrong));
        let mended = mend(state_with(wrong, noon())).expect("well-formed");
        assert_eq!(mended.state.core, noon());
        assert_eq!(mended.state.shown_calendar(), mend_calendar(wrong));
        assert!(!mended.changes.is_empty());
    }
}

/// Everything that is promised of one state.
fn check_state(state: State) {
    let mended = mend(state).expect("well-formed");
    let mut expected = state;
    let shown = mended_by_lists(state.shown_calendar().to_bytes());
    expected.registers[2..=8].copy_from_slice(&shown);
    expected.core = Calendar::from_bytes(mended_by_lists(state.core.to_bytes()));
    assert_eq!(mended.state, expected);
    let mut listed = state.registers;
    let mut before = 1;
    for change in &mended.changes {
        assert!(change.register > before && change.register <= 8);
        assert!(change.old != change.new);
        before = change.register;
        let register = &mut listed[usize::from(change.register)];
        assert_eq!(*register, change.old);
        *register = change.new;
    }
    assert_eq!(listed, expected.registers);
    let again = mend(mended.state).expect("well-formed");
    assert_eq!(again.state, mended.state);
    assert_eq!(again.changes, []);
}

/// "Everything else in the image stays."
#[test]
fn any_state_between_transfers() {
    let mut source = RandomSource::new(1414);
    for _ in 0..20_000 {
        check_state(State::from(any_state(&mut source)));
    }
}

/// Inside transfers too: the transfer and both addresses stay.
#[test]
fn states_inside_transfers() {
    let mut inside = 0;
    for list in generate::handed_in_random(14, 60_000) {
        let mut device = list.device();
        for event in list.events {
            device.event(event);
            let state = State::of(&device);
            assert!(state.is_well_formed());
            inside += usize::from(!device.between_transfers());
            check_state(state);
        }
    }
    assert!(inside > 10_000);
}

fn check_refused(state: State) {
    assert!(!state.is_well_formed());
    assert_eq!(mend(state), Err(2));
}

/// "bits that the register map fixes at 0 are 0 (also in the calendar core)"
#[test]
fn fixed_bits_are_refused_by_number_2() {
    let state = state_with(noon(), noon());
    let mut refused = 0;
    for (register, stored) in STORED_BITS.iter().enumerate() {
        for bit in 0..8 {
            let mut changed = state;
            changed.registers[register] |= 1 << bit;
            if stored >> bit & 1 == 0 {
                check_refused(changed);
                refused += 1;
            } else {
                assert!(mend(changed).is_ok());
            }
        }
    }
    // one each in 01h to 03h, 0Bh and 0Ch, two each in 04h, 06h and 0Dh, three
    // in 07h, five in 05h
    assert_eq!(refused, 5 + 6 + 3 + 5);
    for place in 0..7 {
        for bit in 0..8 {
            let mut bytes = noon().to_bytes();
            bytes[place] |= 1 << bit;
            let changed = state_with(noon(), Calendar::from_bytes(bytes));
            if STORED_BITS[2 + place] >> bit & 1 == 0 {
                check_refused(changed);
            } else {
                assert!(mend(changed).is_ok());
            }
        }
    }
}

/// "memory address at most 8191, companion address at most 14, clocks within a
/// byte 0 to 8"
#[test]
fn other_limits_are_refused_by_number_2() {
    let state = State::of(&Device::fresh());
    let mut changed = state;
    (changed.memory_address, changed.companion_address) = (8191, 14);
    assert!(mend(changed).is_ok());
    changed.memory_address = 8192;
    check_refused(changed);
    changed.memory_address = u16::MAX;
    check_refused(changed);
    changed = state;
    changed.companion_address = 15;
    check_refused(changed);
    changed = state;
    changed.transfer.phase = Phase::WriteData(LogicalDevice::Memory);
    changed.transfer.clocks = 8;
    assert!(mend(changed).is_ok());
    changed.transfer.clocks = 9;
    check_refused(changed);
}

/// "Between transfers nothing of an earlier transfer is kept but the two
/// addresses", and a slave byte that names no device does not go on.
#[test]
fn what_else_a_phase_holds() {
    let mut changed = State::of(&Device::fresh());
    changed.transfer.clocks = 1;
    check_refused(changed);
    changed.transfer = Transfer::none();
    changed.transfer.byte_sent = 1;
    check_refused(changed);
    changed.transfer = Transfer::none();
    changed.transfer.phase = Phase::SlaveByte;
    for clocks in 0..=7 {
        changed.transfer.clocks = clocks;
        assert!(changed.is_well_formed());
    }
    for byte in 0..=255_u8 {
        changed.transfer.clocks = 8;
        for (place, bit) in changed.transfer.received_bits.iter_mut().enumerate() {
            *bit = byte >> (7 - place) & 1 == 1;
        }
        let named = matches!(byte, 0xA0 | 0xA1 | 0xD0 | 0xD1);
        assert_eq!(changed.is_well_formed(), named);
    }
}
