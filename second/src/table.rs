// SPDX-License-Identifier: Apache-2.0
//! "The table to prove": K1 to K12, run over the bus of a fresh device; the
//! core of K7 is handed in.

use crate::calendar::{calendar_from_numbers, Calendar};
use crate::device::Device;
use crate::generate::Script;
use crate::host;
use crate::registers::{CENTURY_FLAG, CONTROL};

/// One case of the table.
#[derive(Clone, Debug, PartialEq, Eq)]
pub struct Case {
    pub name: &'static str,
    /// The sentence of 01.
    pub sentence: &'static str,
    pub expected: String,
    pub found: String,
}

impl Case {
    pub fn holds(&self) -> bool {
        self.expected == self.found
    }
}

/// All cases in order.
pub fn cases() -> Vec<Case> {
    let mut cases = midnight_cases();
    cases.extend(other_calendar_cases());
    cases.push(protection_case());
    cases.push(memory_wrap_case());
    cases.push(companion_address_case());
    cases.push(eighth_clock_case());
    cases.push(exact_run_case());
    cases
}

/// Loads a calendar over the bus, ticks once and reads back the calendar and
/// CF, as text.
fn after_one_tick(calendar: Calendar) -> String {
    let mut device = Device::fresh();
    host::load_calendar(&mut device, calendar, 0x00);
    tick_and_look(device)
}

/// The same for a calendar that the bus would not let in (02, number 6: "A core
/// can then be invalid only by an image or state handed in").
fn after_one_tick_handed_in(calendar: Calendar) -> String {
    let mut device = Device::fresh();
    host::companion_write(&mut device, 0x01, &[0x00]);
    device.core = calendar;
    tick_and_look(device)
}

fn tick_and_look(mut device: Device) -> String {
    host::tick(&mut device);
    let seen = host::read_calendar(&mut device);
    assert!(seen == device.core, "02h to 08h take the core");
    let century = device.registers[CONTROL] & CENTURY_FLAG != 0;
    calendar_text(seen, century)
}

/// A calendar as text.
pub fn calendar_text(calendar: Calendar, century: bool) -> String {
    format!(
        "{:02x}:{:02x}:{:02x} {:02x}/{:02x}/{:02x} day {} CF {}",
        calendar.hours,
        calendar.minutes,
        calendar.seconds,
        calendar.date,
        calendar.month,
        calendar.year,
        calendar.day,
        u8::from(century)
    )
}

fn calendar_case(
    name: &'static str,
    sentence: &'static str,
    before: Calendar,
    expected: &str,
) -> Case {
    Case {
        name,
        sentence,
        expected: expected.to_string(),
        found: after_one_tick(before),
    }
}

/// K7: the core is handed in.
fn invalid_core_case() -> Case {
    Case {
        name: "K7",
        sentence: "31/04 stays",
        expected: "23:59:59 31/04/21 day 3 CF 0".to_string(),
        found: after_one_tick_handed_in(calendar_from_numbers(LAST_SECOND, 3, (31, 4, 21))),
    }
}

const LAST_SECOND: (u8, u8, u8) = (23, 59, 59);

/// K1 to K4.
fn midnight_cases() -> Vec<Case> {
    vec![
        calendar_case(
            "K1",
            "23:59:59, 31/12/99, day 7 goes to 00:00:00, 01/01/00, day 1, CF set",
            calendar_from_numbers(LAST_SECOND, 7, (31, 12, 99)),
            "00:00:00 01/01/00 day 1 CF 1",
        ),
        calendar_case(
            "K2",
            "last second of 28/02/08 goes to 29/02/08",
            calendar_from_numbers(LAST_SECOND, 4, (28, 2, 8)),
            "00:00:00 29/02/08 day 5 CF 0",
        ),
        calendar_case(
            "K3",
            "last second of 28/02/09 goes to 01/03/09",
            calendar_from_numbers(LAST_SECOND, 6, (28, 2, 9)),
            "00:00:00 01/03/09 day 7 CF 0",
        ),
        calendar_case(
            "K4",
            "last second of 29/02/00 goes to 01/03/00",
            calendar_from_numbers(LAST_SECOND, 2, (29, 2, 0)),
            "00:00:00 01/03/00 day 3 CF 0",
        ),
    ]
}

/// K5 to K7.
fn other_calendar_cases() -> Vec<Case> {
    vec![
        calendar_case(
            "K5",
            "seconds 09h go to 10h",
            calendar_from_numbers((12, 34, 9), 3, (15, 6, 21)),
            "12:34:10 15/06/21 day 3 CF 0",
        ),
        calendar_case(
            "K6",
            "19:59:59 goes to 20:00:00",
            calendar_from_numbers((19, 59, 59), 3, (15, 6, 21)),
            "20:00:00 15/06/21 day 3 CF 0",
        ),
        invalid_core_case(),
    ]
}

/// K8; the address after the refused byte is that of 02, number 3.
fn protection_case() -> Case {
    let mut device = Device::fresh();
    // WP1 is bit 4 and WP0 bit 3 of 0Eh; WP = 01.
    host::companion_write(&mut device, 0x0E, &[0x08]);
    let refused = !host::memory_write(&mut device, 0x07FF, &[0x5A])[3];
    let address = device.memory_address;
    let accepted = host::memory_write(&mut device, 0x0800, &[0xA5])[3];
    Case {
        name: "K8",
        sentence: "WP 01: 07FFh refused, address then 0800h, 0800h stored",
        expected: "07FFh refused true holds 00h, address 0800h, 0800h accepted true holds A5h"
            .to_string(),
        found: format!(
            "07FFh refused {refused} holds {:02X}h, address {address:04X}h, \
             0800h accepted {accepted} holds {:02X}h",
            device.memory[0x07FF], device.memory[0x0800]
        ),
    }
}

/// K9.
fn memory_wrap_case() -> Case {
    let mut device = Device::fresh();
    host::memory_write(&mut device, 0x1FFF, &[0x77]);
    Case {
        name: "K9",
        sentence: "a write at 1FFFh leaves address 0000h",
        expected: "1FFFh holds 77h, address 0000h".to_string(),
        found: format!(
            "1FFFh holds {:02X}h, address {:04X}h",
            device.memory[0x1FFF], device.memory_address
        ),
    }
}

/// K10.
fn companion_address_case() -> Case {
    let mut device = Device::fresh();
    let last = host::companion_write(&mut device, 0x0E, &[])[1];
    let above = host::companion_write(&mut device, 0x0F, &[])[1];
    Case {
        name: "K10",
        sentence: "companion address 0Eh acknowledged, 0Fh not",
        expected: "0Eh acknowledged true, 0Fh acknowledged false".to_string(),
        found: format!("0Eh acknowledged {last}, 0Fh acknowledged {above}"),
    }
}

/// K11: the byte in memory after a data byte C3h cut in the given way.
fn memory_after_cut(data_clocks: u8, cut: u8) -> u8 {
    let mut device = Device::fresh();
    host::memory_write(&mut device, 0x0123, &[0x3C]);
    let mut script = Script::new();
    script.begin_memory_write(0x0123);
    script.first_bits(0xC3, data_clocks).event(cut);
    host::run_script(&mut device, &script);
    device.memory[0x0123]
}

/// K11.
fn eighth_clock_case() -> Case {
    Case {
        name: "K11",
        sentence: "seven data clocks then Stop: old byte; eight then power lost: new byte",
        expected: "Stop after seven 3Ch, event 5 after eight C3h, event 6 after eight C3h"
            .to_string(),
        found: format!(
            "Stop after seven {:02X}h, event 5 after eight {:02X}h, event 6 after eight {:02X}h",
            memory_after_cut(7, 1),
            memory_after_cut(8, 5),
            memory_after_cut(8, 6)
        ),
    }
}

/// K12.
fn exact_run_case() -> Case {
    let events = [0, 3, 2, 3, 2, 2, 2, 2, 2, 3, 1];
    let answers = Device::fresh().run(&events);
    let text: Vec<String> = answers.iter().map(|byte| format!("{byte:02x}")).collect();
    Case {
        name: "K12",
        sentence: "the exact run above",
        expected: "05 05 04 05 04 04 04 04 04 04 05, count 11".to_string(),
        found: format!("{}, count {}", text.join(" "), answers.len()),
    }
}
