// SPDX-License-Identifier: Apache-2.0
//! Names of registers and bits in the data sheet's spelling, and what a register holds in words.
//!
//! ```
//! use fm3130::registers;
//!
//! assert_eq!(registers::name(0x05), Some("RTC Day"));
//! assert_eq!(registers::words(0x0A, 0x30), "alarm at minutes 30");
//! assert_eq!(registers::words(0x00, 0x90), "LB=1 AF=0 CF=0 POR=1 AEN=0 CAL=0 W=0 R=0");
//! ```

use crate::REGISTER_COUNT;

/// 00h, RTC/Alarm Control.
pub const CONTROL: usize = 0x00;
/// 01h, CAL/Control.
pub const CALIBRATION: usize = 0x01;
/// 02h, RTC Seconds: the first of the seven calendar registers.
pub const FIRST_CALENDAR: usize = 0x02;
/// 09h, Alarm Seconds: the first of the five alarm registers.
pub const FIRST_ALARM: usize = 0x09;
/// 0Eh, Alarm & WP Control.
pub const SETUP: usize = 0x0E;

/// 00h: Low Battery Flag.
pub const LB: u8 = 0x80;
/// 00h: Alarm Flag.
pub const AF: u8 = 0x40;
/// 00h: Century Overflow Flag.
pub const CF: u8 = 0x20;
/// 00h: Power On Reset Flag.
pub const POR: u8 = 0x10;
/// 00h: Alarm Enable.
pub const AEN: u8 = 0x08;
/// 00h: Calibration Mode.
pub const CAL: u8 = 0x04;
/// 00h: Write RTC.
pub const W: u8 = 0x02;
/// 00h: Read RTC.
pub const R: u8 = 0x01;

/// 01h: Oscillator Enable, active low: 1 halts the oscillator.
pub const OSCEN: u8 = 0x80;
/// 01h: Calibration Sign.
pub const CALS: u8 = 0x20;
/// 01h: the five bits of the Calibration Code.
pub const CALIBRATION_CODE: u8 = 0x1F;

/// 09h to 0Dh: Match, active low: 1 leaves the field out of the comparison.
pub const MATCH: u8 = 0x80;

/// 0Eh: Alarm/Square Wave Select.
pub const AL_SW: u8 = 0x80;
/// 0Eh: high bit of the Square Wave Freq Select.
pub const F1: u8 = 0x40;
/// 0Eh: low bit of the Square Wave Freq Select.
pub const F0: u8 = 0x20;
/// 0Eh: high bit of Write Protect.
pub const WP1: u8 = 0x10;
/// 0Eh: low bit of Write Protect.
pub const WP0: u8 = 0x08;
/// 0Eh: VBAK Charger Control.
pub const VBC: u8 = 0x04;
/// 0Eh: Fast Charge.
pub const FC: u8 = 0x02;
/// 0Eh: factory test mode.
pub const TST: u8 = 0x01;

/// The registers' names, 00h to 0Eh.
pub const NAMES: [&str; REGISTER_COUNT] = [
    "RTC/Alarm Control",
    "CAL/Control",
    "RTC Seconds",
    "RTC Minutes",
    "RTC Hours",
    "RTC Day",
    "RTC Date",
    "RTC Month",
    "RTC Years",
    "Alarm Seconds",
    "Alarm Minutes",
    "Alarm Hours",
    "Alarm Date",
    "Alarm Month",
    "Alarm & WP Control",
];

/// The bits of 00h, high bit first.
const CONTROL_BITS: [&str; 8] = ["LB", "AF", "CF", "POR", "AEN", "CAL", "W", "R"];

/// What the calendar registers count, 02h to 08h.
pub const CALENDAR_FIELDS: [&str; 7] = [
    "seconds", "minutes", "hours", "day", "date", "month", "year",
];

/// What the alarm registers compare, 09h to 0Dh.
const ALARM_FIELDS: [&str; 5] = ["seconds", "minutes", "hours", "date", "month"];

/// The name of the register at an address.
///
/// ```
/// assert_eq!(fm3130::registers::name(0x0E), Some("Alarm & WP Control"));
/// assert_eq!(fm3130::registers::name(0x0F), None);
/// ```
pub fn name(address: u8) -> Option<&'static str> {
    NAMES.get(usize::from(address)).copied()
}

/// What a byte means in the register at an address; empty if there is no such register.
///
/// ```
/// use fm3130::registers::words;
///
/// assert_eq!(words(0x02, 0x59), "seconds 59");
/// assert_eq!(words(0x0B, 0x80), "alarm at any hours");
/// assert_eq!(words(0x0E, 0x08), "square wave 1 Hz, writes refused at 0000h to 07FFh");
/// ```
pub fn words(address: u8, byte: u8) -> String {
    let index = usize::from(address);
    match index {
        CONTROL => control_words(byte),
        CALIBRATION => calibration_words(byte),
        FIRST_CALENDAR..=0x08 => {
            format!("{} {byte:02X}", CALENDAR_FIELDS[index - FIRST_CALENDAR])
        }
        FIRST_ALARM..=0x0D => alarm_words(ALARM_FIELDS[index - FIRST_ALARM], byte),
        SETUP => setup_words(byte),
        _ => String::new(),
    }
}

/// Every bit of 00h by its name.
fn control_words(byte: u8) -> String {
    let bits: Vec<String> = CONTROL_BITS
        .iter()
        .enumerate()
        .map(|(place, name)| format!("{name}={}", (byte >> (7 - place)) & 1))
        .collect();
    bits.join(" ")
}

/// The oscillator and the calibration of 01h.
fn calibration_words(byte: u8) -> String {
    let oscillator = if byte & OSCEN != 0 { "halted" } else { "runs" };
    let sign = if byte & CALS != 0 { '+' } else { '-' };
    match byte & CALIBRATION_CODE {
        0 => format!("oscillator {oscillator}, no calibration"),
        code => format!("oscillator {oscillator}, calibration {sign}{code}"),
    }
}

/// An alarm field: the value it waits for, or any.
fn alarm_words(field: &str, byte: u8) -> String {
    if byte & MATCH != 0 {
        format!("alarm at any {field}")
    } else {
        format!("alarm at {field} {byte:02X}")
    }
}

/// The square wave's frequency by F1 and F0 of 0Eh.
///
/// ```
/// assert_eq!(fm3130::registers::square_wave_frequency(0x20), "512 Hz");
/// ```
pub fn square_wave_frequency(setup: u8) -> &'static str {
    match (setup & F1 != 0, setup & F0 != 0) {
        (false, false) => "1 Hz",
        (false, true) => "512 Hz",
        (true, false) => "4096 Hz",
        (true, true) => "32768 Hz",
    }
}

/// What WP1 and WP0 of 0Eh protect.
///
/// ```
/// assert_eq!(fm3130::registers::protection(0x18), "writes refused everywhere");
/// ```
pub fn protection(setup: u8) -> &'static str {
    match (setup & WP1 != 0, setup & WP0 != 0) {
        (false, false) => "writes allowed everywhere",
        (false, true) => "writes refused at 0000h to 07FFh",
        (true, false) => "writes refused at 0000h to 0FFFh",
        (true, true) => "writes refused everywhere",
    }
}

/// The pin, the protection and the rest of 0Eh.
fn setup_words(byte: u8) -> String {
    let pin = if byte & AL_SW != 0 {
        "alarm on the pin".to_string()
    } else {
        format!("square wave {}", square_wave_frequency(byte))
    };
    let mut words = format!("{pin}, {}", protection(byte));
    for (bit, name) in [(VBC, "VBC"), (FC, "FC"), (TST, "TST")] {
        if byte & bit != 0 {
            words.push_str(", ");
            words.push_str(name);
        }
    }
    words
}
