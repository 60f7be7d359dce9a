// SPDX-License-Identifier: Apache-2.0
//! Names of the family's registers and bits in the data sheet's spelling, and what a register holds in
//! words. Registers are named by their addresses, 09h to 18h.
//!
//! ```
//! use fm3130::family::{registers, Size};
//!
//! assert_eq!(registers::name(0x0D), Some("Event Counter 1 LSB"));
//! assert_eq!(registers::words(Size::Kb64, 0x09, 0x60), "WTR=0 POR=1 LB=1 WR=0000");
//! assert_eq!(
//!     registers::words(Size::Kb256, 0x0B, 0x88),
//!     "serial number locked, writes refused at 0000h to 1FFFh, VTP 2.6 V"
//! );
//! ```

use super::size::Size;
use super::REGISTER_COUNT;

/// The first register's address.
pub const FIRST: u8 = 0x09;
/// The last register's address.
pub const LAST: u8 = 0x18;

/// 09h, Watchdog Restart/Flags.
pub const FLAGS: u8 = 0x09;
/// 0Ah, Watchdog Control.
pub const WATCHDOG: u8 = 0x0A;
/// 0Bh, Companion Control.
pub const CONTROL: u8 = 0x0B;
/// 0Ch, Event Count Control.
pub const COUNTING: u8 = 0x0C;
/// 0Dh, Event Counter 1 LSB: the first of the four counter bytes.
pub const COUNTER_1_LOW: u8 = 0x0D;
/// 10h, Event Counter 2 MSB: the last of the four counter bytes.
pub const COUNTER_2_HIGH: u8 = 0x10;
/// 11h, Serial Number 0: the first of its eight bytes.
pub const SERIAL: u8 = 0x11;

/// 09h: Watchdog Timer Reset Flag.
pub const WTR: u8 = 0x80;
/// 09h: Power-on Reset Flag.
pub const POR: u8 = 0x40;
/// 09h: Low Battery Flag.
pub const LB: u8 = 0x20;
/// 09h: the four bits of the watchdog restart.
pub const WR: u8 = 0x0F;

/// 0Ah: Watchdog Enable.
pub const WDE: u8 = 0x80;
/// 0Ah: the five bits of the watchdog timeout.
pub const WDT: u8 = 0x1F;

/// 0Bh: Serial Number Lock.
pub const SNL: u8 = 0x80;
/// 0Bh: high bit of Write Protect.
pub const WP1: u8 = 0x10;
/// 0Bh: low bit of Write Protect.
pub const WP0: u8 = 0x08;
/// 0Bh: VBAK Charger Control.
pub const VBC: u8 = 0x04;
/// 0Bh: the two bits of the VTP select.
pub const VTP: u8 = 0x03;

/// 0Ch: Read Counter; reads show the snapshot that it took.
pub const RC: u8 = 0x08;
/// 0Ch: Counter Cascade; both are one counter of 32 bits.
pub const CC: u8 = 0x04;
/// 0Ch: polarity of CNT2.
pub const C2P: u8 = 0x02;
/// 0Ch: polarity of CNT1.
pub const C1P: u8 = 0x01;

/// The registers' names, 09h to 18h.
pub const NAMES: [&str; REGISTER_COUNT] = [
    "Watchdog Restart/Flags",
    "Watchdog Control",
    "Companion Control",
    "Event Count Control",
    "Event Counter 1 LSB",
    "Event Counter 1 MSB",
    "Event Counter 2 LSB",
    "Event Counter 2 MSB",
    "Serial Number 0",
    "Serial Number 1",
    "Serial Number 2",
    "Serial Number 3",
    "Serial Number 4",
    "Serial Number 5",
    "Serial Number 6",
    "Serial Number 7",
];

/// What the four counter bytes are, 0Dh to 10h.
const COUNTER_BYTES: [&str; 4] = [
    "counter 1, low byte",
    "counter 1, high byte",
    "counter 2, low byte",
    "counter 2, high byte",
];

/// The name of the register at an address.
///
/// ```
/// use fm3130::family::registers::name;
///
/// assert_eq!(name(0x18), Some("Serial Number 7"));
/// assert_eq!((name(0x08), name(0x19)), (None, None));
/// ```
pub fn name(address: u8) -> Option<&'static str> {
    let place = address.checked_sub(FIRST)?;
    NAMES.get(usize::from(place)).copied()
}

/// What a byte means in the register at an address, in a part of a size; empty if there is no such
/// register.
///
/// ```
/// use fm3130::family::{registers::words, Size};
///
/// assert_eq!(words(Size::Kb64, 0x0C, 0x0C), "one counter of 32 bits, reads frozen, C2P=0 C1P=0");
/// assert_eq!(words(Size::Kb64, 0x10, 0x07), "counter 2, high byte");
/// assert_eq!(words(Size::Kb64, 0x18, 0x07), "serial number, byte 7");
/// ```
pub fn words(size: Size, address: u8, byte: u8) -> String {
    match address {
        FLAGS => flags_words(byte),
        WATCHDOG => format!("WDE={} WDT={:05b}, drives nothing", byte >> 7, byte & WDT),
        CONTROL => control_words(size, byte),
        COUNTING => counting_words(byte),
        COUNTER_1_LOW..=COUNTER_2_HIGH => {
            COUNTER_BYTES[usize::from(address - COUNTER_1_LOW)].to_string()
        }
        SERIAL..=LAST => format!("serial number, byte {}", address - SERIAL),
        _ => String::new(),
    }
}

/// The flags of 09h by their names, and the pattern that restarts the watchdog.
fn flags_words(byte: u8) -> String {
    let bit = |mask: u8| u8::from(byte & mask != 0);
    format!(
        "WTR={} POR={} LB={} WR={:04b}",
        bit(WTR),
        bit(POR),
        bit(LB),
        byte & WR
    )
}

/// The lock, the protection and the rest of 0Bh.
fn control_words(size: Size, byte: u8) -> String {
    let lock = if byte & SNL != 0 { "locked" } else { "open" };
    let trip = ["2.6", "2.9", "3.9", "4.4"][usize::from(byte & VTP)];
    let charger = if byte & VBC != 0 { ", VBC" } else { "" };
    format!(
        "serial number {lock}, {}, VTP {trip} V{charger}",
        protection(size, byte)
    )
}

/// How the counters count and are read, by 0Ch.
fn counting_words(byte: u8) -> String {
    let counters = match byte & CC != 0 {
        true => "one counter of 32 bits",
        false => "two counters of 16 bits",
    };
    let reads = if byte & RC != 0 { "frozen" } else { "live" };
    let (two, one) = (byte >> 1 & 1, byte & 1);
    format!("{counters}, reads {reads}, C2P={two} C1P={one}")
}

/// What WP1 and WP0 of 0Bh protect in a part of a size.
///
/// ```
/// use fm3130::family::{registers::protection, Size};
///
/// assert_eq!(protection(Size::Kb64, 0x10), "writes refused at 0000h to 0FFFh");
/// assert_eq!(protection(Size::Kb256, 0x10), "writes refused at 0000h to 3FFFh");
/// ```
pub fn protection(size: Size, control: u8) -> String {
    let last = match (control & WP1 != 0, control & WP0 != 0) {
        (false, false) => return "writes allowed everywhere".to_string(),
        (true, true) => return "writes refused everywhere".to_string(),
        (false, true) => size.bytes() / 4 - 1,
        (true, false) => size.bytes() / 2 - 1,
    };
    format!("writes refused at 0000h to {last:04X}h")
}
