// SPDX-License-Identifier: Apache-2.0
//! Exhaustive families about SNL and the serial number.

use super::fixed::{border_addresses, read_registers};
use super::{FamilyList, Lists};
use crate::family::Size;
use crate::generate::script::Script;

/// The serial number before the lists.
const SERIAL: [u8; 8] = [0x11, 0x22, 0x33, 0x44, 0x55, 0x66, 0x77, 0x88];

/// The bytes of a long write from `address` on: 0Bh is given `locks` in turn, all
/// else differs from byte to byte.
fn long_write(address: u8, locks: [u8; 2]) -> Vec<u8> {
    let mut bytes = Vec::new();
    let mut register = address;
    let mut rounds = 0;
    for index in 0..34_u8 {
        if register == 0x0B {
            bytes.push(locks[rounds]);
            rounds = (rounds + 1).min(1);
        } else {
            bytes.push(0xC0 ^ index);
        }
        register = if register == 0x18 { 0x09 } else { register + 1 };
    }
    bytes
}

/// Long writes from every register on that pass 0Bh and the serial number twice
/// or three times, with every lock in 0Bh's two bytes; all registers are read.
pub fn locks_inside_writes(size: Size) -> Vec<FamilyList> {
    let mut lists = Lists::new(size, "family-locks-inside-writes", 0);
    for address in 0x09..=0x18_u8 {
        for first in [0x00, 0x80, 0x9F, 0x7F, 0xFF] {
            for second in [0x00, 0x80, 0x1F] {
                let mut script = Script::new();
                script.companion_write(0x11, &SERIAL);
                script.companion_write(address, &long_write(address, [first, second]));
                read_registers(&mut script);
                script.companion_write(0x0B, &[0x00]);
                script.companion_write(0x11, &[0xEE; 8]);
                read_registers(&mut script);
                let name = format!("from {address:02X}h, 0Bh {first:02X}h, then {second:02X}h");
                lists.add(name, script);
            }
        }
    }
    lists.lists
}

/// SNL with every WP: memory writes at each border, then 0Bh again with every WP
/// and SNL 0 and 1, memory and serial number written again.
pub fn locks_and_protection(size: Size) -> Vec<FamilyList> {
    let mut lists = Lists::new(size, "family-locks-and-protection", 43);
    for first in 0..8_u8 {
        for second in 0..8_u8 {
            let mut script = Script::new();
            script.companion_write(0x11, &SERIAL);
            for setting in [first, second] {
                let control = (setting & 4) << 5 | (setting & 3) << 3;
                script.companion_write(0x0B, &[control]);
                for address in border_addresses(size) {
                    script.memory_write(address, &[control ^ 0x69]);
                }
                script.companion_write(0x14, &[control ^ 0x5A]);
                script.companion_read(0x0B, 1).companion_read(0x14, 1);
            }
            lists.add(format!("{first:03b} then {second:03b}"), script);
        }
    }
    lists.lists
}

/// A serial number, locked or not, then all sequences of three power events and
/// a write of 0Bh and of the serial number after each that leaves main power.
pub fn locks_and_supplies(size: Size) -> Vec<FamilyList> {
    let mut lists = Lists::new(size, "family-locks-and-supplies", 0);
    for lock in [0x00, 0x1F, 0x80, 0x9F] {
        for number in 0..27_u8 {
            let mut script = Script::new();
            script.companion_write(0x11, &SERIAL);
            script.companion_write(0x09, &[0x0F, 0x9A, lock, 0x07, 1, 2, 3, 4]);
            for place in [1, 3, 9] {
                script.event(5 + number / place % 3);
                script.events(&[8, 9]);
                // without main power these are not heard
                script.companion_write(0x0B, &[0x04]);
                script.companion_write(0x12, &[0xAA ^ place]);
                script.companion_read(0x09, 10);
            }
            script.power_returned();
            read_registers(&mut script);
            lists.add(format!("0Bh {lock:02X}h, sequence {number}"), script);
        }
    }
    lists.lists
}
