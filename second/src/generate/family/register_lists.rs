// SPDX-License-Identifier: Apache-2.0
//! Exhaustive families about the registers.

use super::fixed::read_registers;
use super::{FamilyList, Lists};
use crate::family::{Size, State};
use crate::generate::script::Script;

/// Every register with every byte, with SNL 0 and 1 before; each write is
/// followed by reading the register back, and at times by a loss of supplies.
pub fn register_values(size: Size) -> Vec<FamilyList> {
    let mut lists = Lists::new(size, "family-register-values", 0);
    for address in 0x09..=0x18_u8 {
        for control in [0x00, 0x80] {
            let mut script = Script::new();
            script.companion_write(0x11, &[1, 2, 3, 4, 5, 6, 7, 8]);
            script.companion_write(0x0B, &[control]);
            for value in 0..=255_u8 {
                script.begin_companion_write(address);
                script.byte_and_acknowledge(value);
                script.companion_read(address, 1);
                if value % 64 == 63 {
                    script.event(5 + value / 64 % 2).power_returned();
                    script.companion_read(address, 1);
                }
            }
            read_registers(&mut script);
            let name = format!("register {address:02X}h, 0Bh {control:02X}h");
            lists.add(name, script);
        }
    }
    lists.lists
}

/// Every byte written to 09h over every set of WTR, POR and LB, and to 0Bh over
/// every byte that it can hold; both handed in, since no event sets WTR.
pub fn flags_kept(size: Size) -> Vec<FamilyList> {
    let mut lists = Lists::new(size, "family-flags-kept", 0);
    for flags in 0..8_u8 {
        for value in 0..=255_u8 {
            let mut state = State::fresh();
            state.registers[0] = flags << 5 | 0x05;
            state.registers[2] = (flags & 1) << 7 | (flags >> 1) << 3;
            let mut script = Script::new();
            script.companion_write(0x09, &[value]);
            script.companion_write(0x0B, &[value]);
            script.companion_read(0x09, 3);
            script.event(5 + value % 2).power_returned();
            script.companion_read(0x09, 3);
            lists.add_in(
                state,
                format!("flags {flags:03b}, byte {value:02X}h"),
                script,
            );
        }
    }
    lists.lists
}
