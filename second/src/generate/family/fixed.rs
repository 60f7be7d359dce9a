// SPDX-License-Identifier: Apache-2.0
//! Settings, and one transaction of every kind with fixed contents, without its
//! Stop.

use crate::family::Size;
use crate::generate::script::Script;

/// RC of 0Ch.
pub const RC: u8 = 0x08;
/// CC of 0Ch.
pub const CC: u8 = 0x04;

/// Both counters about to carry: counter 1 is FFFFh, counter 2 is 00FFh.
pub const ABOUT_TO_CARRY: [u8; 4] = [0xFF, 0xFF, 0xFF, 0x00];

/// The bottom quarter protected, the counters as given, then 0Ch.
pub fn settings(script: &mut Script, count_control: u8, counters: [u8; 4]) {
    script.companion_write(0x0B, &[0x08]);
    script.companion_write(0x0D, &counters);
    script.companion_write(0x0C, &[count_control]);
}

/// Reads all 16 registers, beginning with 11h, so that 10h comes last.
pub fn read_registers(script: &mut Script) {
    script.companion_read(0x11, 16);
}

/// Shows both current addresses by what is read there.
pub fn read_current_bytes(script: &mut Script) {
    script.memory_read_current(2).companion_read_current(2);
}

/// The first address above the protected quarter.
pub fn quarter(size: Size) -> u16 {
    (size.bytes() / 4) as u16
}

/// Addresses around the borders of the memory and of its protected parts.
pub fn border_addresses(size: Size) -> [u16; 12] {
    let quarter = quarter(size);
    let last = size.last_address();
    [
        0,
        1,
        quarter - 2,
        quarter - 1,
        quarter,
        quarter + 1,
        2 * quarter - 2,
        2 * quarter - 1,
        2 * quarter,
        2 * quarter + 1,
        last - 1,
        last,
    ]
}

/// The last and the first addresses of the parts that protection tells apart.
pub fn protection_borders(size: Size) -> [u16; 6] {
    let quarter = quarter(size);
    let half = 2 * quarter;
    [quarter - 1, quarter, half - 1, half, size.last_address(), 0]
}

/// One transaction of every kind, for a device that has the settings.
pub fn transactions(size: Size) -> Vec<(&'static str, Script)> {
    let mut all = memory_transactions(size);
    all.extend(companion_writes());
    all.extend(companion_reads_and_refusals());
    all
}

fn transaction(name: &'static str, build: impl FnOnce(&mut Script)) -> (&'static str, Script) {
    let mut script = Script::new();
    build(&mut script);
    (name, script)
}

fn memory_transactions(size: Size) -> Vec<(&'static str, Script)> {
    let last = size.last_address();
    let quarter = quarter(size);
    vec![
        transaction("memory write", |script| {
            // bit 15 is above both sizes
            script.begin_memory_write(quarter | 0x8000);
            script.bytes_and_acknowledges(&[0x5A, 0xC3]);
        }),
        transaction("memory write refused", |script| {
            script.begin_memory_write(quarter - 1);
            script.bytes_and_acknowledges(&[0x5A, 0xC3]);
        }),
        transaction("memory write wraps and is refused", |script| {
            script.begin_memory_write(last);
            script.bytes_and_acknowledges(&[0x5A, 0xC3]);
        }),
        transaction("memory read", |script| {
            script.begin_memory_read().read_bytes(2);
        }),
        transaction("memory read at an address", |script| {
            script.begin_memory_write(last);
            script.begin_memory_read().read_bytes(2);
        }),
    ]
}

fn companion_writes() -> Vec<(&'static str, Script)> {
    vec![
        transaction("companion write of the counters", |script| {
            script.begin_companion_write(0x0D);
            script.bytes_and_acknowledges(&[0xFF, 0xFF, 0xFE, 0xFF]);
        }),
        transaction("companion write of 0Ch on", |script| {
            script.begin_companion_write(0x0C);
            script.bytes_and_acknowledges(&[0x0C, 0xFF, 0x3C]);
        }),
        transaction("companion write wraps", |script| {
            script.begin_companion_write(0x18);
            script.bytes_and_acknowledges(&[0x12, 0x3A, 0x83]);
        }),
        transaction("companion write locks", |script| {
            script.begin_companion_write(0x0B);
            script.bytes_and_acknowledges(&[0x98, 0x05, 1, 2, 3, 4, 0xAB]);
        }),
    ]
}

fn companion_reads_and_refusals() -> Vec<(&'static str, Script)> {
    vec![
        transaction("companion read of 0Ch on", |script| {
            script.begin_companion_write(0x0C);
            script.begin_companion_read().read_bytes(6);
        }),
        transaction("companion read wraps", |script| {
            script.begin_companion_write(0x18);
            script.begin_companion_read().read_bytes(2);
        }),
        transaction("companion read", |script| {
            script.begin_companion_read().read_bytes(2);
        }),
        transaction("unknown slave byte", |script| {
            script.start().bytes_and_acknowledges(&[0xA2, 0x0D, 0x02]);
        }),
        transaction("companion address refused above", |script| {
            script
                .begin_companion_write(0x19)
                .byte_and_acknowledge(0x55);
        }),
        transaction("companion address refused below", |script| {
            script
                .begin_companion_write(0x08)
                .byte_and_acknowledge(0x55);
        }),
    ]
}
