// SPDX-License-Identifier: Apache-2.0
//! Transactions of every kind, without their Stop, and the settings that come
//! before them. Used by several generators.

use super::random_source::RandomSource;
use super::script::Script;
use crate::calendar::{calendar_from_numbers, month_length, Calendar};

/// A transaction with its name.
pub struct Transaction {
    pub name: &'static str,
    pub script: Script,
}

fn transaction(name: &'static str, build: impl FnOnce(&mut Script)) -> Transaction {
    let mut script = Script::new();
    build(&mut script);
    Transaction { name, script }
}

/// Alarm every second, AL/SW = 1 and WP = 01, AEN = 1, oscillator running.
pub fn lively_settings(script: &mut Script) {
    script.companion_write(0x09, &[0x80, 0x80, 0x80, 0x80, 0x80, 0x88, 0x08, 0x00]);
}

/// One transaction of every kind with fixed contents, for a device that has the
/// lively settings.
pub fn fixed_transactions() -> Vec<Transaction> {
    let mut all = fixed_memory_transactions();
    all.extend(fixed_companion_transactions());
    all
}

fn fixed_memory_transactions() -> Vec<Transaction> {
    vec![
        transaction("memory write", |script| {
            script.begin_memory_write(0xAFFF);
            script.bytes_and_acknowledges(&[0x5A, 0xC3]);
        }),
        transaction("memory write refused", |script| {
            script.begin_memory_write(0x07FF);
            script.bytes_and_acknowledges(&[0x5A, 0xC3]);
        }),
        transaction("memory write wraps and is refused", |script| {
            script.begin_memory_write(0x1FFF);
            script.bytes_and_acknowledges(&[0x5A, 0xC3]);
        }),
        transaction("memory read", |script| {
            script.begin_memory_read().read_bytes(2);
        }),
        transaction("memory read at an address", |script| {
            script.begin_memory_write(0x1FFF);
            script.begin_memory_read().read_bytes(2);
        }),
    ]
}

fn fixed_companion_transactions() -> Vec<Transaction> {
    vec![
        transaction("companion write wraps", |script| {
            script.begin_companion_write(0x0D);
            script.bytes_and_acknowledges(&[0x12, 0x05, 0x07]);
        }),
        transaction("companion write of the calendar", |script| {
            script.begin_companion_write(0x00);
            script.bytes_and_acknowledges(&[0x06, 0x2A, 0x45]);
        }),
        transaction("companion read wraps", |script| {
            script.begin_companion_write(0x0E);
            script.begin_companion_read().read_bytes(3);
        }),
        transaction("companion read", |script| {
            script.begin_companion_read().read_bytes(2);
        }),
        transaction("unknown slave byte", |script| {
            script.start().bytes_and_acknowledges(&[0xA2, 0x01, 0x02]);
        }),
        transaction("companion address refused", |script| {
            script
                .begin_companion_write(0x0F)
                .byte_and_acknowledge(0x55);
        }),
    ]
}

/// One transaction of every kind with chosen contents.
pub fn random_transactions(source: &mut RandomSource) -> Vec<Transaction> {
    let mut all = random_memory_transactions(source);
    all.extend(random_companion_transactions(source));
    all
}

fn random_memory_transactions(source: &mut RandomSource) -> Vec<Transaction> {
    let address = plausible_memory_address(source);
    let read_address = plausible_memory_address(source);
    let count = source.between(1, 3);
    let data = source.bytes(count);
    vec![
        transaction("memory write", |script| {
            script
                .begin_memory_write(address)
                .bytes_and_acknowledges(&data);
        }),
        transaction("memory read", |script| {
            script.begin_memory_read().read_bytes(count);
        }),
        transaction("memory read at an address", |script| {
            script.begin_memory_write(read_address);
            script.begin_memory_read().read_bytes(count);
        }),
    ]
}

fn random_companion_transactions(source: &mut RandomSource) -> Vec<Transaction> {
    let address = source.below(15) as u8;
    let read_address = source.below(15) as u8;
    let count = source.between(1, 3);
    let data = source.bytes(count);
    let unknown = unknown_slave_byte(source);
    let refused = source.between(0x0F, 0xFF) as u8;
    vec![
        transaction("companion write", |script| {
            script
                .begin_companion_write(address)
                .bytes_and_acknowledges(&data);
        }),
        transaction("companion read", |script| {
            script.begin_companion_read().read_bytes(count);
        }),
        transaction("companion read at an address", |script| {
            script.begin_companion_write(read_address);
            script.begin_companion_read().read_bytes(count);
        }),
        transaction("unknown slave byte", |script| {
            script.start().byte_and_acknowledge(unknown);
            script.bytes_and_acknowledges(&data);
        }),
        transaction("companion address refused", |script| {
            script.begin_companion_write(refused);
            script.bytes_and_acknowledges(&data);
        }),
    ]
}

/// A slave byte that names neither device; often one bit away from a known one.
pub fn unknown_slave_byte(source: &mut RandomSource) -> u8 {
    loop {
        let known = source.pick(&[0xA0, 0xA1, 0xD0, 0xD1]);
        let byte = if source.chance(50) {
            known ^ (1 << source.below(8))
        } else {
            source.byte()
        };
        if !matches!(byte, 0xA0 | 0xA1 | 0xD0 | 0xD1) {
            return byte;
        }
    }
}

/// Addresses around the borders of the memory and of its protected parts.
pub const BORDER_ADDRESSES: [u16; 12] = [
    0x0000, 0x0001, 0x07FE, 0x07FF, 0x0800, 0x0801, 0x0FFE, 0x0FFF, 0x1000, 0x1001, 0x1FFE, 0x1FFF,
];

/// The last and the first addresses of the parts that protection tells apart.
pub const PROTECTION_BORDERS: [u16; 6] = [0x07FF, 0x0800, 0x0FFF, 0x1000, 0x1FFF, 0x0000];

/// A memory address, often near a border, sometimes with its upper three bits.
pub fn plausible_memory_address(source: &mut RandomSource) -> u16 {
    let near_border = source.pick(&BORDER_ADDRESSES);
    match source.below(4) {
        0 => source.next_number() as u16,
        1 => near_border | 0xE000,
        _ => near_border,
    }
}

/// A valid calendar; more often than not just before something rolls over.
pub fn plausible_calendar(source: &mut RandomSource) -> Calendar {
    let day = source.between(1, 7) as u8;
    if source.chance(8) {
        let seconds = source.pick(&[58, 59]);
        return calendar_from_numbers((23, 59, seconds), day, (31, 12, 99));
    }
    let year = match source.below(4) {
        0 => 99,
        1 => 4 * source.below(25) as u8,
        _ => source.below(100) as u8,
    };
    let month = source.pick(&[1, 2, 2, 2, 3, 4, 5, 6, 7, 8, 9, 10, 11, 12, 12, 12]);
    let length = month_length(month, year);
    let date = match source.below(3) {
        0 => length,
        1 => length - 1,
        _ => source.between(1, usize::from(length)) as u8,
    };
    let time = match source.below(4) {
        0 => (23, 59, 59 - source.below(3) as u8),
        1 => (source.below(24) as u8, 59, 59),
        2 => (source.below(24) as u8, source.below(60) as u8, 59),
        _ => (
            source.below(24) as u8,
            source.below(60) as u8,
            source.below(60) as u8,
        ),
    };
    calendar_from_numbers(time, day, (date, month, year))
}

/// A calendar with one or more fields that may be anything.
pub fn doubtful_calendar(source: &mut RandomSource) -> Calendar {
    let mut bytes = plausible_calendar(source).to_bytes();
    for _ in 0..source.between(1, 3) {
        let place = source.below(7);
        bytes[place] = match source.below(3) {
            0 => source.byte(),
            1 => source.pick(&[
                0x00, 0x0A, 0x1A, 0x24, 0x29, 0x30, 0x31, 0x32, 0x60, 0x99, 0x9A,
            ]),
            _ => bytes[place] ^ (1 << source.below(8)),
        };
    }
    Calendar::from_bytes(bytes)
}

/// Alarm registers 09h to 0Dh near the next second of a calendar: any Match
/// bits, and now and then a field that differs.
pub fn plausible_alarm(source: &mut RandomSource, calendar: Calendar) -> [u8; 5] {
    let next = calendar.next_second().0;
    let mut alarm = [
        next.seconds,
        next.minutes,
        next.hours,
        next.date,
        next.month,
    ];
    let matches = source.byte();
    for (place, register) in alarm.iter_mut().enumerate() {
        if source.chance(10) {
            *register = source.byte();
        }
        *register &= 0x7F;
        if matches >> place & 1 == 1 {
            *register |= 0x80;
        }
    }
    alarm
}
