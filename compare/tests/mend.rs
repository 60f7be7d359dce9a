// SPDX-License-Identifier: Apache-2.0
//! Images put right, on both programs: number, image, list and count, once and twice.

use compare::archive::{self, Mended};
use compare::image;
use second::calendar::Calendar;
use second::generate::{handed_in, random};
use second::mend::mend;
use second::state::State;
use second::Device;

/// Seven bytes as registers 02h to 08h hold them.
type Bytes = [u8; 7];

/// Dates to begin with: valid ones at the ends of months and of the century, then some that no calendar has.
const DATES: [Bytes; 9] = [
    [0x59, 0x59, 0x23, 0x07, 0x31, 0x12, 0x99],
    [0x00, 0x00, 0x00, 0x01, 0x29, 0x02, 0x08],
    [0x30, 0x34, 0x12, 0x03, 0x28, 0x02, 0x09],
    [0x09, 0x08, 0x19, 0x06, 0x30, 0x06, 0x24],
    [0x00, 0x00, 0x00, 0x01, 0x31, 0x04, 0x10],
    [0x01, 0x02, 0x03, 0x04, 0x31, 0x02, 0x00],
    [0x60, 0x5A, 0x24, 0x00, 0x00, 0x00, 0xA0],
    [0x7F, 0x7F, 0x3F, 0x00, 0x3F, 0x1F, 0xFF],
    [0x10, 0x20, 0x2A, 0x05, 0x30, 0x13, 0x9A],
];

/// The bits that each register stores (01, Registers).
const STORED: Bytes = [0x7F, 0x7F, 0x3F, 0x07, 0x3F, 0x1F, 0xFF];

/// The bytes that a field may hold on its own: its numbers in BCD.
const RANGES: [(u8, u8); 7] = [(0, 59), (0, 59), (0, 23), (1, 7), (1, 31), (1, 12), (0, 99)];

fn calendar_of(bytes: Bytes) -> Calendar {
    let [seconds, minutes, hours, day, date, month, year] = bytes;
    Calendar {
        seconds,
        minutes,
        hours,
        day,
        date,
        month,
        year,
    }
}

/// A device with these bytes in its registers and its core.
fn with(mut device: Device, time: Bytes, core: Bytes) -> Device {
    device.registers[2..9].copy_from_slice(&time);
    device.core = calendar_of(core);
    device
}

/// The second program's image, number and list for a device.
fn expected(device: &Device) -> (Vec<u8>, u64, Vec<u8>) {
    let unchanged = image::of(device).to_vec();
    match mend(State::of(device)) {
        Err(number) => (unchanged, u64::from(number), Vec::new()),
        Ok(mended) => {
            let changes = mended.changes.iter();
            let list = changes.flat_map(|change| [change.register, change.old, change.new]);
            let after = mended.state.device(Vec::new());
            (image::of(&after).to_vec(), 0, list.collect())
        }
    }
}

/// Holds the entry on a device, with more room than the list needs, with exactly as much, with one byte less, and on
/// what it left. Returns how many registers were changed.
fn hold(device: &Device) -> usize {
    let before = image::of(device);
    let (after, number, list) = expected(device);
    let count = list.len() / 3;
    let answer = Mended {
        number,
        count: count as u64,
    };
    for room in [list.len(), 24] {
        let (mut bytes, mut changes) = (before, vec![0xEE; room]);
        assert_eq!(
            archive::mend(&mut bytes, &mut changes),
            answer,
            "{before:02X?}"
        );
        assert_eq!(bytes[..], after[..], "{before:02X?}");
        assert_eq!(changes[..list.len()], list[..], "{before:02X?}");
        assert!(changes[list.len()..].iter().all(|byte| *byte == 0xEE));
        if number == 0 {
            let again = archive::mend(&mut bytes, &mut []);
            assert_eq!(
                again,
                Mended {
                    number: 0,
                    count: 0
                },
                "{before:02X?}"
            );
            assert_eq!(bytes[..], after[..], "{before:02X?}");
        }
    }
    if count > 0 {
        let (mut bytes, mut changes) = (before, vec![0xEE; list.len() - 1]);
        let short = Mended {
            number: 4,
            count: 0,
        };
        assert_eq!(
            archive::mend(&mut bytes, &mut changes),
            short,
            "{before:02X?}"
        );
        assert!(bytes == before && changes.iter().all(|byte| *byte == 0xEE));
    }
    count
}

/// Every value of every calendar byte, in the registers and in the core, in several dates; those with a bit that the
/// register map fixes at 0 are refused by both.
#[test]
fn every_value_of_every_calendar_byte() {
    let mut changed = 0;
    for (place, date) in DATES.iter().enumerate() {
        let other = DATES[(place + 4) % DATES.len()];
        for field in 0..7 {
            for byte in 0..=255 {
                let mut bytes = *date;
                bytes[field] = byte;
                changed += hold(&with(Device::fresh(), bytes, other));
                changed += hold(&with(Device::fresh(), other, bytes));
            }
        }
    }
    assert!(changed > 10_000, "{changed}");
}

/// The bytes that a register stores and its field may not hold.
fn out_of_range(field: usize) -> Vec<u8> {
    let (least, greatest) = RANGES[field];
    let legal: Vec<u8> = (least..=greatest).map(|n| n / 10 * 16 + n % 10).collect();
    (0..=STORED[field])
        .filter(|byte| !legal.contains(byte))
        .collect()
}

/// Every pair of fields, each with every byte that it may not hold.
#[test]
fn every_pair_of_fields_out_of_range() {
    let mut pairs = 0;
    for one in 0..7 {
        for other in 0..one {
            for first in out_of_range(one) {
                for second in out_of_range(other) {
                    let mut bytes = DATES[pairs % 6];
                    bytes[one] = first;
                    bytes[other] = second;
                    let core = DATES[(pairs + 1) % DATES.len()];
                    assert!(hold(&with(Device::fresh(), bytes, core)) >= 2);
                    pairs += 1;
                }
            }
        }
    }
    assert!(pairs > 40_000, "{pairs}");
}

/// Every date of every month of the century, so every month's end in common and leap years.
#[test]
fn every_month_of_the_century() {
    let bcd = |number: u8| number / 10 * 16 + number % 10;
    let mut clipped = 0;
    for year in 0..100 {
        for month in 1..=12 {
            for date in 1..=31 {
                let bytes = [0, 0, 0, 1, bcd(date), bcd(month), bcd(year)];
                clipped += hold(&with(Device::fresh(), bytes, bytes));
            }
        }
    }
    // Four months of 30 days; February has 28 days in 75 years and 29 in 25.
    assert_eq!(clipped, 100 * 4 + 75 * 3 + 25 * 2);
}

/// In the middle of transfers, on backup and without a supply: all that the second program hands in, and random lists.
#[test]
fn all_else_stays_wherever_a_transfer_stands() {
    let mut phases = [0; 9];
    let mut place = 0;
    let mut visit = |device: &Device| {
        hold(device);
        let (time, core) = (DATES[place % DATES.len()], DATES[place / 7 % DATES.len()]);
        let device = with(device.clone(), time, core);
        phases[usize::from(image::of(&device)[26])] += 1;
        hold(&device);
        place += 1;
    };
    for list in handed_in() {
        visit(&list.device());
    }
    for list in random(15, 40_000) {
        let mut device = Device::fresh();
        for event in list.events {
            device.event(event);
            visit(&device);
        }
    }
    assert!(phases.iter().all(|count| *count > 0), "{phases:?}");
}

/// An image of another length, or one that no well-formed state writes, stays, and so do the lent bytes.
#[test]
fn refused_images_stay() {
    let fresh = image::of(&with(Device::fresh(), DATES[6], DATES[7])).to_vec();
    let mut images: Vec<Vec<u8>> = [0, 1, 15, 63].map(|length| fresh[..length].to_vec()).into();
    images.push([&fresh[..], &[0]].concat());
    for place in 0..64 {
        for bit in 0..8 {
            let mut other = fresh.clone();
            other[place] ^= 1 << bit;
            if !image::is_accepted(&other) {
                images.push(other);
            }
        }
    }
    assert!(images.len() > 250, "{}", images.len());
    for wrong in images {
        let (mut bytes, mut changes) = (wrong.clone(), [0xEE; 24]);
        let refused = archive::mend(&mut bytes, &mut changes);
        assert_eq!(
            refused,
            Mended {
                number: 2,
                count: 0
            },
            "{wrong:02X?}"
        );
        assert!(bytes == wrong && changes == [0xEE; 24]);
    }
}
