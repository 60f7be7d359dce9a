// SPDX-License-Identifier: Apache-2.0
//! Catching up after sleep, from an image to an image, by a plain program written for speed: the same work as
//! `fm3130_catch_up`, none of it proved. It refuses what docs/IMAGE.md refuses, and counts days in its own way.

const IMAGE_BYTES: usize = 64;
const WRONG_STATE: u64 = 2;
const TOO_MANY_TICKS: u64 = 8;
const MOST_TICKS: u64 = 31_622_400;

const DAY: u32 = 86_400;
const DAYS_A_CENTURY: u32 = 36_525;
const DAYS_IN_FOUR_YEARS: u32 = 1_461;

const CORE: usize = 15;
const ALARM: usize = 9;
const WRITE_OR_READ: u8 = 0x03;
const CENTURY_FLAG: u8 = 0x20;
const ALARM_FLAG: u8 = 0x40;
const HALTED: u8 = 0x80;
const MATCH: u8 = 0x80;

/// The days of a year before each month and before the next year, without and with a 29th of February.
const BEFORE: [[u16; 13]; 2] = [
    [0, 31, 59, 90, 120, 151, 181, 212, 243, 273, 304, 334, 365],
    [0, 31, 60, 91, 121, 152, 182, 213, 244, 274, 305, 335, 366],
];

/// So many ticks on an image: a number that refuses, with nothing changed, or 0.
pub fn catch_up(image: &mut [u8], ticks: u64) -> u64 {
    let Ok(image) = <&mut [u8; IMAGE_BYTES]>::try_from(image) else {
        return WRONG_STATE;
    };
    if !is_within(image) {
        return WRONG_STATE;
    }
    if ticks > MOST_TICKS {
        return TOO_MANY_TICKS;
    }
    if ticks != 0 && image[25] < 2 && image[1] & HALTED == 0 {
        count(image, ticks as u32);
    }
    0
}

// ----- the limits of docs/IMAGE.md -----

/// Bits that are 0 in bytes 0 to 31, eight bytes to a word, the first one lowest.
const CLEAR: [u64; 4] = [
    0xE0C0_F8C0_8080_4000,
    0x8000_6040_4000_0000,
    0xE0F0_00E0_C0F8_C080,
    0xFFFF_0000_F0F0_FC00,
];

/// Bytes 56 to 63: zeros and the mark.
const MARK: u64 = 0x0130_3100_0000_0000;

fn word(image: &[u8; IMAGE_BYTES], place: usize) -> u64 {
    u64::from_le_bytes(std::array::from_fn(|byte| image[8 * place + byte]))
}

fn is_within(image: &[u8; IMAGE_BYTES]) -> bool {
    let mut set = word(image, 4) | word(image, 5) | word(image, 6) | (word(image, 7) ^ MARK);
    for (place, clear) in CLEAR.iter().enumerate() {
        set |= word(image, place) & clear;
    }
    let transfer = u32::from_le_bytes([image[26], image[27], image[28], image[29]]);
    set == 0
        && image[22] <= 14
        && image[25] <= 2
        && (transfer == 0 || (image[25] == 0 && transfer_fits(transfer.to_le_bytes())))
}

/// Bytes 26 to 29, not all of them 0, while main power is present.
fn transfer_fits([phase, clocks, byte, first]: [u8; 4]) -> bool {
    if clocks > 8 || (first != 0 && phase != 3) {
        return false;
    }
    let fits = u16::from(byte) >> clocks == 0;
    match phase {
        1 => fits && (clocks < 8 || matches!(byte, 0xA0 | 0xA1 | 0xD0 | 0xD1)),
        2 | 3 | 5 | 6 => fits,
        4 => fits && (clocks < 8 || byte <= 0x0E),
        7 | 8 => clocks > 0 || byte == 0,
        _ => false,
    }
}

// ----- days as numbers -----

/// A valid core: its day counted from the century's start, and what that was made from.
struct Moment {
    day: u32,
    /// Second of the day.
    second: u32,
    year: u32,
    /// 0 to 11.
    month: u32,
}

/// The number of two decimal digits.
fn figure(byte: u8) -> u32 {
    u32::from(byte) - 6 * u32::from(byte >> 4)
}

fn digits(number: u32) -> u8 {
    (number + 6 * (number / 10)) as u8
}

fn is_figure(byte: u8, most: u8) -> bool {
    byte & 0x0F <= 9 && byte <= most
}

fn days_before(year: u32) -> &'static [u16; 13] {
    &BEFORE[usize::from(year.is_multiple_of(4))]
}

/// The day of January 1; the year may be one of the next century.
fn year_start(year: u32) -> u32 {
    year * 365 + year.div_ceil(4)
}

impl Moment {
    fn from_core(core: &[u8; 7]) -> Option<Moment> {
        let [seconds, minutes, hours, weekday, date, month, year] = *core;
        let figures = is_figure(seconds, 0x59)
            & is_figure(minutes, 0x59)
            & is_figure(hours, 0x23)
            & is_figure(date, 0x31)
            & is_figure(month, 0x12)
            & is_figure(year, 0x99);
        if !figures || weekday == 0 || weekday > 7 || date == 0 || month == 0 {
            return None;
        }
        let (date, month, year) = (figure(date), figure(month) - 1, figure(year));
        let before = days_before(year);
        let start = u32::from(before[month as usize]);
        if date > u32::from(before[month as usize + 1]) - start {
            return None;
        }
        Some(Moment {
            day: year_start(year) + start + date - 1,
            second: (figure(hours) * 60 + figure(minutes)) * 60 + figure(seconds),
            year,
            month,
        })
    }
}

/// The core on a day of this century or the next, at a second of the day.
fn core_at(day: u32, second: u32, weekday: u32) -> [u8; 7] {
    let day = if day >= DAYS_A_CENTURY {
        day - DAYS_A_CENTURY
    } else {
        day
    };
    let (cycle, rest) = (day / DAYS_IN_FOUR_YEARS, day % DAYS_IN_FOUR_YEARS);
    let year = rest.saturating_sub(1) / 365;
    let of_year = rest - year_start(year);
    let before = days_before(year);
    let guess = (of_year / 32) as usize;
    let month = guess + usize::from(of_year >= u32::from(before[guess + 1]));
    [
        digits(second % 60),
        digits(second / 60 % 60),
        digits(second / 3600),
        weekday as u8,
        digits(of_year - u32::from(before[month]) + 1),
        digits(month as u32 + 1),
        digits(4 * cycle + year),
    ]
}

/// Ticks that count.
fn count(image: &mut [u8; IMAGE_BYTES], ticks: u32) {
    let mut core: [u8; 7] = std::array::from_fn(|field| image[CORE + field]);
    if let Some(start) = Moment::from_core(&core) {
        let second = start.second + ticks;
        let days = second / DAY;
        let end = start.day + days;
        let alarm = std::array::from_fn(|field| image[ALARM + field]);
        if image[0] & ALARM_FLAG == 0 && rings(alarm, &start, end, second % DAY) {
            image[0] |= ALARM_FLAG;
        }
        if end >= DAYS_A_CENTURY {
            image[0] |= CENTURY_FLAG;
        }
        let weekday = (u32::from(core[3]) - 1 + days) % 7 + 1;
        core = core_at(end, second % DAY, weekday);
        image[CORE..CORE + 7].copy_from_slice(&core);
    }
    if image[0] & WRITE_OR_READ == 0 {
        image[2..9].copy_from_slice(&core);
    }
}

// ----- the alarm -----

fn is_any(field: u8) -> bool {
    field & MATCH != 0
}

/// Whether an alarm agrees with a moment after the start and up to a second of the day `end`.
fn rings(alarm: [u8; 5], start: &Moment, end: u32, second: u32) -> bool {
    let [seconds, minutes, hours, date, month] = alarm;
    let possible = (is_any(seconds) | is_figure(seconds, 0x59))
        & (is_any(minutes) | is_figure(minutes, 0x59))
        & (is_any(hours) | is_figure(hours, 0x23))
        & (is_any(date) | (is_figure(date, 0x31) & (date != 0)))
        & (is_any(month) | (is_figure(month, 0x12) & (month != 0)));
    if !possible {
        return false;
    }
    let first_time = time_of([hours, minutes, seconds], [0, 0, 0]);
    let last_time = time_of([hours, minutes, seconds], [23, 59, 59]);
    if start.day == end {
        return time_within([hours, minutes, seconds], start.second + 1, second)
            && days_ring(date, month, start, end, end);
    }
    let from = start.day + u32::from(last_time <= start.second);
    let to = end - u32::from(second < first_time);
    days_ring(date, month, start, from, to)
}

/// The second of the day with the hour, minute and second that are asked for, or others where none is.
fn time_of(asked: [u8; 3], others: [u32; 3]) -> u32 {
    let part = |place: usize| {
        if is_any(asked[place]) {
            others[place]
        } else {
            figure(asked[place])
        }
    };
    (part(0) * 60 + part(1)) * 60 + part(2)
}

/// Whether a second of one day agrees, from one on and up to another.
fn time_within(asked: [u8; 3], from: u32, to: u32) -> bool {
    let mut stretch = (from, to + 1);
    for (field, span) in asked.into_iter().rev().zip([60, 60, 24]) {
        if stretch.0 >= stretch.1 {
            return false;
        }
        stretch = if is_any(field) {
            (stretch.0 / span, (stretch.1 - 1) / span + 1)
        } else {
            let slack = span - 1 - figure(field);
            ((stretch.0 + slack) / span, (stretch.1 + slack) / span)
        };
    }
    stretch.0 < stretch.1
}

/// Whether the date and the month agree on a day from one on and up to another, at most 367 days after the start.
fn days_ring(date: u8, month: u8, start: &Moment, from: u32, to: u32) -> bool {
    if from > to {
        return false;
    }
    match (is_any(date), is_any(month)) {
        (true, true) => true,
        (_, false) => {
            let month = figure(month) - 1;
            (start.year..start.year + 3).any(|year| month_rings(date, year, month, from, to))
        }
        (false, true) => {
            let (mut year, mut month) = (start.year, start.month);
            loop {
                if month_rings(date, year, month, from, to) {
                    return true;
                }
                month += 1;
                if month == 12 {
                    (year, month) = (year + 1, 0);
                }
                if year_start(year) + u32::from(days_before(year)[month as usize]) > to {
                    return false;
                }
            }
        }
    }
}

/// The same of the days of one month.
fn month_rings(date: u8, year: u32, month: u32, from: u32, to: u32) -> bool {
    let before = days_before(year);
    let first = year_start(year) + u32::from(before[month as usize]);
    let next = year_start(year) + u32::from(before[month as usize + 1]);
    if is_any(date) {
        return first <= to && from < next;
    }
    let day = first + figure(date) - 1;
    day < next && from <= day && day <= to
}
