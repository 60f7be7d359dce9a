// SPDX-License-Identifier: Apache-2.0
//! The calendar by itself.

use second::calendar::{bcd_from_number, calendar_from_numbers, midnights, number_from_bcd};
use second::Calendar;

fn ordinary() -> Calendar {
    calendar_from_numbers((12, 34, 56), 3, (15, 6, 21))
}

#[test]
fn bcd_numbers() {
    for number in 0..=99 {
        assert_eq!(number_from_bcd(bcd_from_number(number)), number);
    }
    assert_eq!(bcd_from_number(59), 0x59);
}

#[test]
fn there_are_36525_midnights() {
    let mut count = 0;
    let mut centuries = 0;
    for (before, after, century) in midnights() {
        assert!(before.is_valid() && after.is_valid());
        assert_eq!(before.next_second(), (after, century), "{before:?}");
        count += 1;
        centuries += u32::from(century);
    }
    assert_eq!(count, 36_525);
    assert_eq!(centuries, 1);
}

#[test]
fn midnights_follow_one_another() {
    let all: Vec<(Calendar, Calendar, bool)> = midnights().collect();
    for pair in all.windows(2) {
        let next_morning = pair[0].1;
        let next_evening = pair[1].0;
        assert_eq!(next_morning.day, next_evening.day);
        assert_eq!(next_morning.date, next_evening.date);
        assert_eq!(next_morning.month, next_evening.month);
        assert_eq!(next_morning.year, next_evening.year);
    }
}

#[test]
fn every_second_of_a_day_in_order() {
    let mut now = calendar_from_numbers((0, 0, 0), 3, (15, 6, 21));
    for number in 0..86_400_u32 {
        let time = (
            (number / 3600) as u8,
            (number / 60 % 60) as u8,
            (number % 60) as u8,
        );
        assert_eq!(now, calendar_from_numbers(time, 3, (15, 6, 21)));
        now = now.next_second().0;
    }
    assert_eq!(now, calendar_from_numbers((0, 0, 0), 4, (16, 6, 21)));
}

#[test]
fn seconds_minutes_and_hours_have_limits() {
    for byte in 0..=255_u8 {
        let digits = byte >> 4 <= 9 && byte & 15 <= 9;
        let seconds = Calendar {
            seconds: byte,
            ..ordinary()
        };
        assert_eq!(seconds.is_valid(), digits && byte <= 0x59);
        let minutes = Calendar {
            minutes: byte,
            ..ordinary()
        };
        assert_eq!(minutes.is_valid(), digits && byte <= 0x59);
        let hours = Calendar {
            hours: byte,
            ..ordinary()
        };
        assert_eq!(hours.is_valid(), digits && byte <= 0x23);
    }
}

#[test]
fn day_date_month_and_year_have_limits() {
    for byte in 0..=255_u8 {
        let digits = byte >> 4 <= 9 && byte & 15 <= 9;
        let day = Calendar {
            day: byte,
            ..ordinary()
        };
        assert_eq!(day.is_valid(), (1..=7).contains(&byte));
        let date = Calendar {
            date: byte,
            ..ordinary()
        };
        assert_eq!(date.is_valid(), digits && (1..=0x30).contains(&byte));
        let month = Calendar {
            month: byte,
            ..ordinary()
        };
        assert_eq!(month.is_valid(), digits && (1..=0x12).contains(&byte));
        let year = Calendar {
            year: byte,
            ..ordinary()
        };
        assert_eq!(year.is_valid(), digits);
    }
}

#[test]
fn dates_go_to_the_length_of_the_month() {
    let lengths = [31, 28, 31, 30, 31, 30, 31, 31, 30, 31, 30, 31];
    for year in 0..=99 {
        for (index, length) in lengths.iter().enumerate() {
            let month = index as u8 + 1;
            let leap_day = u8::from(month == 2 && year % 4 == 0);
            let last = length + leap_day;
            for date in 0..=39 {
                let calendar = calendar_from_numbers((1, 2, 3), 4, (date, month, year));
                assert_eq!(calendar.is_valid(), date >= 1 && date <= last);
            }
        }
    }
}

#[test]
fn an_invalid_calendar_has_no_next_second() {
    let invalid = Calendar {
        seconds: 0x5A,
        ..ordinary()
    };
    assert_eq!(invalid.next_second(), (invalid, false));
    let last_of_april = calendar_from_numbers((23, 59, 59), 7, (31, 4, 99));
    assert_eq!(last_of_april.next_second(), (last_of_april, false));
}

#[test]
fn the_day_of_the_week_is_a_ring() {
    for day in 1..=7 {
        let before = calendar_from_numbers((23, 59, 59), day, (15, 6, 21));
        let expected = if day == 7 { 1 } else { day + 1 };
        assert_eq!(before.next_second().0.day, expected);
        let noon = calendar_from_numbers((11, 59, 59), day, (15, 6, 21));
        assert_eq!(noon.next_second().0.day, day);
    }
}
