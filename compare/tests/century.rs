// SPDX-License-Identifier: Apache-2.0
//! 02, number 13, by the second program: a day has 86,400 ticks; the date comes back after 36,525 midnights and not
//! sooner, which are 3,155,760,000 ticks, and the day of the week has then moved on by six places. The program main_almanac
//! walks the same midnights through the proved calendar, and the crate `law_century` has the proof.

use second::calendar::{calendar_from_numbers, Calendar};

/// Where six places on are, for the days 1 to 7.
const SIX_PLACES_ON: [u8; 7] = [7, 1, 2, 3, 4, 5, 6];

fn date_of(calendar: &Calendar) -> [u8; 3] {
    [calendar.date, calendar.month, calendar.year]
}

fn time_of(calendar: &Calendar) -> [u8; 3] {
    [calendar.hours, calendar.minutes, calendar.seconds]
}

/// How many times a step is taken until the calendar is as asked, and the calendar then.
fn steps_until(
    from: Calendar,
    step: impl Fn(Calendar) -> Calendar,
    asked: impl Fn(&Calendar) -> bool,
) -> (u32, Calendar) {
    let mut count = 1;
    let mut now = step(from);
    while !asked(&now) {
        now = step(now);
        count += 1;
    }
    (count, now)
}

/// Over one midnight, to the last second of the next day.
fn over_midnight(today: Calendar) -> Calendar {
    let (tomorrow, _) = today.next_second();
    Calendar {
        hours: today.hours,
        minutes: today.minutes,
        seconds: today.seconds,
        ..tomorrow
    }
}

#[test]
fn a_day_has_86400_ticks() {
    let midnight = calendar_from_numbers((0, 0, 0), 1, (1, 1, 0));
    let (ticks, then) = steps_until(
        midnight,
        |now| now.next_second().0,
        |now| time_of(now) == time_of(&midnight),
    );
    assert_eq!(ticks, 86_400);
    assert_eq!(then, calendar_from_numbers((0, 0, 0), 2, (2, 1, 0)));
}

#[test]
fn the_date_comes_back_after_36525_midnights_with_the_day_six_places_on() {
    for day in 1..=7 {
        let first = calendar_from_numbers((23, 59, 59), day, (1, 1, 0));
        let (midnights, then) =
            steps_until(first, over_midnight, |now| date_of(now) == date_of(&first));
        assert_eq!(midnights, 36_525);
        assert_eq!(then.day, SIX_PLACES_ON[usize::from(day) - 1]);
    }
}
