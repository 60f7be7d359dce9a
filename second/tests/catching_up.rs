// SPDX-License-Identifier: Apache-2.0
//! 02, number 7: "One call for n ticks must leave registers, core, AF and CF
//! exactly as n single ticks would".

use second::calendar::{calendar_from_numbers, midnights};
use second::catch_up::{catch_up, catch_up_plainly, MOST_TICKS};
use second::generate::{self, any_state, RandomSource, StartingState};
use second::registers::{
    ALARM_FLAG, CENTURY_FLAG, FIRST_ALARM, LAST_ALARM, OSCILLATOR_HALTED, STORED_BITS,
};
use second::{Calendar, Power, State};

const SECONDS_A_DAY: u32 = 86_400;

/// A state that runs, with 00h as given, and a calendar in core and registers.
fn running(control: u8, core: Calendar) -> State {
    State::from(StartingState::running(control, core, core))
}

/// With these alarm registers 09h to 0Dh.
fn with_alarm(mut state: State, alarm: [u8; 5]) -> State {
    state.registers[FIRST_ALARM..=LAST_ALARM].copy_from_slice(&alarm);
    state
}

/// One single tick.
fn tick(state: State) -> State {
    catch_up_plainly(state, 1).expect("well-formed")
}

fn fast(state: State, ticks: u32) -> State {
    catch_up(state, ticks).expect("not refused")
}

fn check(state: State, ticks: u32) {
    let plain = catch_up_plainly(state, ticks).expect("not refused");
    assert_eq!(fast(state, ticks), plain, "{ticks} ticks from {state:?}");
}

/// Any state, more often with an alarm that has a legal figure in each field.
fn any_alarm_state(source: &mut RandomSource) -> State {
    let state = State::from(any_state(source));
    if source.chance(40) {
        return state;
    }
    let figure = |source: &mut RandomSource, first, last, often_any: usize| {
        let number = source.between(first, last) as u8;
        let any = u8::from(source.chance(often_any)) << 7;
        any | (number / 10 * 16 + number % 10)
    };
    let alarm = [
        figure(source, 0, 59, 40),
        figure(source, 0, 59, 40),
        figure(source, 0, 23, 40),
        figure(source, 1, 31, 40),
        figure(source, 1, 12, 40),
    ];
    with_alarm(state, alarm)
}

// ----- refusals and nothing to do -----

/// "a larger n is refused by number 8, after number 2, and changes nothing"
#[test]
fn a_larger_number_is_refused_by_8_after_2() {
    let good = running(0, calendar_from_numbers((1, 2, 3), 4, (5, 6, 7)));
    let mut bad = good;
    bad.companion_address = 15;
    for ticks in [MOST_TICKS + 1, MOST_TICKS + 2, u32::MAX] {
        assert_eq!(catch_up(good, ticks), Err(8));
        assert_eq!(catch_up_plainly(good, ticks), Err(8));
        assert_eq!(catch_up(bad, ticks), Err(2));
        assert_eq!(catch_up_plainly(bad, ticks), Err(2));
    }
    for ticks in [0, 1, MOST_TICKS] {
        assert!(catch_up(good, ticks).is_ok());
        assert_eq!(catch_up(bad, ticks), Err(2));
        assert_eq!(catch_up_plainly(bad, ticks), Err(2));
    }
}

/// "n = 0 included": also 02h to 08h do not take the core.
#[test]
fn no_ticks_change_nothing() {
    let mut source = RandomSource::new(70);
    let mut apart = 0;
    for _ in 0..20_000 {
        let state = any_alarm_state(&mut source);
        apart += u32::from(state.registers[0] & 3 == 0 && state.shown_calendar() != state.core);
        assert_eq!(catch_up(state, 0), Ok(state));
        assert_eq!(catch_up_plainly(state, 0), Ok(state));
    }
    assert!(apart > 1_000);
}

/// "a stopped oscillator": "A tick that does not count changes nothing."
#[test]
fn ticks_that_do_not_count_change_nothing() {
    let mut source = RandomSource::new(71);
    for _ in 0..5_000 {
        let mut state = any_alarm_state(&mut source);
        let ticks = source.below(MOST_TICKS as usize + 1) as u32;
        if source.chance(50) {
            state.registers[1] |= OSCILLATOR_HALTED;
        } else {
            state.power = Power::Gone;
        }
        assert_eq!(catch_up(state, ticks), Ok(state));
        check(state, ticks % 100);
    }
}

/// "an invalid core": it stays, raises nothing, and is shown if R and W are 0.
#[test]
fn an_invalid_core_is_shown_and_stays() {
    let shown = calendar_from_numbers((12, 0, 0), 4, (10, 11, 12));
    for core in generate::invalid_calendars() {
        for control in 0..4 {
            let state = State::from(StartingState::running(control, shown, core));
            for ticks in [1, 2, 86_400, MOST_TICKS] {
                let after = fast(state, ticks);
                let mut expected = state;
                if control == 0 {
                    expected.registers[2..=8].copy_from_slice(&core.to_bytes());
                }
                assert_eq!(after, expected);
            }
            check(state, 3);
        }
    }
}

// ----- fast against plain -----

#[test]
fn every_byte_of_every_core_field() {
    for place in 0..7 {
        for byte in 0..=STORED_BITS[2 + place] {
            let mut bytes = calendar_from_numbers((23, 59, 58), 7, (28, 2, 96)).to_bytes();
            bytes[place] = byte;
            let state = running(0, Calendar::from_bytes(bytes));
            for ticks in 0..4 {
                check(state, ticks);
            }
        }
    }
}

#[test]
fn every_byte_of_every_alarm_field() {
    let start = calendar_from_numbers((21, 58, 57), 3, (30, 11, 21));
    for place in 0..5 {
        for byte in 0..=255_u8 {
            let mut alarm = [0x80; 5];
            alarm[place] = byte & STORED_BITS[FIRST_ALARM + place];
            let state = with_alarm(running(0, start), alarm);
            for ticks in [1, 2, 59, 60, 61, 3_600, 3_601] {
                check(state, ticks);
            }
        }
    }
}

#[test]
fn few_ticks_from_any_state() {
    let mut source = RandomSource::new(72);
    for _ in 0..60_000 {
        let state = any_alarm_state(&mut source);
        check(state, source.below(130) as u32);
    }
}

#[test]
fn some_days_from_any_state() {
    let mut source = RandomSource::new(73);
    for _ in 0..60 {
        let state = any_alarm_state(&mut source);
        check(state, source.below(200_000) as u32);
    }
}

#[test]
fn up_to_a_year_from_any_state() {
    let mut source = RandomSource::new(74);
    for _ in 0..3 {
        let mut state = any_alarm_state(&mut source);
        state.power = Power::On;
        check(state, source.below(MOST_TICKS as usize / 16) as u32);
    }
    let last_second = calendar_from_numbers((23, 59, 59), 7, (31, 12, 99));
    check(running(0, last_second), MOST_TICKS);
}

/// The step that makes n + 1 ticks of n: with it and n = 0, all n agree.
#[test]
fn one_tick_more_is_one_single_tick() {
    let mut source = RandomSource::new(75);
    for _ in 0..100_000 {
        let state = any_alarm_state(&mut source);
        let ticks = source.below(MOST_TICKS as usize) as u32;
        assert_eq!(fast(state, ticks + 1), tick(fast(state, ticks)));
    }
}

/// The same just before and after midnight, so many days later.
#[test]
fn one_tick_more_around_midnight() {
    let mut source = RandomSource::new(76);
    for _ in 0..20_000 {
        let mut state = any_alarm_state(&mut source);
        let date = Calendar {
            seconds: 0x59,
            minutes: 0x59,
            hours: 0x23,
            ..state.core
        };
        state.core = date;
        let days = source.below(366) as u32 * SECONDS_A_DAY;
        for ticks in days..days + 3 {
            assert_eq!(fast(state, ticks + 1), tick(fast(state, ticks)));
        }
    }
}

/// Ticks in two calls are the ticks in one.
#[test]
fn two_calls_are_one() {
    let mut source = RandomSource::new(77);
    for _ in 0..50_000 {
        let state = any_alarm_state(&mut source);
        let first = source.below(MOST_TICKS as usize + 1) as u32;
        let second = source.below((MOST_TICKS - first) as usize + 1) as u32;
        let both = fast(fast(state, first), second);
        assert_eq!(fast(state, first + second), both);
    }
}

// ----- dates against the list of midnights -----

/// From every evening of the century so many days on.
fn check_evenings(days: usize) {
    let evenings: Vec<Calendar> = midnights().map(|(evening, _, _)| evening).collect();
    for (number, evening) in evenings.iter().enumerate() {
        let later = fast(running(0, *evening), days as u32 * SECONDS_A_DAY);
        let mut expected = evenings[(number + days) % evenings.len()];
        // the list's days of the week begin anew with the century
        expected.day = ((usize::from(evening.day) - 1 + days) % 7) as u8 + 1;
        assert_eq!(later.core, expected);
        assert_eq!(later.shown_calendar(), expected);
        let century = later.registers[0] & CENTURY_FLAG != 0;
        assert_eq!(century, number + days >= evenings.len());
    }
}

#[test]
fn every_evening_of_the_century() {
    for days in [1, 2, 27, 28, 29, 30, 31, 59, 60, 61, 365, 366] {
        check_evenings(days);
    }
}

#[test]
fn a_year_is_366_days_of_ticks() {
    assert_eq!(MOST_TICKS, 366 * SECONDS_A_DAY);
    let new_year = calendar_from_numbers((0, 0, 0), 1, (1, 1, 0));
    let later = fast(running(0, new_year), MOST_TICKS);
    assert_eq!(later.core, calendar_from_numbers((0, 0, 0), 3, (1, 1, 1)));
}

// ----- the alarm -----

/// Whether an alarm register admits the BCD byte of a number.
fn admits(register: u8, number: u32) -> bool {
    let byte = (number / 10 * 16 + number % 10) as u8;
    register & 0x80 != 0 || register & 0x7F == byte
}

/// The first second of a day, from one on, that the alarm's time admits, by
/// trying hours, minutes and seconds.
fn first_time(alarm: [u8; 5], from: u32) -> Option<u32> {
    for hour in from / 3_600..24 {
        if !admits(alarm[2], hour) {
            continue;
        }
        for minute in 0..60 {
            if !admits(alarm[1], minute) {
                continue;
            }
            for second in 0..60 {
                let time = hour * 3_600 + minute * 60 + second;
                if time >= from && admits(alarm[0], second) {
                    return Some(time);
                }
            }
        }
    }
    None
}

/// After how many ticks, at most 31,622,400, the alarm first agrees: day by day
/// through the list of midnights.
fn first_ring(evenings: &[Calendar], start: usize, second: u32, alarm: [u8; 5]) -> Option<u32> {
    let today = first_time(alarm, second + 1);
    let on_another_day = first_time(alarm, 0);
    for days in 0..=366 {
        let date = evenings[(start + days) % evenings.len()];
        let date_agrees = (alarm[3] & 0x80 != 0 || alarm[3] == date.date)
            && (alarm[4] & 0x80 != 0 || alarm[4] == date.month);
        let time = if days == 0 { today } else { on_another_day };
        if let (true, Some(time)) = (date_agrees, time) {
            let ticks = days as u32 * SECONDS_A_DAY + time - second;
            return (ticks <= MOST_TICKS).then_some(ticks);
        }
    }
    None
}

/// Alarm registers with few fields that no core has.
fn any_alarm(source: &mut RandomSource) -> [u8; 5] {
    let mut state = any_alarm_state(source);
    while source.chance(50) {
        state = any_alarm_state(source);
    }
    let mut alarm = [0; 5];
    alarm.copy_from_slice(&state.registers[FIRST_ALARM..=LAST_ALARM]);
    alarm
}

/// The alarm comes with the tick that the list of days says, and not before.
#[test]
fn the_first_alarm_comes_when_it_should() {
    let evenings: Vec<Calendar> = midnights().map(|(evening, _, _)| evening).collect();
    let mut source = RandomSource::new(78);
    let (mut rung, mut silent, mut late) = (0, 0, 0);
    for _ in 0..50_000 {
        let start = match source.below(3) {
            0 => evenings.len() - 1 - source.below(400),
            _ => source.below(evenings.len()),
        };
        let second = source.below(SECONDS_A_DAY as usize) as u32;
        let core = Calendar {
            hours: (second / 36_000 * 16 + second / 3_600 % 10) as u8,
            minutes: (second % 3_600 / 600 * 16 + second / 60 % 10) as u8,
            seconds: (second % 60 / 10 * 16 + second % 10) as u8,
            ..evenings[start]
        };
        let alarm = any_alarm(&mut source);
        let state = with_alarm(running(0, core), alarm);
        let rings = |ticks| fast(state, ticks).registers[0] & ALARM_FLAG != 0;
        match first_ring(&evenings, start, second, alarm) {
            Some(ticks) => {
                assert!(!rings(ticks - 1), "{core:02X?} {alarm:02X?} {ticks}");
                assert!(rings(ticks), "{core:02X?} {alarm:02X?} {ticks}");
                assert!(rings(MOST_TICKS));
                rung += 1;
                late += u32::from(ticks > 40 * SECONDS_A_DAY);
            }
            None => {
                assert!(!rings(MOST_TICKS), "{core:02X?} {alarm:02X?}");
                silent += 1;
            }
        }
    }
    assert!(rung > 10_000 && silent > 5_000 && late > 2_000);
}

/// The alarm on a 29th of February, which may be more than a year away.
#[test]
fn an_alarm_on_a_leap_day() {
    let alarm = [0x00, 0x00, 0x12, 0x29, 0x02];
    let leap_noon = calendar_from_numbers((12, 0, 0), 1, (29, 2, 20));
    let rings = |core, ticks| {
        let state = with_alarm(running(0, core), alarm);
        fast(state, ticks).registers[0] & ALARM_FLAG != 0
    };
    // the moment itself is before the first tick
    assert!(!rings(leap_noon, MOST_TICKS));
    let a_year_before = calendar_from_numbers((12, 0, 0), 1, (28, 2, 19));
    assert!(!rings(a_year_before, MOST_TICKS - 1));
    assert!(rings(a_year_before, MOST_TICKS));
}

/// "for any alarm setting": AF that is set stays, whatever AEN is.
#[test]
fn flags_that_are_set_stay() {
    let mut source = RandomSource::new(79);
    for _ in 0..5_000 {
        let mut state = any_alarm_state(&mut source);
        state.registers[0] |= ALARM_FLAG | CENTURY_FLAG;
        let ticks = source.below(MOST_TICKS as usize + 1) as u32;
        let after = fast(state, ticks);
        assert_eq!(after.registers[0], state.registers[0]);
    }
}

/// Nothing but registers 00h and 02h to 08h and the core changes.
#[test]
fn all_else_stays() {
    let mut source = RandomSource::new(80);
    for list in generate::handed_in_random(7, 20_000) {
        let mut device = list.device();
        for event in list.events {
            device.event(event);
            let state = State::of(&device);
            let ticks = source.below(MOST_TICKS as usize + 1) as u32;
            let after = fast(state, ticks);
            let mut expected = state;
            expected.registers[0] |= after.registers[0] & (ALARM_FLAG | CENTURY_FLAG);
            expected.registers[2..=8].copy_from_slice(&after.registers[2..=8]);
            expected.core = after.core;
            assert_eq!(after, expected);
            assert_eq!(fast(state, 1), tick(state));
        }
    }
}
