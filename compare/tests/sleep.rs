// SPDX-License-Identifier: Apache-2.0
//! Catching up after sleep: one call of the proved program beside the second program, which counts by day numbers of its
//! own and shows itself right against its plain counting; and beside that counting itself.

use compare::{archive, image};
use second::calendar::{bcd_from_number, calendar_from_numbers, month_length};
use second::catch_up::{catch_up, catch_up_plainly, MOST_TICKS};
use second::generate::{random, RandomSource};
use second::{Calendar, Device, Power, State};

const DAY: u32 = 86_400;

/// Match alone: the field is left out.
const ANY: u8 = 0x80;

/// Alarm seconds, minutes, hours, date and month.
type Alarm = [u8; 5];

/// One call leaves what the second program leaves. Returns 00h.
fn hold_to(second: fn(State, u32) -> Result<State, u8>, before: State, ticks: u32) -> u8 {
    let of = |state: &State| image::of(&state.device(Vec::new()));
    let mut bytes = of(&before);
    let number = archive::catch_up(&mut bytes, u64::from(ticks));
    let after = second(before, ticks).unwrap_or_else(|number| panic!("refused by {number}"));
    assert_eq!(
        (number, bytes),
        (0, of(&after)),
        "{ticks} ticks of {before:?}"
    );
    bytes[0]
}

fn hold(before: State, ticks: u32) -> u8 {
    hold_to(catch_up, before, ticks)
}

/// A running device with a core and an alarm.
fn running(core: Calendar, alarm: Alarm) -> State {
    let mut state = State::of(&Device::fresh());
    state.registers[0x00] = 0;
    state.registers[0x01] = 0;
    state.registers[0x09..0x0E].copy_from_slice(&alarm);
    state.core = core;
    state
}

/// The last second of each month of the century.
fn month_ends() -> impl Iterator<Item = (Calendar, u8)> {
    (0..100).flat_map(|year| {
        (1..=12).map(move |month| {
            let length = month_length(month, year);
            let day = (year + month) % 7 + 1;
            (
                calendar_from_numbers((23, 59, 59), day, (length, month, year)),
                length,
            )
        })
    })
}

/// Every month's end, and so many ticks that each end of a month, of a day and of the most is met.
#[test]
fn every_months_end() {
    let alarms: [Alarm; 7] = [
        [ANY; 5],
        [0x00, 0x00, 0x00, 0x01, ANY],
        [0x59, 0x59, 0x23, 0x31, 0x12],
        [0x00, 0x00, 0x00, 0x29, 0x02],
        [0x00, 0x00, 0x00, 0x31, 0x02],
        [0x3F, ANY, ANY, ANY, ANY],
        [ANY, 0x30, 0x12, 0x15, ANY],
    ];
    let (mut rung, mut crossed) = (0, 0);
    for (core, length) in month_ends() {
        let month = u32::from(length) * DAY;
        let mut counts = vec![
            0,
            1,
            2,
            DAY - 1,
            DAY,
            DAY + 1,
            365 * DAY,
            MOST_TICKS - 1,
            MOST_TICKS,
        ];
        counts.extend([28 * DAY, 29 * DAY, 30 * DAY, 31 * DAY]);
        counts.extend([month - 1, month, month + 1, month + DAY]);
        for alarm in alarms {
            for ticks in &counts {
                let control = hold(running(core, alarm), *ticks);
                rung += u32::from(control & 0x40 != 0);
                crossed += u32::from(control & 0x20 != 0);
            }
        }
    }
    assert!(rung > 50_000 && crossed > 100, "{rung} {crossed}");
}

/// From the century's last year into the next: CF rises with the tick that leaves it, and no sooner.
#[test]
fn the_centurys_end() {
    for days in 1..=366_u32 {
        let eve = calendar_from_numbers((0, 0, 0), 1, (31, 12, 99));
        for ticks in [days * DAY - 1, days * DAY, days.min(365) * DAY + 1] {
            assert_eq!(
                hold(running(eve, [0x00, 0x00, 0x00, 0x31, 0x02]), ticks) & 0x20 != 0,
                ticks >= DAY
            );
        }
    }
}

/// An alarm field: left out, the core's own, near it, or any byte.
fn alarm_field(source: &mut RandomSource, core: u8, kept: u8) -> u8 {
    match source.below(6) {
        0..=1 => ANY,
        2 => core,
        3 => bcd_from_number(source.below(60) as u8) & kept,
        4 => bcd_from_number(source.below(13) as u8) & kept,
        _ => source.byte() & (kept | ANY),
    }
}

/// A core: most are valid.
fn random_core(source: &mut RandomSource) -> Calendar {
    if source.below(8) == 0 {
        let bytes = source.bytes(7);
        let kept = [0x7F, 0x7F, 0x3F, 0x07, 0x3F, 0x1F, 0xFF];
        return Calendar::from_bytes(std::array::from_fn(|place| bytes[place] & kept[place]));
    }
    let (month, year) = (source.between(1, 12) as u8, source.below(100) as u8);
    let date = source.between(1, usize::from(month_length(month, year))) as u8;
    let time = (
        source.below(24) as u8,
        source.below(60) as u8,
        source.below(60) as u8,
    );
    calendar_from_numbers(time, source.between(1, 7) as u8, (date, month, year))
}

/// Any registers, core and supply, in a transfer that events reached.
fn random_state(source: &mut RandomSource, reached: &State) -> State {
    let mut state = *reached;
    let core = random_core(source);
    let bytes = core.to_bytes();
    state.core = core;
    state.registers[0x00] = source.byte();
    state.registers[0x01] = if source.below(10) == 0 {
        0x80
    } else {
        source.byte() & 0x3F
    };
    let shown = random_core(source).to_bytes();
    state.registers[0x02..0x09].copy_from_slice(&shown);
    for (place, (field, kept)) in [(0, 0x7F), (1, 0x7F), (2, 0x3F), (4, 0x3F), (5, 0x1F)]
        .into_iter()
        .enumerate()
    {
        state.registers[0x09 + place] = alarm_field(source, bytes[field], kept);
    }
    state.registers[0x0E] = source.byte();
    if state.transfer == State::of(&Device::fresh()).transfer {
        state.power = [Power::On, Power::Backup, Power::Gone][source.below(3)];
    }
    state
}

/// States that lists of events reach, for their transfers.
fn reached_states() -> Vec<State> {
    let mut states = Vec::new();
    for list in random(71, 20_000) {
        let mut device = list.device();
        for event in &list.events {
            device.event(*event);
            states.push(State::of(&device));
        }
    }
    states
}

#[test]
fn random_images_for_any_time() {
    let (mut source, states) = (RandomSource::new(7), reached_states());
    let (mut rung, mut risen) = (0, 0);
    for _ in 0..300_000 {
        let reached = &states[source.below(states.len())];
        let state = random_state(&mut source, reached);
        let most = [100, DAY, 40 * DAY, MOST_TICKS][source.below(4)];
        let ticks = source.between(0, most as usize) as u32;
        let control = hold(state, ticks);
        rung += u32::from(control & !state.registers[0x00] & 0x40 != 0);
        risen += u32::from(control & !state.registers[0x00] & 0x20 != 0);
    }
    assert!(rung > 10_000 && risen > 100, "{rung} {risen}");
}

/// The plain counting of the second program, tick by tick.
#[test]
fn random_images_by_plain_counting() {
    let (mut source, states) = (RandomSource::new(11), reached_states());
    for _ in 0..400 {
        let reached = &states[source.below(states.len())];
        let state = random_state(&mut source, reached);
        let ticks = source.between(0, 200_000) as u32;
        hold_to(catch_up_plainly, state, ticks);
    }
}

#[test]
fn refusals_change_nothing() {
    let fresh = image::of(&Device::fresh());
    for (length, ticks, number) in [
        (63, u64::MAX, 2),
        (0, 0, 2),
        (64, u64::from(MOST_TICKS) + 1, 8),
        (64, 1 << 32, 8),
        (64, u64::MAX, 8),
    ] {
        let mut bytes = fresh[..length].to_vec();
        assert_eq!(archive::catch_up(&mut bytes, ticks), number);
        assert_eq!(bytes, fresh[..length]);
    }
    let mut bad = fresh;
    bad[25] = 3;
    assert_eq!(archive::catch_up(&mut bad, u64::MAX), 2);
    assert_eq!(bad[25], 3);
}
