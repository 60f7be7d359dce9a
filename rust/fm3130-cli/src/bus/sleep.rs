// SPDX-License-Identifier: Apache-2.0
//! Many ticks in one call, and what an observer of the single ticks would have seen.

use fm3130::{Calendar, Device, Pin, Refusal, Rolled};

use super::moment::TickRun;
use crate::chip::{Chip, Refused};

/// Does up to [`fm3130::MOST_TICKS`] ticks at once, where no proving record is kept. They change
/// nothing in a part without a clock.
pub fn through(chip: &mut Chip, ticks: u64) -> Result<TickRun, Refused> {
    if let Chip::Fm3130(device) = chip {
        return Ok(clock_through(device, ticks)?);
    }
    let state = chip.state();
    Ok(TickRun {
        count: ticks,
        before: state,
        after: state,
        rolled: Rolled::Nothing,
        pin_changes: Vec::new(),
        lamps: None,
    })
}

/// Does the ticks of a clock.
fn clock_through(device: &mut Device, ticks: u64) -> Result<TickRun, Refusal> {
    let asleep = device.clone();
    device.catch_up(ticks)?;
    let (before, after) = (asleep.state(), device.state());
    let pin_changes = match before.pin() == after.pin() {
        true => Vec::new(),
        false => vec![pin_change(&asleep, ticks, after.pin())?],
    };
    Ok(TickRun {
        count: ticks,
        before: before.into(),
        after: after.into(),
        rolled: highest_change(&before.core, &after.core),
        pin_changes,
        lamps: None,
    })
}

/// The tick, counted from 1, after which the pin is the one at the end. Ticks never clear AF and leave
/// the pin's function alone, so it changes once: halving finds the tick.
fn pin_change(asleep: &Device, ticks: u64, last: Pin) -> Result<(u64, Pin), Refusal> {
    let (mut before, mut after) = (0, ticks);
    while after - before > 1 {
        let middle = before + (after - before) / 2;
        let mut device = asleep.clone();
        device.catch_up(middle)?;
        match device.pin() == last {
            true => after = middle,
            false => before = middle,
        }
    }
    Ok((after, last))
}

/// The highest field in which two calendars differ. They are at most a leap year apart, so no field
/// has come round to where it was without a higher one having changed.
fn highest_change(before: &Calendar, after: &Calendar) -> Rolled {
    let fields = [
        (before.year != after.year, Rolled::Year),
        (before.month != after.month, Rolled::Month),
        (before.date != after.date, Rolled::Date),
        (before.hours != after.hours, Rolled::Hours),
        (before.minutes != after.minutes, Rolled::Minutes),
        (before.seconds != after.seconds, Rolled::Seconds),
    ];
    let highest = fields.into_iter().find(|(differs, _)| *differs);
    highest.map_or(Rolled::Nothing, |(_, field)| field)
}

#[cfg(test)]
mod tests {
    use super::*;
    use fm3130::{event, Answer};

    /// A device with a core, and an alarm on its pin.
    fn device(core: [u8; 7], alarm: [u8; 5]) -> Device {
        let mut image = *Device::fresh().image();
        image[0] = 0x08; // AEN
        image[1] = 0x00;
        image[9..14].copy_from_slice(&alarm);
        image[14] = 0x80; // AL/SW
        image[15..22].copy_from_slice(&core);
        Device::from_parts(&image, &[0; 8192]).unwrap()
    }

    /// The same ticks one by one: the highest field, and where the pin changed.
    fn one_by_one(device: &mut Device, ticks: u64) -> (Rolled, Vec<(u64, Pin)>) {
        let (mut pin, mut rolled, mut changes) = (device.pin(), Rolled::Nothing, Vec::new());
        for tick in 1..=ticks {
            let told = device.step_told(event::TICK).unwrap();
            rolled = rolled.max(told.rolled);
            let now = Answer(told.answer.0).pin();
            if now != pin {
                changes.push((tick, now));
                pin = now;
            }
        }
        (rolled, changes)
    }

    #[test]
    fn a_sleep_tells_what_single_ticks_tell() {
        let cores = [
            [0x58, 0x59, 0x23, 7, 0x31, 0x12, 0x99],
            [0x30, 0x59, 0x22, 4, 0x28, 0x02, 0x09],
            [0x00, 0x00, 0x12, 6, 0x15, 0x06, 0x24],
            [0x59, 0x59, 0x23, 3, 0x31, 0x04, 0x24],
        ];
        let alarms = [
            [0x80; 5],
            [0x10, 0x80, 0x80, 0x80, 0x80],
            [0x00, 0x00, 0x00, 0x01, 0x80],
            [0x80, 0x80, 0x80, 0x31, 0x02],
        ];
        for core in cores {
            for alarm in alarms {
                for ticks in [1, 2, 3, 59, 60, 61, 3_599, 3_601, 86_401] {
                    let (mut slept, mut awake) = (device(core, alarm), device(core, alarm));
                    let run = clock_through(&mut slept, ticks).unwrap();
                    let told = one_by_one(&mut awake, ticks);
                    assert_eq!(
                        (run.rolled, run.pin_changes),
                        told,
                        "{core:?} {alarm:?} {ticks}"
                    );
                    assert_eq!(slept, awake);
                }
            }
        }
    }
}
