// SPDX-License-Identifier: Apache-2.0
//! What was put right in an image, in words: each byte that changed, and why it could not stay.

use fm3130::{registers, Calendar, Change, Device, Refusal};

/// The least and the greatest figure of each field, 02h to 08h; a date by itself is 1 to 31.
const RANGES: [(&str, u8, u8); 7] = [
    ("seconds are 00 to 59", 0, 59),
    ("minutes are 00 to 59", 0, 59),
    ("hours are 00 to 23", 0, 23),
    ("days of the week are 1 to 7", 1, 7),
    ("dates are 01 to 31", 1, 31),
    ("months are 01 to 12", 1, 12),
    ("years are 00 to 99", 0, 99),
];

const MONTHS: [&str; 12] = [
    "January",
    "February",
    "March",
    "April",
    "May",
    "June",
    "July",
    "August",
    "September",
    "October",
    "November",
    "December",
];

/// A device that was put right, and what changed in it.
pub struct Mended {
    /// The device as it is now.
    pub device: Device,
    /// The registers that changed.
    registers: Vec<Change>,
    /// The bytes of the core that changed, each with the number of the register that shows it.
    core: Vec<Change>,
}

impl Mended {
    /// Puts a device right.
    pub fn of(mut device: Device) -> Result<Mended, Refusal> {
        let core = device.calendar();
        let registers = device.mend()?;
        let core = differences(core, device.calendar());
        Ok(Mended {
            device,
            registers,
            core,
        })
    }

    /// True when anything changed.
    pub fn is_changed(&self) -> bool {
        !self.registers.is_empty() || !self.core.is_empty()
    }

    /// A line for each byte that changed, registers first.
    pub fn lines(&self) -> Vec<String> {
        let shown = calendar_registers(&self.device);
        let registers = self.registers.iter().map(|change| {
            let why = why(change, shown);
            format!("{change}, {why}")
        });
        let core = self.core.iter().map(|change| {
            let why = why(change, self.device.calendar());
            let Change { old, new, .. } = change;
            format!("core {}: {old:02X}h to {new:02X}h, {why}", change.field())
        });
        registers.chain(core).collect()
    }

    /// How much changed, such as "2 registers and the core".
    pub fn extent(&self) -> String {
        let registers = match self.registers.len() {
            0 => None,
            1 => Some("1 register".to_string()),
            count => Some(format!("{count} registers")),
        };
        let core = (!self.core.is_empty()).then(|| "the core".to_string());
        let parts: Vec<String> = registers.into_iter().chain(core).collect();
        parts.join(" and ")
    }
}

/// The calendar that registers 02h to 08h show.
fn calendar_registers(device: &Device) -> Calendar {
    let [_, _, seconds, minutes, hours, day, date, month, year, ..] = *device.registers();
    Calendar::from_bytes([seconds, minutes, hours, day, date, month, year])
}

/// The bytes in which two calendars differ, in register order.
fn differences(before: Calendar, after: Calendar) -> Vec<Change> {
    let bytes = before.to_bytes().into_iter().zip(after.to_bytes());
    let numbered = (registers::FIRST_CALENDAR as u8..).zip(bytes);
    numbered
        .filter(|(_, (old, new))| old != new)
        .map(|(register, (old, new))| Change { register, old, new })
        .collect()
}

/// Why a byte could not stay, in a calendar that was put right.
fn why(change: &Change, calendar: Calendar) -> String {
    if change.old >> 4 > 9 || change.old & 0x0F > 9 {
        return "not two decimal digits".to_string();
    }
    let number = figure(change.old);
    let place = usize::from(change.register).saturating_sub(registers::FIRST_CALENDAR);
    match RANGES.get(place) {
        Some((words, least, greatest)) if !(least..=greatest).contains(&&number) => {
            words.to_string()
        }
        _ => month_words(change.new, calendar),
    }
}

/// How many days the month of a calendar has; the date that was put right is its last day.
fn month_words(last_day: u8, calendar: Calendar) -> String {
    let month = usize::from(figure(calendar.month)).saturating_sub(1);
    let name = MONTHS.get(month).copied().unwrap_or("the month");
    match name {
        "February" => format!("{name} {:02X} has {last_day:02X} days", calendar.year),
        _ => format!("{name} has {last_day:02X} days"),
    }
}

/// The number that two decimal digits stand for.
fn figure(byte: u8) -> u8 {
    (byte >> 4) * 10 + (byte & 0x0F)
}

#[cfg(test)]
mod tests {
    use super::*;

    /// What is put right in these registers and this core.
    fn mended(time: [u8; 7], core: [u8; 7]) -> Mended {
        let mut image = *Device::fresh().image();
        image[2..9].copy_from_slice(&time);
        image[15..22].copy_from_slice(&core);
        Mended::of(Device::from_parts(&image, &[0; 8192]).unwrap()).unwrap()
    }

    fn lines(time: [u8; 7], core: [u8; 7]) -> Vec<String> {
        mended(time, core).lines()
    }

    const VALID: [u8; 7] = [0x59, 0x59, 0x23, 0x07, 0x31, 0x12, 0x99];

    #[test]
    fn every_reason_is_told() {
        assert_eq!(lines(VALID, VALID), Vec::<String>::new());
        let told = lines([0x60, 0x75, 0x24, 0x00, 0x00, 0x13, 0xA5], VALID);
        let expected = [
            "02h seconds: 60h to 00h, seconds are 00 to 59",
            "03h minutes: 75h to 00h, minutes are 00 to 59",
            "04h hours: 24h to 00h, hours are 00 to 23",
            "05h day: 00h to 01h, days of the week are 1 to 7",
            "06h date: 00h to 01h, dates are 01 to 31",
            "07h month: 13h to 01h, months are 01 to 12",
            "08h year: A5h to 00h, not two decimal digits",
        ];
        assert_eq!(told, expected);
    }

    #[test]
    fn a_month_and_its_days_are_named() {
        let april = [0, 0, 0, 1, 0x31, 0x04, 0x24];
        let told = lines(april, [0, 0, 0, 1, 0x30, 0x02, 0x09]);
        let expected = [
            "06h date: 31h to 30h, April has 30 days",
            "core date: 30h to 28h, February 09 has 28 days",
        ];
        assert_eq!(told, expected);
        let told = lines([0, 0, 0, 1, 0x31, 0x02, 0x0F], VALID);
        assert_eq!(told[0], "06h date: 31h to 29h, February 00 has 29 days");
    }

    #[test]
    fn the_extent_is_counted() {
        let extent = |time, core| mended(time, core).extent();
        let wrong = [0x60, 0x00, 0x00, 0x01, 0x31, 0x04, 0x00];
        assert_eq!(extent(wrong, wrong), "2 registers and the core");
        assert_eq!(extent(VALID, wrong), "the core");
        let one = [0x60, 0x00, 0x00, 0x01, 0x01, 0x01, 0x00];
        assert_eq!(extent(one, VALID), "1 register");
        assert_eq!(extent(VALID, VALID), "");
    }
}
