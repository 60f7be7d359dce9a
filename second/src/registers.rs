// SPDX-License-Identifier: Apache-2.0
//! The 15 registers: bit places, stored bits, what a write or a read does,
//! ticks, the alarm, write protection and the function of the ACS pin.

use crate::calendar::Calendar;
use crate::rolled::Rolled;
use crate::size::Size;
use crate::REGISTER_COUNT;

/// All registers, 00h to 0Eh.
pub type Registers = [u8; REGISTER_COUNT];

// "00h, high bit first: LB AF CF POR AEN CAL W R."
/// LB of 00h.
pub const LOW_BATTERY: u8 = 0x80;
/// AF of 00h.
pub const ALARM_FLAG: u8 = 0x40;
/// CF of 00h.
pub const CENTURY_FLAG: u8 = 0x20;
/// POR of 00h.
pub const POWER_ON_RESET: u8 = 0x10;
/// AEN of 00h.
pub const ALARM_ENABLE: u8 = 0x08;
/// CAL of 00h.
pub const CALIBRATION_MODE: u8 = 0x04;
/// W of 00h.
pub const WRITE_CALENDAR: u8 = 0x02;
/// R of 00h.
pub const READ_CALENDAR: u8 = 0x01;

// "01h: OSCEN, 0, CALS, five CAL bits."
/// OSCEN of 01h; 1 halts the oscillator.
pub const OSCILLATOR_HALTED: u8 = 0x80;
/// CALS and the five CAL bits of 01h: "the last six".
pub const CALIBRATION_VALUE: u8 = 0x3F;

/// Match of 09h to 0Dh: "bit 7 is Match"; 0 selects the field.
pub const MATCH: u8 = 0x80;

// "Bit places in 0Eh are those of document 000's register table": that table
// can be read: AL/SW F1 F0 WP1 WP0 VBC FC TST, high bit first (READINGS 1).
/// AL/SW of 0Eh.
pub const ALARM_NOT_SQUARE_WAVE: u8 = 0x80;
/// WP1 of 0Eh.
pub const PROTECT_HIGH: u8 = 0x10;
/// WP0 of 0Eh.
pub const PROTECT_LOW: u8 = 0x08;

/// Register 00h, RTC/Alarm Control.
pub const CONTROL: usize = 0x00;
/// Register 01h, CAL/Control.
pub const CALIBRATION: usize = 0x01;
/// Register 02h, the first of the seven calendar registers.
pub const FIRST_CALENDAR: usize = 0x02;
/// Register 08h, the last of the seven calendar registers.
pub const LAST_CALENDAR: usize = 0x08;
/// Register 09h, the first of the five alarm registers.
pub const FIRST_ALARM: usize = 0x09;
/// Register 0Dh, the last of the five alarm registers.
pub const LAST_ALARM: usize = 0x0D;
/// Register 0Eh, Alarm & WP Control.
pub const ALARM_AND_PROTECTION: usize = 0x0E;

/// The bits that each register can hold; the others are fixed at 0.
///
/// "Stored bits: 7Fh, 7Fh, 3Fh, 07h, 3Fh, 1Fh, FFh." "09h to 0Dh: ... bit 7 is
/// Match, the rest as the calendar byte." "All eight bits of 0Eh are stored and
/// none counts as fixed at 0 (ruling)."
pub const STORED_BITS: Registers = [
    0xFF, // 00h
    0xBF, // 01h: bit 6 is 0
    0x7F, // 02h seconds
    0x7F, // 03h minutes
    0x3F, // 04h hours
    0x07, // 05h day
    0x3F, // 06h date
    0x1F, // 07h month
    0xFF, // 08h year
    0xFF, // 09h Match and seconds
    0xFF, // 0Ah Match and minutes
    0xBF, // 0Bh Match and hours
    0xBF, // 0Ch Match and date
    0x9F, // 0Dh Match and month
    0xFF, // 0Eh
];

/// What the ACS pin does: "0 released, 1 alarm, 2 square wave, 3 calibration".
#[derive(Clone, Copy, Debug, PartialEq, Eq)]
pub enum PinFunction {
    Released,
    Alarm,
    SquareWave,
    Calibration,
}

impl PinFunction {
    /// The number in bits 2 and 1 of the answer.
    pub fn number(self) -> u8 {
        match self {
            PinFunction::Released => 0,
            PinFunction::Alarm => 1,
            PinFunction::SquareWave => 2,
            PinFunction::Calibration => 3,
        }
    }
}

/// True when the bit, or any one of several bits, is 1.
pub fn is_set(byte: u8, bit: u8) -> bool {
    byte & bit != 0
}

/// "registers become all 0 but OSCEN, POR and LB, which are 1, and day, date
/// and month, which are 1"
pub fn registers_without_supply() -> Registers {
    let mut registers = [0; REGISTER_COUNT];
    registers[CONTROL] = LOW_BATTERY | POWER_ON_RESET;
    registers[CALIBRATION] = OSCILLATOR_HALTED;
    registers[0x05] = 0x01; // day
    registers[0x06] = 0x01; // date
    registers[0x07] = 0x01; // month
    registers
}

/// "the core holds the same date"
pub fn core_without_supply() -> Calendar {
    calendar_registers(&registers_without_supply())
}

/// The contents of 02h to 08h as a calendar.
pub fn calendar_registers(registers: &Registers) -> Calendar {
    Calendar {
        seconds: registers[0x02],
        minutes: registers[0x03],
        hours: registers[0x04],
        day: registers[0x05],
        date: registers[0x06],
        month: registers[0x07],
        year: registers[0x08],
    }
}

/// "02h to 08h take the core"
fn calendar_registers_take_core(registers: &mut Registers, core: &Calendar) {
    registers[0x02] = core.seconds;
    registers[0x03] = core.minutes;
    registers[0x04] = core.hours;
    registers[0x05] = core.day;
    registers[0x06] = core.date;
    registers[0x07] = core.month;
    registers[0x08] = core.year;
}

/// 02, number 6: "When a write of 00h would make W fall while 02h to 08h are not
/// a valid calendar, do not acknowledge it". The calendar is what 02h to 08h
/// hold before any part of the write.
pub fn is_refused(registers: &Registers, address: usize, byte: u8) -> bool {
    let write_would_fall =
        is_set(registers[CONTROL], WRITE_CALENDAR) && !is_set(byte, WRITE_CALENDAR);
    address == CONTROL && write_would_fall && !calendar_registers(registers).is_valid()
}

/// A data byte arrives for a register that does not refuse it.
pub fn write_register(registers: &mut Registers, core: &mut Calendar, address: usize, byte: u8) {
    match address {
        CONTROL => write_control(registers, core, byte),
        CALIBRATION => write_calibration(registers, byte),
        FIRST_CALENDAR..=LAST_CALENDAR => write_calendar_register(registers, address, byte),
        FIRST_ALARM..=LAST_ALARM | ALARM_AND_PROTECTION => {
            registers[address] = byte & STORED_BITS[address];
        }
        _ => panic!("there are registers 00h to 0Eh only"),
    }
}

/// "A write sets AEN, CAL, W, R; can clear LB and POR but not set them; leaves
/// AF and CF (rulings on LB, CF, POR)."
fn control_after_write(old: u8, byte: u8) -> u8 {
    let written = byte & (ALARM_ENABLE | CALIBRATION_MODE | WRITE_CALENDAR | READ_CALENDAR);
    let can_only_be_cleared = old & byte & (LOW_BATTERY | POWER_ON_RESET);
    let left = old & (ALARM_FLAG | CENTURY_FLAG);
    written | can_only_be_cleared | left
}

/// "Order within a write of 00h (ruling): if W falls, the core takes 02h to
/// 08h; then if R rises, 02h to 08h take the core; then if both are 0, 02h to
/// 08h take the core."
fn write_control(registers: &mut Registers, core: &mut Calendar, byte: u8) {
    let old = registers[CONTROL];
    let new = control_after_write(old, byte);
    registers[CONTROL] = new;

    let write_falls = is_set(old, WRITE_CALENDAR) && !is_set(new, WRITE_CALENDAR);
    if write_falls {
        *core = calendar_registers(registers);
    }
    let read_rises = !is_set(old, READ_CALENDAR) && is_set(new, READ_CALENDAR);
    if read_rises {
        calendar_registers_take_core(registers, core);
    }
    let both_are_zero = !is_set(new, WRITE_CALENDAR) && !is_set(new, READ_CALENDAR);
    if both_are_zero {
        calendar_registers_take_core(registers, core);
    }
}

/// "01h: OSCEN, 0, CALS, five CAL bits. The last six are stored only if CAL was
/// 1 before the write."
fn write_calibration(registers: &mut Registers, byte: u8) {
    let old = registers[CALIBRATION];
    let calibration_mode = is_set(registers[CONTROL], CALIBRATION_MODE);
    let oscillator = byte & OSCILLATOR_HALTED;
    let value = if calibration_mode {
        byte & CALIBRATION_VALUE
    } else {
        old & CALIBRATION_VALUE
    };
    registers[CALIBRATION] = oscillator | value;
}

/// "A write with W = 0 is acknowledged and not stored."
fn write_calendar_register(registers: &mut Registers, address: usize, byte: u8) {
    if is_set(registers[CONTROL], WRITE_CALENDAR) {
        registers[address] = byte & STORED_BITS[address];
    }
}

/// The eighth clock of a read. "Reading 00h clears, at the eighth clock, those
/// of AF and CF that the byte sent showed as 1."
pub fn finish_reading_register(registers: &mut Registers, address: usize, byte_sent: u8) {
    if address == CONTROL {
        let shown = byte_sent & (ALARM_FLAG | CENTURY_FLAG);
        registers[CONTROL] &= !shown;
    }
}

/// The oscillator's part of "A tick counts if OSCEN is 0".
pub fn oscillator_runs(registers: &Registers) -> bool {
    !is_set(registers[CALIBRATION], OSCILLATOR_HALTED)
}

/// A tick that counts. It says "the highest field that changed" of the core (02,
/// number 4); one that "finds an invalid core, says nothing".
pub fn tick_that_counts(registers: &mut Registers, core: &mut Calendar) -> Rolled {
    let before = *core;
    if core.is_valid() {
        advance(registers, core);
    }
    // "Then, on every tick that counts, core valid or not, 02h to 08h take the
    // core if R and W are 0."
    let control = registers[CONTROL];
    if !is_set(control, READ_CALENDAR) && !is_set(control, WRITE_CALENDAR) {
        calendar_registers_take_core(registers, core);
    }
    Rolled::between(&before, core)
}

/// "A valid core goes to the next second". "Year 99 to 00 sets CF." "After an
/// advance AF is set if each alarm field with Match 0 equals the core's field".
/// "AEN does not gate AF (ruling)."
fn advance(registers: &mut Registers, core: &mut Calendar) {
    let (next, century) = core.next_second();
    *core = next;
    if century {
        registers[CONTROL] |= CENTURY_FLAG;
    }
    if alarm_matches(registers, core) {
        registers[CONTROL] |= ALARM_FLAG;
    }
}

/// "each alarm field with Match 0 equals the core's field; with none selected,
/// every second"
pub fn alarm_matches(registers: &Registers, core: &Calendar) -> bool {
    alarm_field_agrees(registers[0x09], core.seconds)
        && alarm_field_agrees(registers[0x0A], core.minutes)
        && alarm_field_agrees(registers[0x0B], core.hours)
        && alarm_field_agrees(registers[0x0C], core.date)
        && alarm_field_agrees(registers[0x0D], core.month)
}

/// A field with Match 1 is not compared.
fn alarm_field_agrees(alarm_register: u8, core_field: u8) -> bool {
    let selected = !is_set(alarm_register, MATCH);
    !selected || alarm_register & !MATCH == core_field
}

/// WP1 WP0 of 0Eh, 0 to 3.
pub fn protection(registers: &Registers) -> u8 {
    let register = registers[ALARM_AND_PROTECTION];
    2 * u8::from(is_set(register, PROTECT_HIGH)) + u8::from(is_set(register, PROTECT_LOW))
}

/// "Protection by WP1 WP0 of 0Eh: 00 none; 01 0000h to 07FFh; 10 0000h to
/// 0FFFh; 11 all."
pub fn is_protected(registers: &Registers, memory_address: u16) -> bool {
    Size::Kilobits64.is_protected(protection(registers), memory_address)
}

/// "CAL = 1 gives calibration; CAL = 0 and AL/SW = 0 square wave; CAL = 0, AEN
/// = 1, AL/SW = 1 alarm; CAL = 0, AEN = 0, AL/SW = 1 released (ruling)."
pub fn pin_function_by_registers(registers: &Registers) -> PinFunction {
    let control = registers[CONTROL];
    if is_set(control, CALIBRATION_MODE) {
        return PinFunction::Calibration;
    }
    if !is_set(registers[ALARM_AND_PROTECTION], ALARM_NOT_SQUARE_WAVE) {
        return PinFunction::SquareWave;
    }
    if is_set(control, ALARM_ENABLE) {
        PinFunction::Alarm
    } else {
        PinFunction::Released
    }
}
