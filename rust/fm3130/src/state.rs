// SPDX-License-Identifier: Apache-2.0
//! What an image holds, taken apart.

use std::fmt;

use crate::answer::Pin;
use crate::calendar::Calendar;
use crate::{IMAGE_BYTES, REGISTER_COUNT};

// The places in the image after the registers. All parts have the last eight in common.
const CORE: usize = 15;
const COMPANION_ADDRESS: usize = 22;
const MEMORY_ADDRESS_HIGH: usize = 23;
const MEMORY_ADDRESS_LOW: usize = 24;
const POWER: usize = 25;
const PHASE: usize = 26;
const CLOCKS: usize = 27;
const BYTE: usize = 28;
const FIRST_ADDRESS_BYTE: usize = 29;

/// Which supplies are there.
#[derive(Clone, Copy, Debug, PartialEq, Eq, Hash)]
pub enum Power {
    /// Main power is there.
    On,
    /// Main power is lost, the backup is there.
    Backup,
    /// Both supplies are gone.
    None,
}

impl fmt::Display for Power {
    fn fmt(&self, formatter: &mut fmt::Formatter<'_>) -> fmt::Result {
        formatter.write_str(match self {
            Power::On => "on",
            Power::Backup => "lost, on backup",
            Power::None => "lost, no backup",
        })
    }
}

/// One of the two devices that share the bus.
#[derive(Clone, Copy, Debug, PartialEq, Eq, Hash)]
pub enum Side {
    /// The FRAM, slave bytes A0h and A1h.
    Memory,
    /// Clock, alarm and control registers, slave bytes D0h and D1h.
    Companion,
}

impl fmt::Display for Side {
    fn fmt(&self, formatter: &mut fmt::Formatter<'_>) -> fmt::Result {
        formatter.write_str(match self {
            Side::Memory => "memory",
            Side::Companion => "companion",
        })
    }
}

/// What byte is under way on the bus.
#[derive(Clone, Copy, Debug, PartialEq, Eq, Hash)]
pub enum Phase {
    /// No transfer, or the transfer has ended.
    Idle,
    /// The first byte after a Start.
    SlaveByte,
    /// The first of the two address bytes of a memory write.
    FirstAddressByte,
    /// The second of the two address bytes of a memory write.
    SecondAddressByte,
    /// The address byte of a companion write.
    CompanionAddressByte,
    /// A data byte that the device takes.
    Write(Side),
    /// A data byte that the device sends.
    Read(Side),
}

impl Phase {
    /// The phase that a byte of a well-formed image stands for.
    fn of_byte(byte: u8) -> Phase {
        match byte {
            1 => Phase::SlaveByte,
            2 => Phase::FirstAddressByte,
            3 => Phase::SecondAddressByte,
            4 => Phase::CompanionAddressByte,
            5 => Phase::Write(Side::Memory),
            6 => Phase::Write(Side::Companion),
            7 => Phase::Read(Side::Memory),
            8 => Phase::Read(Side::Companion),
            _ => Phase::Idle,
        }
    }
}

impl fmt::Display for Phase {
    fn fmt(&self, formatter: &mut fmt::Formatter<'_>) -> fmt::Result {
        match self {
            Phase::Idle => formatter.write_str("between transfers"),
            Phase::SlaveByte => formatter.write_str("slave byte"),
            Phase::FirstAddressByte => formatter.write_str("first memory address byte"),
            Phase::SecondAddressByte => formatter.write_str("second memory address byte"),
            Phase::CompanionAddressByte => formatter.write_str("companion address byte"),
            Phase::Write(side) => write!(formatter, "data byte to the {side}"),
            Phase::Read(side) => write!(formatter, "data byte from the {side}"),
        }
    }
}

/// The bytes of a well-formed image that all parts have at the same places: addresses, supplies, and
/// where a transfer stands.
pub(crate) struct BusBytes {
    pub companion_address: u8,
    pub memory_address: u16,
    pub power: Power,
    pub phase: Phase,
    pub clocks: u8,
    pub byte: u8,
    pub first_address_byte: u8,
}

impl BusBytes {
    /// Those of an image.
    pub fn of_image(image: &[u8; IMAGE_BYTES]) -> BusBytes {
        BusBytes {
            companion_address: image[COMPANION_ADDRESS],
            memory_address: u16::from_be_bytes([
                image[MEMORY_ADDRESS_HIGH],
                image[MEMORY_ADDRESS_LOW],
            ]),
            power: match image[POWER] {
                0 => Power::On,
                1 => Power::Backup,
                _ => Power::None,
            },
            phase: Phase::of_byte(image[PHASE]),
            clocks: image[CLOCKS],
            byte: image[BYTE],
            first_address_byte: image[FIRST_ADDRESS_BYTE],
        }
    }
}

/// What a well-formed image holds. It is a copy to look at; the image stays the truth.
///
/// ```
/// use fm3130::{event, Device, Phase};
///
/// let mut device = Device::fresh();
/// device.run(&[event::START, event::CLOCK_HIGH, event::CLOCK_LOW])?;
/// let state = device.state();
/// assert_eq!(state.phase, Phase::SlaveByte);
/// assert_eq!((state.clocks, state.byte), (2, 0b10));
/// # Ok::<(), fm3130::Refusal>(())
/// ```
#[derive(Clone, Copy, Debug, PartialEq, Eq)]
pub struct State {
    /// Registers 00h to 0Eh.
    pub registers: [u8; REGISTER_COUNT],
    /// The calendar core, which ticks move on; registers 02h to 08h are a view of it.
    pub core: Calendar,
    /// The companion's address, 00h to 0Eh.
    pub companion_address: u8,
    /// The memory's address, 0000h to 1FFFh.
    pub memory_address: u16,
    /// Which supplies are there.
    pub power: Power,
    /// What byte is under way.
    pub phase: Phase,
    /// The clocks of that byte already done, 0 to 8.
    pub clocks: u8,
    /// The bits received so far, or the byte that the device sends once its first clock fixed it.
    pub byte: u8,
    /// The first address byte, while the second is under way; else 0.
    pub first_address_byte: u8,
}

impl State {
    /// Takes apart the image of a well-formed state.
    pub(crate) fn of_image(image: &[u8; IMAGE_BYTES]) -> State {
        let mut registers = [0; REGISTER_COUNT];
        registers.copy_from_slice(&image[..REGISTER_COUNT]);
        let mut core = [0; 7];
        core.copy_from_slice(&image[CORE..COMPANION_ADDRESS]);
        let bus = BusBytes::of_image(image);
        State {
            registers,
            core: Calendar::from_bytes(core),
            companion_address: bus.companion_address,
            memory_address: bus.memory_address,
            power: bus.power,
            phase: bus.phase,
            clocks: bus.clocks,
            byte: bus.byte,
            first_address_byte: bus.first_address_byte,
        }
    }

    /// Registers 02h to 08h as a calendar: what a host reads and writes. The core counts behind them.
    ///
    /// ```
    /// let state = fm3130::Device::fresh().state();
    /// assert_eq!(state.calendar_registers(), state.core);
    /// ```
    pub fn calendar_registers(&self) -> Calendar {
        let [_, _, seconds, minutes, hours, day, date, month, year, ..] = self.registers;
        Calendar::from_bytes([seconds, minutes, hours, day, date, month, year])
    }

    /// The ACS pin. It is released when both supplies are gone.
    ///
    /// ```
    /// use fm3130::{event, Device, PinFunction};
    ///
    /// let mut device = Device::fresh();
    /// device.step(event::POWER_LOST_WITHOUT_BACKUP)?;
    /// assert_eq!(device.state().pin().function, PinFunction::Released);
    /// # Ok::<(), fm3130::Refusal>(())
    /// ```
    pub fn pin(&self) -> Pin {
        match self.power {
            Power::None => Pin::without_supply(),
            Power::On | Power::Backup => Pin::by_registers(&self.registers),
        }
    }
}
