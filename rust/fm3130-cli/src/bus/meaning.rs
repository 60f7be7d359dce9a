// SPDX-License-Identifier: Apache-2.0
//! What a byte on the bus means to the device that hears it.

use fm3130::family::{registers, Select};
use fm3130::{Phase, Power, Side};

use crate::chip::{Companion, Part, State};

/// A meaning in words, and in a few letters for a drawing.
#[derive(Clone, Debug, PartialEq, Eq)]
pub struct Meaning {
    /// In words.
    pub words: String,
    /// In a few letters.
    pub label: String,
}

impl Meaning {
    fn new(words: impl Into<String>, label: impl Into<String>) -> Meaning {
        Meaning {
            words: words.into(),
            label: label.into(),
        }
    }
}

/// The meaning of a byte whose eight bits are through: the state before its first clock says what
/// it is, the state after its eighth what came of it.
pub fn of_whole_byte(first: &State, eighth: &State, byte: u8) -> Meaning {
    match first.phase {
        Phase::Idle => unheard(first),
        Phase::SlaveByte if first.select.is_some() => slave_byte_of_set(eighth, byte),
        Phase::SlaveByte => slave_byte(byte),
        Phase::FirstAddressByte => Meaning::new("memory address, first byte", "address"),
        Phase::SecondAddressByte => {
            let address = eighth.memory_address;
            Meaning::new(
                format!("memory address {address:04X}h"),
                format!("address {address:04X}h"),
            )
        }
        Phase::CompanionAddressByte => companion_address(first.part, byte),
        Phase::Write(Side::Memory) => memory_write(first, eighth),
        Phase::Write(Side::Companion) => companion_write(first, eighth, byte),
        Phase::Read(Side::Memory) => {
            let address = first.memory_address;
            Meaning::new(
                format!("memory {address:04X}h"),
                format!("from {address:04X}h"),
            )
        }
        Phase::Read(Side::Companion) => companion_read(first, eighth, byte),
    }
}

/// The meaning of a byte that ended before its eighth clock.
pub fn of_part_byte(first: &State, clocks: usize) -> Meaning {
    let plural = if clocks == 1 { "" } else { "s" };
    match first.phase {
        Phase::Idle => unheard(first),
        phase => Meaning::new(
            format!("{phase}, cut after {clocks} clock{plural}: dropped"),
            "cut",
        ),
    }
}

fn unheard(first: &State) -> Meaning {
    match first.power {
        Power::On => Meaning::new("nobody listens", "nobody listens"),
        Power::Backup | Power::None => Meaning::new("the power is off", "power off"),
    }
}

/// The meaning of clocks that follow no Start.
pub fn of_stray_clocks() -> Meaning {
    Meaning::new("outside a transfer", "outside")
}

/// What a slave byte names.
pub fn named_by(slave_byte: u8) -> &'static str {
    match slave_byte {
        0xA0 => "memory, write",
        0xA1 => "memory, read",
        0xD0 => "companion, write",
        0xD1 => "companion, read",
        _ => "another part",
    }
}

fn slave_byte(byte: u8) -> Meaning {
    let named = named_by(byte);
    Meaning::new(format!("slave byte: {named}"), named)
}

/// The select bits of a slave byte.
const SELECT_BITS: u8 = 0x06;

/// What a slave byte names on the line of a set. Select bits that no device has have ended the transfer
/// by the eighth clock.
fn slave_byte_of_set(eighth: &State, byte: u8) -> Meaning {
    let Meaning { words, label } = slave_byte(byte & !SELECT_BITS);
    let select = (byte & SELECT_BITS) >> 1;
    let is_named = Select::ALL
        .iter()
        .any(|one| [one.memory_byte(), one.companion_byte()].contains(&(byte & !1)));
    match eighth.phase {
        _ if !is_named => Meaning { words, label },
        Phase::Idle => Meaning::new(
            format!("{words}, select bits {select}: nobody has them"),
            label,
        ),
        _ => Meaning { words, label },
    }
}

/// The select bits of the device of a set that hears a byte, if one does. All hear a slave byte; it is
/// for the one that stays in the transfer.
pub fn hearer(first: &State, eighth: Option<&State>) -> Option<Select> {
    let hearing = match first.phase {
        Phase::SlaveByte => eighth?,
        _ => first,
    };
    match hearing.phase {
        Phase::Idle => None,
        _ => hearing.select,
    }
}

fn companion_address(part: Part, byte: u8) -> Meaning {
    match part.register_name(byte) {
        Some(name) => Meaning::new(format!("register address {byte:02X}h, {name}"), name),
        None => Meaning::new(
            format!("register address {byte:02X}h: there is none"),
            "no register",
        ),
    }
}

/// A refused byte has ended the transfer by its eighth clock; the address steps on all the same.
fn memory_write(first: &State, eighth: &State) -> Meaning {
    let address = first.memory_address;
    if eighth.phase == Phase::Idle {
        let next = eighth.memory_address;
        Meaning::new(
            format!(
                "memory {address:04X}h: protected, not stored; the address goes on to {next:04X}h"
            ),
            format!("{address:04X}h protected"),
        )
    } else {
        Meaning::new(
            format!("memory {address:04X}h: stored"),
            format!("to {address:04X}h"),
        )
    }
}

/// What a byte written to a register means, and what the register holds then.
fn companion_write(first: &State, eighth: &State, byte: u8) -> Meaning {
    match first.companion {
        Companion::Clock { .. } if eighth.phase == Phase::Idle => no_date(first),
        Companion::Counters(_) => counters_write(first, eighth, byte),
        Companion::Clock { .. } => register_write(first, eighth, byte),
    }
}

/// A refused byte has ended the transfer by its eighth clock: it would have loaded the clock with a
/// date that does not exist.
fn no_date(first: &State) -> Meaning {
    let address = first.companion_address;
    let written = match first.companion {
        Companion::Clock { written, .. } => written.to_string(),
        Companion::Counters(_) => String::new(),
    };
    Meaning::new(
        format!(
            "{address:02X}h refused: {written} is no date, not loaded; the clock keeps its own"
        ),
        "no date: refused",
    )
}

/// A byte that a register takes; what it does not take of it is said.
fn register_write(first: &State, eighth: &State, byte: u8) -> Meaning {
    let address = first.companion_address;
    let held = eighth.register(address);
    let kept = if held == byte {
        String::new()
    } else {
        format!("; the register holds {held:02X}h")
    };
    let words = first.part.register_words(address, byte);
    named_register(first.part, address, &format!("{words}{kept}"))
}

/// A byte for a locked serial number is acknowledged and not stored; a byte that freezes the counters
/// takes their snapshot.
fn counters_write(first: &State, eighth: &State, byte: u8) -> Meaning {
    let address = first.companion_address;
    let (Companion::Counters(before), Companion::Counters(after)) =
        (first.companion, eighth.companion)
    else {
        return register_write(first, eighth, byte);
    };
    if before.is_locked() && address >= registers::SERIAL {
        let words = first.part.register_words(address, byte);
        return named_register(first.part, address, &format!("{words}; locked, not stored"));
    }
    let mut meaning = register_write(first, eighth, byte);
    if address == registers::COUNTING && after.is_frozen() {
        let taken = format!("; snapshot taken, {}", after.snapshot);
        meaning.words.push_str(&taken);
    }
    meaning
}

/// A byte that a register gives; a counter's may be that of the snapshot, and the last of these ends
/// the freezing.
fn companion_read(first: &State, eighth: &State, byte: u8) -> Meaning {
    let address = first.companion_address;
    let mut words = first.part.register_words(address, byte);
    let is_frozen = |state: &State| match state.companion {
        Companion::Counters(state) => state.is_frozen(),
        Companion::Clock { .. } => false,
    };
    let is_counter = (registers::COUNTER_1_LOW..=registers::COUNTER_2_HIGH).contains(&address);
    if is_counter && is_frozen(first) {
        words.push_str(", frozen");
        if !is_frozen(eighth) {
            words.push_str("; RC is 0 again");
        }
    }
    named_register(first.part, address, &words)
}

/// A register by address and name, and what it is about.
fn named_register(part: Part, address: u8, words: &str) -> Meaning {
    let name = part.register_name(address).unwrap_or_default();
    Meaning::new(format!("{address:02X}h {name}: {words}"), name)
}
