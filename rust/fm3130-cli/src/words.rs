// SPDX-License-Identifier: Apache-2.0
//! A device in words: registers, calendar and pin or counters and serial number, addresses, power,
//! bus.

use fm3130::{family, registers, Calendar, NextLine, Phase, PinFunction, Power};

use crate::chip::{Chip, Companion, Part, State};

/// All that a reader may want to know of a device, a line each.
pub fn of_device(device: &Chip) -> Vec<String> {
    of_state(&device.state())
}

/// The same of its state.
pub fn of_state(state: &State) -> Vec<String> {
    let (first, _) = state.part.registers();
    let mut lines = vec!["Registers".to_string()];
    lines.extend(of_registers(state.part, first, state.registers()));
    match &state.companion {
        Companion::Clock { core, .. } => {
            lines.push(format!("Calendar   {}", calendar(state, core)));
            lines.push(format!("ACS pin    {}", pin(state)));
        }
        Companion::Counters(counters) => lines.extend(of_counters(counters)),
    }
    lines.push(format!(
        "Addresses  memory {:04X}h, companion {:02X}h",
        state.memory_address, state.companion_address
    ));
    lines.push(format!("Power      {}", state.power));
    lines.push(format!("Bus        {}", bus(state)));
    lines
}

/// What the device will do to the line, of the next Clock and of the one after it.
pub fn of_next_line(line: NextLine) -> Vec<String> {
    let word = |pulled| if pulled { "pulled low" } else { "released" };
    vec![
        format!("Next line  {} by the device", word(line.pulled)),
        format!(
            "Then       {} after a low bit, {} after a high one",
            word(line.pulled_after_low),
            word(line.pulled_after_high)
        ),
    ]
}

/// Some registers of a part, the first of which has an address.
pub fn of_registers(part: Part, first: u8, bytes: &[u8]) -> Vec<String> {
    let width = match part {
        Part::Fm3130 => 18,
        Part::Family(_) => 22,
    };
    bytes
        .iter()
        .zip(first..)
        .filter_map(|(byte, address)| {
            let name = part.register_name(address)?;
            let words = part.register_words(address, *byte);
            Some(format!(
                "  {address:02X}h  {name:<width$}  {byte:02X}h  {words}"
            ))
        })
        .collect()
}

/// The counters, their snapshot while reads are frozen, and the serial number.
fn of_counters(state: &family::State) -> Vec<String> {
    let words = |counts: family::Counts| match state.is_joined() {
        true => format!("both as one: {} ({:08X}h)", counts.pair(), counts.pair()),
        false => counts.to_string(),
    };
    let mut lines = vec![format!("Counters   {}", words(state.counts()))];
    if state.is_frozen() {
        lines.push(format!("Reads give {}, frozen", words(state.snapshot)));
    }
    let serial: Vec<String> = state
        .serial()
        .iter()
        .map(|byte| format!("{byte:02X}"))
        .collect();
    let lock = if state.is_locked() { "locked" } else { "open" };
    lines.push(format!("Serial     {}, {lock}", serial.join(" ")));
    lines
}

/// The core, and why it does not run if it does not.
fn calendar(state: &State, core: &Calendar) -> String {
    let halted = state.register(registers::CALIBRATION as u8) & registers::OSCEN != 0;
    let remark = if state.power == Power::None {
        " (stands still: no supply)"
    } else if halted {
        " (stands still: the oscillator is halted)"
    } else if !core.is_valid() {
        " (stands still: not valid)"
    } else {
        ""
    };
    format!("{core}{remark}")
}

/// The pin, and the frequency of its square wave.
fn pin(state: &State) -> String {
    let pin = state.pin();
    match pin.function {
        PinFunction::SquareWave => {
            let setup = state.register(registers::SETUP as u8);
            format!("{pin}, {}", registers::square_wave_frequency(setup))
        }
        _ => pin.to_string(),
    }
}

/// Where the transfer stands.
pub fn bus(state: &State) -> String {
    match (state.phase, state.clocks) {
        (Phase::Idle, _) => state.phase.to_string(),
        (phase, 1) => format!("{phase}, 1 clock done"),
        (phase, clocks) => format!("{phase}, {clocks} clocks done"),
    }
}
