// SPDX-License-Identifier: Apache-2.0
//! Images for these tests: 64 bytes, the first 15 the registers, the rest a
//! layout of the tests' own.

use second::device::{Phase, Transfer};
use second::{Calendar, LogicalDevice, Power, State};

const POWERS: [Power; 3] = [Power::On, Power::Backup, Power::Gone];

const PHASES: [Phase; 9] = [
    Phase::BetweenTransfers,
    Phase::SlaveByte,
    Phase::MemoryAddressHighByte,
    Phase::MemoryAddressLowByte,
    Phase::CompanionAddressByte,
    Phase::WriteData(LogicalDevice::Memory),
    Phase::WriteData(LogicalDevice::Companion),
    Phase::ReadData(LogicalDevice::Memory),
    Phase::ReadData(LogicalDevice::Companion),
];

fn place_of<Value: PartialEq>(values: &[Value], value: Value) -> u8 {
    let place = values.iter().position(|one| *one == value);
    place.expect("it is among them") as u8
}

pub fn encode(state: &State) -> Vec<u8> {
    let mut image = state.registers.to_vec();
    image.extend(state.core.to_bytes());
    image.push(place_of(&POWERS, state.power));
    image.extend(state.memory_address.to_be_bytes());
    image.push(state.companion_address);
    image.push(place_of(&PHASES, state.transfer.phase));
    image.push(state.transfer.clocks);
    image.push(state.transfer.received_byte());
    image.push(state.transfer.memory_address_high_byte);
    image.push(state.transfer.byte_sent);
    image.resize(64, 0);
    image
}

/// None if the image is not 64 bytes or no well-formed state writes it.
pub fn decode(image: &[u8]) -> Option<State> {
    if image.len() != 64 {
        return None;
    }
    let mut registers = [0; 15];
    registers.copy_from_slice(&image[..15]);
    let mut core = [0; 7];
    core.copy_from_slice(&image[15..22]);
    let mut received_bits = [false; 8];
    for (place, bit) in received_bits.iter_mut().enumerate() {
        *bit = image[28] >> (7 - place) & 1 == 1;
    }
    let state = State {
        registers,
        core: Calendar::from_bytes(core),
        power: *POWERS.get(usize::from(image[22]))?,
        memory_address: u16::from_be_bytes([image[23], image[24]]),
        companion_address: image[25],
        transfer: Transfer {
            phase: *PHASES.get(usize::from(image[26]))?,
            clocks: image[27],
            received_bits,
            memory_address_high_byte: image[29],
            byte_sent: image[30],
        },
    };
    let written_by_it = state.is_well_formed() && encode(&state) == image;
    written_by_it.then_some(state)
}
