// SPDX-License-Identifier: Apache-2.0
//! The second program's device as the 64 bytes of docs/IMAGE.md and back, and which images that page accepts.

use std::ops::RangeInclusive;

use second::device::{LogicalDevice, Phase, Transfer};
use second::state::State;
use second::{Calendar, Device, Power};

pub const IMAGE_BYTES: usize = 64;

/// Byte 26: the phase's number.
fn phase_number(phase: Phase) -> u8 {
    match phase {
        Phase::BetweenTransfers => 0,
        Phase::SlaveByte => 1,
        Phase::MemoryAddressHighByte => 2,
        Phase::MemoryAddressLowByte => 3,
        Phase::CompanionAddressByte => 4,
        Phase::WriteData(LogicalDevice::Memory) => 5,
        Phase::WriteData(LogicalDevice::Companion) => 6,
        Phase::ReadData(LogicalDevice::Memory) => 7,
        Phase::ReadData(LogicalDevice::Companion) => 8,
    }
}

/// Byte 28: the bits received so far, or the byte that is sent.
fn byte_under_way(transfer: &Transfer) -> u8 {
    match transfer.phase {
        Phase::BetweenTransfers => 0,
        Phase::ReadData(_) if transfer.clocks == 0 => 0,
        Phase::ReadData(_) => transfer.byte_sent,
        _ => transfer
            .received_bits
            .iter()
            .take(usize::from(transfer.clocks))
            .fold(0, |byte, bit| byte * 2 + u8::from(*bit)),
    }
}

/// Bytes 22 to 29, the same in every part's image: the two addresses, the supplies, and where a transfer stands.
pub fn bus_bytes(
    companion_address: u8,
    memory_address: u16,
    power: Power,
    transfer: &Transfer,
) -> [u8; 8] {
    let [high, low] = memory_address.to_be_bytes();
    let supplies = match power {
        Power::On => 0,
        Power::Backup => 1,
        Power::Gone => 2,
    };
    let phase = phase_number(transfer.phase);
    let (clocks, byte) = match transfer.phase {
        Phase::BetweenTransfers => (0, 0),
        _ => (transfer.clocks, byte_under_way(transfer)),
    };
    let first = match transfer.phase {
        Phase::MemoryAddressLowByte => transfer.memory_address_high_byte,
        _ => 0,
    };
    [
        companion_address,
        high,
        low,
        supplies,
        phase,
        clocks,
        byte,
        first,
    ]
}

/// The image of the second program's device.
pub fn of(device: &Device) -> [u8; IMAGE_BYTES] {
    let mut image = [0; IMAGE_BYTES];
    image[..15].copy_from_slice(&device.registers);
    let core = &device.core;
    let calendar = [
        core.seconds,
        core.minutes,
        core.hours,
        core.day,
        core.date,
        core.month,
        core.year,
    ];
    image[15..22].copy_from_slice(&calendar);
    image[22..30].copy_from_slice(&bus_bytes(
        device.companion_address,
        device.memory_address,
        device.power,
        &device.transfer,
    ));
    image[61..].copy_from_slice(&[0x31, 0x30, 0x01]);
    image
}

/// The bits of each of the first 22 bytes that are not fixed at 0: the registers, then the core.
const FREE_BITS: [u8; 22] = [
    0xFF, 0xBF, 0x7F, 0x7F, 0x3F, 0x07, 0x3F, 0x1F, 0xFF, 0xFF, 0xFF, 0xBF, 0xBF, 0x9F, 0xFF, 0x7F,
    0x7F, 0x3F, 0x07, 0x3F, 0x1F, 0xFF,
];

/// Whether bytes 26 to 29 stand for a transfer within the limits of a part whose companion has these addresses.
pub fn phase_within(transfer: &[u8], addresses: &RangeInclusive<u8>) -> bool {
    let &[phase, clocks, byte, first] = transfer else {
        return false;
    };
    let fits = clocks <= 8 && u16::from(byte) < (1 << clocks);
    let alone = first == 0;
    match phase {
        0 => clocks == 0 && byte == 0 && alone,
        1 => fits && alone && (clocks < 8 || [0xA0, 0xA1, 0xD0, 0xD1].contains(&byte)),
        2 | 5 | 6 => fits && alone,
        3 => fits,
        4 => fits && alone && (clocks < 8 || addresses.contains(&byte)),
        7 | 8 => clocks <= 8 && alone && (clocks > 0 || byte == 0),
        _ => false,
    }
}

/// Whether docs/IMAGE.md accepts an image.
pub fn is_accepted(image: &[u8]) -> bool {
    image.len() == IMAGE_BYTES
        && image
            .iter()
            .zip(FREE_BITS)
            .all(|(byte, free)| byte & !free == 0)
        && image[22] <= 14
        && image[23] <= 0x1F
        && image[25] <= 2
        && phase_within(&image[26..30], &(0..=0x0E))
        && (image[25] == 0 || image[26] == 0)
        && image[30..61].iter().all(|byte| *byte == 0)
        && image[61..] == [0x31, 0x30, 0x01]
}

/// The phase of a number.
fn phase_of(number: u8) -> Option<Phase> {
    let phase = match number {
        0 => Phase::BetweenTransfers,
        1 => Phase::SlaveByte,
        2 => Phase::MemoryAddressHighByte,
        3 => Phase::MemoryAddressLowByte,
        4 => Phase::CompanionAddressByte,
        5 => Phase::WriteData(LogicalDevice::Memory),
        6 => Phase::WriteData(LogicalDevice::Companion),
        7 => Phase::ReadData(LogicalDevice::Memory),
        8 => Phase::ReadData(LogicalDevice::Companion),
        _ => return None,
    };
    Some(phase)
}

/// The transfer of bytes 26 to 29.
fn transfer_of(image: &[u8]) -> Option<Transfer> {
    let (phase, clocks, byte) = (phase_of(image[26])?, image[27], image[28]);
    let mut transfer = Transfer {
        phase,
        clocks,
        received_bits: [false; 8],
        memory_address_high_byte: image[29],
        byte_sent: 0,
    };
    match phase {
        Phase::BetweenTransfers => {}
        Phase::ReadData(_) => transfer.byte_sent = byte,
        _ => {
            for place in 0..clocks {
                let bit = byte >> (clocks - 1 - place) & 1;
                transfer.received_bits[usize::from(place)] = bit == 1;
            }
        }
    }
    Some(transfer)
}

/// The second program's state that an image holds, or none where docs/IMAGE.md does not accept it.
pub fn state_of(image: &[u8]) -> Option<State> {
    if !is_accepted(image) {
        return None;
    }
    Some(State {
        registers: image[..15].try_into().ok()?,
        core: Calendar {
            seconds: image[15],
            minutes: image[16],
            hours: image[17],
            day: image[18],
            date: image[19],
            month: image[20],
            year: image[21],
        },
        power: match image[25] {
            0 => Power::On,
            1 => Power::Backup,
            _ => Power::Gone,
        },
        memory_address: u16::from_be_bytes([image[23], image[24]]),
        companion_address: image[22],
        transfer: transfer_of(image)?,
    })
}
