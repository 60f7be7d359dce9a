// SPDX-License-Identifier: Apache-2.0
//! Lists run on devices handed in that may be inside transfers: those that a set
//! that was made could have come to, and those that none could.

use super::set_calls::{fresh_place, put_fault, SetCall, SetCallPlace};
use crate::bus::{LogicalDevice, Phase, Power, Transfer};

/// Clocks that go on with a byte under way and with the next, an edge and a tick
/// between them; then a Stop and a slave byte.
const EVENTS: [u8; 26] = [
    3, 2, 8, 2, 3, 2, 4, 3, 2, 2, 3, 3, 2, 3, 1, 0, 3, 2, 3, 2, 2, 2, 2, 3, 3, 9,
];

/// Every pair of standings under every pair of supplies, pairs among four devices,
/// more than two devices in one slave byte, every set of faults together, and sets
/// of no device or more than four.
pub fn set_runs() -> Vec<SetCall> {
    let mut calls = pairs_with_supplies();
    calls.extend(pairs_among_four());
    calls.extend(one_slave_byte());
    calls.extend(sets_of_faults());
    calls.extend(no_sets());
    calls
}

fn call(name: String, places: Vec<SetCallPlace>) -> SetCall {
    SetCall {
        name,
        places,
        events: EVENTS.to_vec(),
        room: EVENTS.len(),
    }
}

fn fresh_places(count: u8) -> Vec<SetCallPlace> {
    (0..count).map(|place| fresh_place(place % 4)).collect()
}

/// A transfer with so many clocks done, in which these bits were received.
fn receiving(phase: Phase, byte: u8, clocks: u8) -> Transfer {
    let is_received = |place: usize| place < usize::from(clocks);
    Transfer {
        phase,
        clocks,
        received_bits: std::array::from_fn(|place| {
            is_received(place) && byte >> (7 - place) & 1 == 1
        }),
        ..Transfer::none()
    }
}

/// A transfer in which a byte is sent, fixed at its first clock.
fn sending(source: LogicalDevice, byte: u8, clocks: u8) -> Transfer {
    Transfer {
        phase: Phase::ReadData(source),
        clocks,
        byte_sent: if clocks == 0 { 0 } else { byte },
        ..Transfer::none()
    }
}

/// Where a device with these selects can stand: between transfers, in slave bytes
/// that are alike at first, and in each other phase.
fn standings(selects: u8) -> Vec<Transfer> {
    let mut all = vec![Transfer::none()];
    for (byte, clocks) in [
        (0xA0, 0),
        (0xA0, 1),
        (0x20, 1),
        (0xA0, 4),
        (0xD0, 4),
        (0xA0, 6),
        (0xA0, 7),
        (0xA2, 7),
        (0xD0, 7),
    ] {
        all.push(receiving(Phase::SlaveByte, byte, clocks));
    }
    all.push(receiving(Phase::SlaveByte, 0xA0 + 2 * selects, 8));
    all.push(receiving(Phase::SlaveByte, 0xD1 + 2 * selects, 8));
    all.push(receiving(Phase::MemoryAddressHighByte, 0x12, 8));
    all.push(receiving(Phase::MemoryAddressLowByte, 0x34, 7));
    // the companion address of a fresh device, taken at the eighth clock
    all.push(receiving(Phase::CompanionAddressByte, 0x09, 8));
    all.push(receiving(Phase::WriteData(LogicalDevice::Memory), 0x55, 3));
    all.push(receiving(
        Phase::WriteData(LogicalDevice::Companion),
        0x55,
        8,
    ));
    all.push(sending(LogicalDevice::Memory, 0x00, 0));
    all.push(sending(LogicalDevice::Companion, 0x5A, 5));
    all.push(sending(LogicalDevice::Companion, 0x5A, 8));
    all
}

/// Every pair of standings of two devices.
fn pairs() -> Vec<(Transfer, Transfer)> {
    let mut pairs = Vec::new();
    for first in standings(0) {
        for second in standings(1) {
            pairs.push((first, second));
        }
    }
    pairs
}

fn pairs_with_supplies() -> Vec<SetCall> {
    let supplies = [Power::On, Power::Backup, Power::Gone];
    let mut calls = Vec::new();
    for (number, (first, second)) in pairs().into_iter().enumerate() {
        for choice in 0..9 {
            let mut places = fresh_places(2);
            places[0].state.transfer = first;
            places[1].state.transfer = second;
            places[0].state.power = supplies[choice / 3];
            places[1].state.power = supplies[choice % 3];
            calls.push(call(format!("pair {number}, supplies {choice}"), places));
        }
    }
    calls
}

/// The pairs again, the two devices at every two places among four; the others
/// are between transfers.
fn pairs_among_four() -> Vec<SetCall> {
    let orders = [[0, 1, 2, 3], [0, 2, 1, 3], [2, 0, 3, 1], [3, 2, 1, 0]];
    let mut calls = Vec::new();
    for (number, (first, second)) in pairs().into_iter().enumerate() {
        let mut places: Vec<SetCallPlace> = orders[number % 4].map(fresh_place).to_vec();
        for place in &mut places {
            match place.selects {
                0 => place.state.transfer = first,
                1 => place.state.transfer = second,
                _ => {}
            }
        }
        calls.push(call(format!("pair {number} among four"), places));
    }
    calls
}

/// Four devices in one slave byte after each number of its clocks; then each of
/// them a clock behind, with another bit, or between transfers.
fn one_slave_byte() -> Vec<SetCall> {
    let mut calls = Vec::new();
    for clocks in 0..=7_u8 {
        for odd in 0..4_usize {
            for change in 0..4 {
                let mut places = fresh_places(4);
                for place in &mut places {
                    place.state.transfer = receiving(Phase::SlaveByte, 0xD5, clocks);
                }
                places[odd].state.transfer = match change {
                    0 => receiving(Phase::SlaveByte, 0xD5, clocks),
                    1 => receiving(Phase::SlaveByte, 0xD5, clocks.saturating_sub(1)),
                    2 => receiving(Phase::SlaveByte, 0xD5 ^ (0x80 >> odd), clocks),
                    _ => Transfer::none(),
                };
                let name = format!("{clocks} clocks, change {change} in {odd}");
                calls.push(call(name, places));
            }
        }
    }
    calls
}

/// Puts faults into a call: those of [`put_fault`], an unknown event, too little
/// room. A transfer is put into two devices, so that they are in each other's way.
fn put_faults(made: &mut SetCall, faults: u8, turn: usize) {
    let count = made.places.len();
    for fault in (0..4).filter(|fault| count > 0 && faults >> fault & 1 == 1) {
        put_fault(&mut made.places, (turn + 3 * fault) % count, fault);
        if fault == 3 {
            put_fault(&mut made.places, (turn + 3 * fault + 1) % count, fault);
        }
    }
    if faults & 16 != 0 {
        made.events[7] = 16;
    }
    if faults & 32 != 0 {
        made.room -= 1;
    }
}

/// Every set of the six faults in sets of two to four devices.
fn sets_of_faults() -> Vec<SetCall> {
    let mut calls = Vec::new();
    for count in 2..=4_u8 {
        for faults in 0..64_u8 {
            for turn in 0..usize::from(count) {
                let name = format!("{count} devices, faults {faults:06b}, from {turn}");
                let mut made = call(name, fresh_places(count));
                put_faults(&mut made, faults, turn);
                calls.push(made);
            }
        }
    }
    calls
}

/// No device, and more than four, with every set of faults.
fn no_sets() -> Vec<SetCall> {
    let mut calls = Vec::new();
    for count in [0, 5, 6, 9_u8] {
        for faults in 0..64_u8 {
            let name = format!("{count} devices, faults {faults:06b}");
            let mut made = call(name, fresh_places(count));
            put_faults(&mut made, faults, 1);
            calls.push(made);
        }
    }
    calls
}
