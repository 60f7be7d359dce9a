// SPDX-License-Identifier: Apache-2.0
//! Counts how often two lamps are switched, reads the counts frozen, and locks a serial number.

use fm3130::family::{event, registers, Fm3164, Refusal};

fn main() -> Result<(), Refusal> {
    let mut device = Fm3164::fresh();

    // Lamp 1 is switched seven times, lamp 2 three times: an edge each.
    device.run(&[event::EDGE_1; 7])?;
    device.run(&[event::EDGE_2; 3])?;

    // RC takes a snapshot; lamp 1 is switched again before it is read.
    device.write_registers(registers::COUNTING, &[registers::RC])?;
    device.step(event::EDGE_1)?;
    let frozen = device.read_registers(registers::COUNTER_1_LOW, 4)?;
    println!("frozen: {frozen:?}");
    println!("now: {}", device.counts());

    // A serial number, locked: later writes are acknowledged and not stored.
    device.write_registers(registers::SERIAL, b"LAMP0042")?;
    device.write_registers(registers::CONTROL, &[registers::SNL])?;
    let acknowledged = device.write_registers(registers::SERIAL, b"FORGED")?;
    let serial = device.read_registers(registers::SERIAL, 8)?;
    println!("serial number: {}", String::from_utf8_lossy(&serial));
    println!("acknowledged: {}", acknowledged.iter().all(|flag| *flag));
    Ok(())
}
