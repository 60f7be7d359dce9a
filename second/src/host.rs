// SPDX-License-Identifier: Apache-2.0
//! Small helpers that play the bus master and look at the answers.

use crate::bus::{
    SLAVE_COMPANION_READ, SLAVE_COMPANION_WRITE, SLAVE_MEMORY_READ, SLAVE_MEMORY_WRITE,
};
use crate::calendar::Calendar;
use crate::device::Device;
use crate::family;
use crate::generate::Script;

/// What a master can play its events to.
pub trait Played {
    /// The answers to some events, one by one.
    fn play(&mut self, events: &[u8]) -> Vec<u8>;
}

impl Played for Device {
    fn play(&mut self, events: &[u8]) -> Vec<u8> {
        self.run(events)
    }
}

impl Played for family::Device {
    fn play(&mut self, events: &[u8]) -> Vec<u8> {
        self.run(events)
    }
}

impl Played for family::Set {
    fn play(&mut self, events: &[u8]) -> Vec<u8> {
        events.iter().map(|event| self.event(*event)).collect()
    }
}

/// Runs a script.
pub fn run_script(device: &mut impl Played, script: &Script) -> Vec<u8> {
    device.play(&script.events)
}

/// Bit 0 of an answer: the line.
pub fn line_is_high(answer: u8) -> bool {
    answer & 1 == 1
}

/// The byte that eight answers show on the line, high bit first.
pub fn byte_on_line(answers: &[u8]) -> u8 {
    assert!(answers.len() == 8, "a byte has eight clocks");
    let mut byte = 0;
    for answer in answers {
        byte = byte * 2 + (answer & 1);
    }
    byte
}

/// Sends one byte; true when the device pulls the released ninth clock low.
pub fn send_byte(device: &mut impl Played, byte: u8) -> bool {
    let answers = run_script(device, Script::new().byte_and_acknowledge(byte));
    !line_is_high(answers[8])
}

/// Start.
pub fn start(device: &mut impl Played) {
    run_script(device, Script::new().start());
}

/// Stop.
pub fn stop(device: &mut impl Played) {
    run_script(device, Script::new().stop());
}

/// Reads one byte; the ninth bit is low if the read continues.
pub fn receive_byte(device: &mut impl Played, continues: bool) -> u8 {
    let answers = run_script(device, Script::new().read_byte(continues));
    byte_on_line(&answers[0..8])
}

/// Start and slave byte.
pub fn begin(device: &mut impl Played, slave_byte: u8) -> bool {
    start(device);
    send_byte(device, slave_byte)
}

/// Sends a slave byte and more bytes; one truth value for every acknowledge.
pub fn write(device: &mut impl Played, slave_byte: u8, bytes: &[u8]) -> Vec<bool> {
    let mut acknowledged = vec![begin(device, slave_byte)];
    for byte in bytes {
        acknowledged.push(send_byte(device, *byte));
    }
    stop(device);
    acknowledged
}

/// Sends a slave byte and reads so many bytes.
pub fn read(device: &mut impl Played, slave_byte: u8, count: usize) -> Vec<u8> {
    begin(device, slave_byte);
    let bytes = (0..count)
        .map(|index| receive_byte(device, index + 1 < count))
        .collect();
    stop(device);
    bytes
}

/// Memory write of some data; one truth value for every acknowledge.
pub fn memory_write(device: &mut impl Played, address: u16, data: &[u8]) -> Vec<bool> {
    let mut bytes = vec![(address >> 8) as u8, (address & 0xFF) as u8];
    bytes.extend(data);
    write(device, SLAVE_MEMORY_WRITE, &bytes)
}

/// Companion write of some data; one truth value for every acknowledge.
pub fn companion_write(device: &mut impl Played, address: u8, data: &[u8]) -> Vec<bool> {
    let mut bytes = vec![address];
    bytes.extend(data);
    write(device, SLAVE_COMPANION_WRITE, &bytes)
}

/// Companion read from an address.
pub fn companion_read(device: &mut impl Played, address: u8, count: usize) -> Vec<u8> {
    companion_write(device, address, &[]);
    read(device, SLAVE_COMPANION_READ, count)
}

/// Memory read from an address.
pub fn memory_read(device: &mut impl Played, address: u16, count: usize) -> Vec<u8> {
    memory_write(device, address, &[]);
    read(device, SLAVE_MEMORY_READ, count)
}

/// One tick.
pub fn tick(device: &mut impl Played) {
    run_script(device, Script::new().tick());
}

/// Loads the core over the bus and starts the oscillator; 00h is left with the
/// given control bits.
pub fn load_calendar(device: &mut impl Played, calendar: Calendar, control: u8) {
    run_script(device, Script::new().load_calendar(calendar, control));
}

/// Reads 02h to 08h over the bus.
pub fn read_calendar(device: &mut impl Played) -> Calendar {
    let bytes = companion_read(device, 0x02, 7);
    let mut seven = [0; 7];
    seven.copy_from_slice(&bytes);
    Calendar::from_bytes(seven)
}
