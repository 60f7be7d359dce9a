// SPDX-License-Identifier: Apache-2.0
//! The event bytes, and the clocks of single bytes. Whole transactions with the memory are in
//! [`crate::master`]; the clocks of a byte here are those of a data byte there.
//!
//! ```
//! use fm3130::{event, registers, Device};
//!
//! // Start the oscillator: 00h goes to register 01h.
//! let mut events = vec![event::START];
//! for byte in [0xD0, 0x01, 0x00] {
//!     events.extend(event::written_byte(byte));
//! }
//! events.push(event::STOP);
//!
//! let mut device = Device::fresh();
//! device.run(&events)?;
//! assert_eq!(device.registers()[registers::CALIBRATION], 0x00);
//! # Ok::<(), fm3130::Refusal>(())
//! ```

use crate::master;

/// A Start: begins a slave byte at any moment.
pub const START: u8 = 0;
/// A Stop: ends the transfer at any moment.
pub const STOP: u8 = 1;
/// A Clock with the master's data line low.
pub const CLOCK_LOW: u8 = 2;
/// A Clock with the master's data line high, that is, released.
pub const CLOCK_HIGH: u8 = 3;
/// A one-second tick.
pub const TICK: u8 = 4;
/// Main power lost, backup present.
pub const POWER_LOST_WITH_BACKUP: u8 = 5;
/// Main power lost, no backup.
pub const POWER_LOST_WITHOUT_BACKUP: u8 = 6;
/// Main power returned.
pub const POWER_RETURNED: u8 = 7;

/// The greatest event byte; a list with a greater one is refused.
pub const LAST: u8 = POWER_RETURNED;

/// The Clock with the master's line at a level.
///
/// ```
/// use fm3130::event;
/// assert_eq!(event::clock(true), event::CLOCK_HIGH);
/// assert_eq!(event::clock(false), event::CLOCK_LOW);
/// ```
pub fn clock(line_is_high: bool) -> u8 {
    if line_is_high {
        CLOCK_HIGH
    } else {
        CLOCK_LOW
    }
}

/// The nine clocks of a byte that the master writes, high bit first: at the ninth the master
/// releases the line, so that the device can acknowledge.
///
/// ```
/// assert_eq!(fm3130::event::written_byte(0xA0), [3, 2, 3, 2, 2, 2, 2, 2, 3]);
/// ```
pub fn written_byte(byte: u8) -> [u8; 9] {
    let mut events = [STOP; master::write_events_count(1)];
    // Accepted: one byte, a good address, and room for all events.
    let written = master::write_events(0, &[byte], &mut events);
    first_data_byte(written, &events, master::write_events_count(0) - 1)
}

/// The nine clocks of a byte that the master reads: the line released for eight, and at the ninth
/// low if the master acknowledges, which asks for the next byte.
///
/// ```
/// assert_eq!(fm3130::event::read_byte(true), [3, 3, 3, 3, 3, 3, 3, 3, 2]);
/// ```
pub fn read_byte(acknowledges: bool) -> [u8; 9] {
    let mut events = [STOP; master::read_events_count(2)];
    // Accepted, as above. The first of two bytes goes on, an only one is the last.
    let read = master::read_events(0, if acknowledges { 2 } else { 1 }, &mut events);
    first_data_byte(read, &events, master::read_events_count(0) - 1)
}

/// The nine clocks of the first data byte of a transaction, which stand where its Stop would stand if
/// it had none. A transaction that was refused moves no byte: Stops alone.
fn first_data_byte(filled: Result<usize, master::Refusal>, events: &[u8], place: usize) -> [u8; 9] {
    let mut clocks = [STOP; 9];
    let written = events.get(..filled.unwrap_or(0)).unwrap_or_default();
    for (clock, event) in clocks.iter_mut().zip(written.iter().skip(place)) {
        *clock = *event;
    }
    clocks
}

#[cfg(test)]
mod tests {
    use super::*;

    #[test]
    fn a_refused_transaction_has_no_clocks() {
        let events = [CLOCK_LOW; 38];
        let refused = Err(master::Refusal::LittleRoom);
        assert_eq!(first_data_byte(refused, &events, 28), [STOP; 9]);
        assert_eq!(first_data_byte(Ok(38), &events, 28), [CLOCK_LOW; 9]);
    }
}
