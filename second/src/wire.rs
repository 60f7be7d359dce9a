// SPDX-License-Identifier: Apache-2.0
//! The other end of the wire: the master's side of one whole memory transaction
//! (02, number 1).
//!
//! A write is Start, slave byte A0h, two address bytes, the data bytes, Stop. A
//! read is Start, A0h, two address bytes, Start, A1h, the data bytes, Stop.

use crate::device::LAST_MEMORY_ADDRESS;
use crate::generate::Script;
use crate::host::{byte_on_line, line_is_high};

/// "at most 256 at a time"
pub const MOST_BYTES: usize = 256;

// "More than 256, a read of none, an address above 1FFFh, too little room, or
// answers not as many as the events is refused by 1 to 5 of its own in that
// order, and nothing is written."
/// Refusal 1: "More than 256".
pub const MORE_THAN_256: u8 = 1;
/// Refusal 2: "a read of none".
pub const READ_OF_NONE: u8 = 2;
/// Refusal 3: "an address above 1FFFh".
pub const ADDRESS_ABOVE_1FFF: u8 = 3;
/// Refusal 4: "too little room".
pub const TOO_LITTLE_ROOM: u8 = 4;
/// Refusal 5: "answers not as many as the events".
pub const ANSWERS_NOT_AS_MANY: u8 = 5;

/// Clocks of a byte with its acknowledge.
const CLOCKS: usize = 9;
/// The slave byte and the two address bytes.
const BYTES_BEFORE_DATA: usize = 3;

/// The events of a write: Start, nine clocks a byte, Stop.
pub fn length_of_write(count: usize) -> usize {
    1 + CLOCKS * (BYTES_BEFORE_DATA + count) + 1
}

/// The events of a read: it has a second Start and a second slave byte.
pub fn length_of_read(count: usize) -> usize {
    length_of_write(count) + 1 + CLOCKS
}

// ----- the events -----

/// "given an address and bytes, it writes the events of one whole transaction".
/// `room`: how many events the caller's buffer can hold. A write of none sets
/// the address.
pub fn write_events(address: u16, bytes: &[u8], room: usize) -> Result<Vec<u8>, u8> {
    refuse_if(bytes.len() > MOST_BYTES, MORE_THAN_256)?;
    refuse_if(address > LAST_MEMORY_ADDRESS, ADDRESS_ABOVE_1FFF)?;
    refuse_if(room < length_of_write(bytes.len()), TOO_LITTLE_ROOM)?;
    let mut script = Script::new();
    script.memory_write(address, bytes);
    Ok(script.events)
}

/// "A read sets its address first and ends its last byte high."
pub fn read_events(address: u16, count: usize, room: usize) -> Result<Vec<u8>, u8> {
    refuse_if(count > MOST_BYTES, MORE_THAN_256)?;
    refuse_if(count == 0, READ_OF_NONE)?;
    refuse_if(address > LAST_MEMORY_ADDRESS, ADDRESS_ABOVE_1FFF)?;
    refuse_if(room < length_of_read(count), TOO_LITTLE_ROOM)?;
    let mut script = Script::new();
    script.memory_read(address, count);
    Ok(script.events)
}

// ----- what the answers tell -----

/// "given the answer bytes, it says which data bytes were acknowledged, or which
/// bytes were read (none if a slave or address byte went unacknowledged)": 1 for
/// each data byte that was acknowledged, else 0. By ruling the words in brackets
/// hold for a write too: after such a byte every flag is 0. `room`: how many
/// flags the caller's buffer can hold.
pub fn write_told(count: usize, answers: &[u8], room: usize) -> Result<Vec<u8>, u8> {
    refuse_if(count > MOST_BYTES, MORE_THAN_256)?;
    refuse_if(room < count, TOO_LITTLE_ROOM)?;
    refuse_if(answers.len() != length_of_write(count), ANSWERS_NOT_AS_MANY)?;
    let bytes = between_start_and_stop(answers);
    let (addressing, data) = bytes.split_at(CLOCKS * BYTES_BEFORE_DATA);
    if !addressing.chunks(CLOCKS).all(is_acknowledged) {
        return Ok(vec![0; count]);
    }
    let data = data.chunks(CLOCKS);
    Ok(data
        .map(|clocks| u8::from(is_acknowledged(clocks)))
        .collect())
}

/// "or which bytes were read (none if a slave or address byte went
/// unacknowledged)". `room`: how many bytes the caller's buffer can hold.
pub fn read_told(count: usize, answers: &[u8], room: usize) -> Result<Vec<u8>, u8> {
    refuse_if(count > MOST_BYTES, MORE_THAN_256)?;
    refuse_if(count == 0, READ_OF_NONE)?;
    refuse_if(room < count, TOO_LITTLE_ROOM)?;
    refuse_if(answers.len() != length_of_read(count), ANSWERS_NOT_AS_MANY)?;
    let (setting, reading) = answers.split_at(1 + CLOCKS * BYTES_BEFORE_DATA);
    let (slave, data) = between_start_and_stop(reading).split_at(CLOCKS);
    let mut addressing = setting[1..].chunks(CLOCKS).chain([slave]);
    if !addressing.all(is_acknowledged) {
        return Ok(Vec::new());
    }
    let data = data.chunks(CLOCKS);
    Ok(data.map(|clocks| byte_on_line(&clocks[..8])).collect())
}

/// The answers without the first and the last.
fn between_start_and_stop(answers: &[u8]) -> &[u8] {
    &answers[1..answers.len() - 1]
}

/// The line is low at the ninth clock, which the master leaves high.
fn is_acknowledged(nine_clocks: &[u8]) -> bool {
    !line_is_high(nine_clocks[8])
}

fn refuse_if(refused: bool, number: u8) -> Result<(), u8> {
    if refused {
        Err(number)
    } else {
        Ok(())
    }
}
