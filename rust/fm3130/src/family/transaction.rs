// SPDX-License-Identifier: Apache-2.0
//! Whole transactions of a master with a part of the family, and what their answers tell.

use super::event;

/// The slave byte of a memory for writing, of a device with select bits 00.
pub const MEMORY: u8 = 0xA0;
/// The slave byte of a companion for writing, of a device with select bits 00.
pub const COMPANION: u8 = 0xD0;
/// The last bit of a slave byte asks for reading.
const READ: u8 = 0x01;

/// The clocks of a byte.
const CLOCKS_OF_A_BYTE: usize = 9;

/// A Start, the bytes that name a place, data bytes and a Stop. Returns for each data byte whether it
/// was acknowledged, or why the events were refused.
pub fn write<Refused>(
    place: &[u8],
    bytes: &[u8],
    answers_to: impl FnOnce(&[u8]) -> Result<Vec<u8>, Refused>,
) -> Result<Vec<bool>, Refused> {
    let mut events = vec![event::START];
    for byte in place.iter().chain(bytes) {
        events.extend(event::written_byte(*byte));
    }
    events.push(event::STOP);
    let answers = answers_to(&events)?;
    let flags = acknowledges(&answers[1..]);
    let (named, told) = flags.split_at(place.len());
    Ok(match named.iter().all(|flag| *flag) {
        true => told.to_vec(),
        false => vec![false; bytes.len()],
    })
}

/// A Start, the bytes that name a place, a repeated Start, the slave byte for reading, data bytes, the
/// last of them not acknowledged, and a Stop. Returns the data bytes, or why the events were refused.
pub fn read<Refused>(
    place: &[u8],
    count: usize,
    answers_to: impl FnOnce(&[u8]) -> Result<Vec<u8>, Refused>,
) -> Result<Vec<u8>, Refused> {
    let mut events = vec![event::START];
    for byte in place {
        events.extend(event::written_byte(*byte));
    }
    let again = events.len();
    events.push(event::START);
    events.extend(event::written_byte(place[0] | READ));
    let data = events.len();
    for left in (0..count).rev() {
        events.extend(event::read_byte(left > 0));
    }
    events.push(event::STOP);
    let answers = answers_to(&events)?;
    let mut named = acknowledges(&answers[1..again]);
    named.extend(acknowledges(&answers[again + 1..data]));
    Ok(match named.iter().all(|flag| *flag) {
        true => bytes_of(&answers[data..]),
        false => Vec::new(),
    })
}

/// Whether each whole byte in some answers was acknowledged: the line is low at its ninth clock.
fn acknowledges(answers: &[u8]) -> Vec<bool> {
    let bytes = answers.chunks_exact(CLOCKS_OF_A_BYTE);
    bytes.map(|clocks| clocks[8] & 1 == 0).collect()
}

/// The value of each whole byte in some answers, high bit first.
fn bytes_of(answers: &[u8]) -> Vec<u8> {
    let bytes = answers.chunks_exact(CLOCKS_OF_A_BYTE);
    bytes
        .map(|clocks| clocks[..8].iter().fold(0, |byte, bit| byte << 1 | bit & 1))
        .collect()
}
