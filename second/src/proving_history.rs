// SPDX-License-Identifier: Apache-2.0
//! The proving record (02, number 11) from the history: all reports follow by
//! looking back over the whole list of events. [`crate::proving_record`] says the
//! same event by event.

use crate::device::{
    Device, Phase, CLOCK_HIGH, CLOCK_LOW, POWER_LOST_WITHOUT_BACKUP, POWER_LOST_WITH_BACKUP, START,
    STOP, TICK,
};
use crate::host::{byte_on_line, line_is_high};
use crate::proving_record::{lamp_at, transfer_is_on, LAMPS, LIT, TICKS_TO_DARK};
use crate::state::State;

/// What is known of one event.
#[derive(Clone, Copy, Debug, PartialEq, Eq)]
pub struct Moment {
    /// The device's state before the event.
    pub before: State,
    pub event: u8,
    pub answer: u8,
    /// At a Clock: "the device itself pulls the ... line low, whatever the master
    /// does there".
    pub device_pulls: bool,
}

/// Runs the events of a list and notes what is to be known of them.
pub fn watch(device: &mut Device, events: &[u8]) -> Vec<Moment> {
    let mut history = Vec::new();
    for event in events {
        let before = State::of(device);
        let device_pulls = is_clock(*event) && pulls_line_low(device);
        let answer = device.event(*event);
        history.push(Moment {
            before,
            event: *event,
            answer,
            device_pulls,
        });
    }
    history
}

/// Whether the line would be low at a Clock that the master leaves high.
fn pulls_line_low(device: &Device) -> bool {
    // between transfers a Clock's line is the master's
    !device.between_transfers() && !line_is_high(device.clone().event(CLOCK_HIGH))
}

fn is_clock(event: u8) -> bool {
    event == CLOCK_LOW || event == CLOCK_HIGH
}

/// Events at which no byte goes on.
fn ends_a_byte(event: u8) -> bool {
    event == START || event == STOP || is_power_loss(event)
}

fn is_power_loss(event: u8) -> bool {
    event == POWER_LOST_WITH_BACKUP || event == POWER_LOST_WITHOUT_BACKUP
}

// ----- bytes -----

/// The clocks of one byte, whole or not, as places in the history.
#[derive(Clone, Debug)]
struct Byte {
    places: Vec<usize>,
    /// Clocks of it that were done before the history began.
    clocks_before_history: usize,
    /// Where the transfer stands at its first clock in the history.
    phase: Phase,
}

impl Byte {
    fn clocks_done(&self) -> usize {
        self.clocks_before_history + self.places.len()
    }

    /// All nine clocks are in the history.
    fn is_whole(&self) -> bool {
        self.places.len() == 9
    }
}

/// The bytes that lie before a place and after the last Start, Stop or power loss
/// before it. Clocks are counted in nines while a transfer is on.
fn bytes_before(history: &[Moment], place: usize) -> Vec<Byte> {
    let last_end = (0..place)
        .rev()
        .find(|earlier| ends_a_byte(history[*earlier].event));
    let first = last_end.map_or(0, |end| end + 1);
    let mut clocks = (first..place).filter(|at| is_clock(history[*at].event));
    let mut done_before = match last_end {
        None => clocks_before_history(history),
        Some(_) => 0,
    };
    let mut bytes = Vec::new();
    loop {
        let places: Vec<usize> = clocks.by_ref().take(9 - done_before).collect();
        let start = places.first().copied().unwrap_or(first);
        let no_clocks = places.len() + done_before == 0;
        if no_clocks || !transfer_is_on(&history[start].before) {
            return bytes;
        }
        bytes.push(Byte {
            places,
            clocks_before_history: done_before,
            phase: history[start].before.transfer.phase,
        });
        done_before = 0;
    }
}

/// A history may begin inside a byte.
fn clocks_before_history(history: &[Moment]) -> usize {
    match history.first() {
        Some(first) if transfer_is_on(&first.before) => usize::from(first.before.transfer.clocks),
        _ => 0,
    }
}

// ----- failures -----

/// "The bus fails ... at a Start or Stop with 1 to 8 clocks of a byte done, at an
/// acknowledge the device does not give, and at event 5 or 6."
fn bus_fails_at(history: &[Moment], place: usize) -> bool {
    let event = history[place].event;
    match event {
        START | STOP => bytes_before(history, place)
            .last()
            .is_some_and(|byte| byte.clocks_done() < 9),
        CLOCK_LOW | CLOCK_HIGH => {
            is_ninth_clock_of_byte_received(history, place) && !history[place].device_pulls
        }
        _ => is_power_loss(event),
    }
}

/// "Bits come high bit first; the ninth clock is the acknowledge": of a byte that
/// the device does not send.
fn is_ninth_clock_of_byte_received(history: &[Moment], place: usize) -> bool {
    bytes_before(history, place + 1).last().is_some_and(|byte| {
        byte.clocks_done() == 9
            && byte.places.last() == Some(&place)
            && !matches!(byte.phase, Phase::ReadData(_))
    })
}

fn last_failure(history: &[Moment]) -> Option<usize> {
    (0..history.len())
        .rev()
        .find(|place| bus_fails_at(history, *place))
}

// ----- whole reads -----

/// "A whole read has all nine clocks and that Stop."
#[derive(Clone, Copy, Debug)]
struct WholeRead {
    lamp: usize,
    first_clock: usize,
    stop: usize,
    byte: u8,
}

/// All whole reads of lamps, in order.
fn whole_reads(history: &[Moment]) -> Vec<WholeRead> {
    let mut reads = Vec::new();
    for place in 0..=history.len() {
        let a_byte_ends = place == history.len() || ends_a_byte(history[place].event);
        if a_byte_ends {
            let bytes = bytes_before(history, place);
            reads.extend(bytes.iter().filter_map(|byte| whole_read(history, byte)));
        }
    }
    reads
}

/// The read that a byte is part of, if it is whole. The byte is what the line
/// showed in its eight clocks; its lamp is that of the memory address at the
/// first.
fn whole_read(history: &[Moment], byte: &Byte) -> Option<WholeRead> {
    let Phase::ReadData(source) = byte.phase else {
        return None;
    };
    if !byte.is_whole() {
        return None;
    }
    let first_clock = byte.places[0];
    let shown: Vec<u8> = byte.places[..8]
        .iter()
        .map(|place| history[*place].answer)
        .collect();
    Some(WholeRead {
        lamp: lamp_at(source, history[first_clock].before.memory_address)?,
        first_clock,
        stop: stop_after(history, byte.places[8])?,
        byte: byte_on_line(&shown),
    })
}

/// "the Stop that ended it"; further Starts may come before it.
fn stop_after(history: &[Moment], place: usize) -> Option<usize> {
    (place..history.len()).find(|later| history[*later].event == STOP)
}

// ----- reports -----

/// "A report is lit exactly if the last whole read of its byte, all of it after
/// the last bus failure, gave 1 and fewer than three tick events, counted by the
/// device or not, have passed since the Stop that ended it."
pub fn reports(history: &[Moment]) -> [bool; LAMPS] {
    let failure = last_failure(history);
    let mut lit = [false; LAMPS];
    for read in whole_reads(history) {
        let after_failure = failure.is_none_or(|failure| read.first_clock > failure);
        if after_failure {
            // a later read of the same byte takes the place of an earlier one
            lit[read.lamp] =
                read.byte == LIT && ticks_after(history, read.stop) < TICKS_TO_DARK as usize;
        }
    }
    lit
}

fn ticks_after(history: &[Moment], place: usize) -> usize {
    let later = &history[place + 1..];
    later.iter().filter(|moment| moment.event == TICK).count()
}
