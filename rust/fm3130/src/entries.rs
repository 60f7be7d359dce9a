// SPDX-License-Identifier: Apache-2.0
//! The archive's entries on slices of any length.

use crate::line::NextLine;
use crate::refusal::Refusal;
use crate::report::Report;
use crate::{selector, REGISTER_COUNT};
use fm3130_sys as archive;

/// Runs a list of events on a state image and a memory; the answers go to the first bytes of
/// `answers`, the others stay. Returns the number of events.
///
/// # Errors
///
/// [`Refusal::MemoryLength`], [`Refusal::Image`], [`Refusal::UnknownEvent`] or
/// [`Refusal::ShortAnswers`], the first that applies; then no buffer has changed.
///
/// ```
/// use fm3130::Refusal;
///
/// let (mut image, mut memory, mut answers) = ([0; 64], [0; 8192], [0; 4]);
/// fm3130::fresh(&mut image)?;
/// assert_eq!(fm3130::run(&mut image, &mut memory, &[0, 1], &mut answers), Ok(2));
/// assert_eq!(answers, [5, 5, 0, 0]);
/// assert_eq!(
///     fm3130::run(&mut image, &mut memory[1..], &[0, 1], &mut answers),
///     Err(Refusal::MemoryLength)
/// );
/// # Ok::<(), Refusal>(())
/// ```
pub fn run(
    image: &mut [u8],
    memory: &mut [u8],
    events: &[u8],
    answers: &mut [u8],
) -> Result<usize, Refusal> {
    let ran = archive::fm3130_run(image, memory, events, answers);
    // The count is the number of events, so it is a length of a slice and fits.
    Refusal::outcome_of(ran.number).map(|()| ran.count as usize)
}

/// Runs a list of events as [`run`] does, with the proving record's 20 bytes stepped along; returns the
/// report after the last event. 20 zeros are the record before any event.
///
/// # Errors
///
/// [`Refusal::MemoryLength`], [`Refusal::Image`] (of the image, or of bytes that hold no record),
/// [`Refusal::UnknownEvent`] or [`Refusal::ShortAnswers`], the first that applies; then no buffer has
/// changed, and no lamp may be shown lit.
///
/// ```
/// use fm3130::Refusal;
///
/// let (mut image, mut memory, mut answers, mut record) = ([0; 64], [0; 8192], [0; 2], [0; 20]);
/// fm3130::fresh(&mut image)?;
/// let report = fm3130::run_with_lamps(&mut image, &mut memory, &[0, 1], &mut answers, &mut record)?;
/// assert_eq!((report.0, answers), (0, [5, 5]));
/// assert_eq!(
///     fm3130::run_with_lamps(&mut image, &mut memory, &[0, 1], &mut answers, &mut record[1..]),
///     Err(Refusal::Image)
/// );
/// # Ok::<(), Refusal>(())
/// ```
pub fn run_with_lamps(
    image: &mut [u8],
    memory: &mut [u8],
    events: &[u8],
    answers: &mut [u8],
    record: &mut [u8],
) -> Result<Report, Refusal> {
    let shown = archive::fm3130_lamps(image, memory, events, answers, record);
    // The report is proved to be a byte: eight bits.
    Refusal::outcome_of(shown.number).map(|()| Report(shown.report as u8))
}

/// Does one event on a state image and a memory; its answer byte and the number of the field of the
/// calendar that it changed ([`crate::Rolled`]) go to the first two bytes of `told`, the others stay.
///
/// # Errors
///
/// [`Refusal::MemoryLength`], [`Refusal::Image`], [`Refusal::UnknownEvent`] or
/// [`Refusal::ShortAnswers`] (fewer than two bytes), the first that applies; then no buffer has
/// changed.
///
/// ```
/// use fm3130::{event, Refusal};
///
/// let (mut image, mut memory, mut told) = ([0; 64], [0; 8192], [0xEE; 3]);
/// fm3130::fresh(&mut image)?;
/// fm3130::step(&mut image, &mut memory, event::TICK, &mut told)?;
/// assert_eq!(told, [5, 0, 0xEE]); // the oscillator of a fresh device is halted
/// assert_eq!(
///     fm3130::step(&mut image, &mut memory, event::TICK, &mut told[..1]),
///     Err(Refusal::ShortAnswers)
/// );
/// # Ok::<(), Refusal>(())
/// ```
pub fn step(
    image: &mut [u8],
    memory: &mut [u8],
    event: u8,
    told: &mut [u8],
) -> Result<(), Refusal> {
    let event = u64::from(event);
    Refusal::outcome_of(archive::fm3130_step(image, memory, event, told))
}

/// What the device of an image will do to the line of the next Clock, and of the one after it. Nothing
/// is changed.
///
/// # Errors
///
/// [`Refusal::MemoryLength`] or [`Refusal::Image`], the first that applies.
///
/// ```
/// use fm3130::{NextLine, Refusal};
///
/// let (mut image, memory) = ([0; 64], [0; 8192]);
/// fm3130::fresh(&mut image)?;
/// assert_eq!(fm3130::next_line(&image, &memory), Ok(NextLine::default())); // no transfer
/// assert_eq!(fm3130::next_line(&image[1..], &memory), Err(Refusal::Image));
/// # Ok::<(), Refusal>(())
/// ```
pub fn next_line(image: &[u8], memory: &[u8]) -> Result<NextLine, Refusal> {
    NextLine::of_word(archive::fm3130_line(image, memory))
}

/// Does many ticks on a state image in one call: the image is left as [`run`] leaves it on a list of
/// so many ticks. 0 ticks change nothing.
///
/// # Errors
///
/// [`Refusal::Image`] or [`Refusal::TooManyTicks`] (more than [`crate::MOST_TICKS`]), the first that
/// applies; then the image has not changed.
///
/// ```
/// use fm3130::{Refusal, MOST_TICKS};
///
/// let mut image = [0; 64];
/// fm3130::fresh(&mut image)?;
/// image[1] = 0x00; // the oscillator runs
/// fm3130::catch_up(&mut image, MOST_TICKS)?;
/// assert_eq!(image[15..22], [0x00, 0x00, 0x00, 3, 0x01, 0x01, 0x01]); // 01/01/01, day 3
/// assert_eq!(fm3130::catch_up(&mut image, MOST_TICKS + 1), Err(Refusal::TooManyTicks));
/// assert_eq!(fm3130::catch_up(&mut image[1..], MOST_TICKS + 1), Err(Refusal::Image));
/// # Ok::<(), Refusal>(())
/// ```
pub fn catch_up(image: &mut [u8], ticks: u64) -> Result<(), Refusal> {
    Refusal::outcome_of(archive::fm3130_catch_up(image, ticks))
}

/// A master asks for the bus. The bus byte is the number of the master that holds it, or 0:
/// [`crate::masters`].
///
/// # Errors
///
/// [`Refusal::Image`] if `bus` is not one byte of at most 2, or `master` neither 1 nor 2;
/// [`Refusal::NotHeld`] while the other holds the bus. Then the byte has not changed.
///
/// ```
/// use fm3130::Refusal;
///
/// let mut bus = [0];
/// assert_eq!(fm3130::ask(&mut bus, 2), Ok(()));
/// assert_eq!(bus, [2]);
/// assert_eq!(fm3130::ask(&mut bus, 1), Err(Refusal::NotHeld));
/// assert_eq!(fm3130::ask(&mut bus, 3), Err(Refusal::Image));
/// ```
pub fn ask(bus: &mut [u8], master: u64) -> Result<(), Refusal> {
    Refusal::outcome_of(archive::fm3130_ask(bus, master))
}

/// A master runs a list of events, as [`run`] does; the bus byte becomes 0 if the events free the
/// bus: the last Stop, event 5 or event 6 has no Start after it. Returns the number of events.
///
/// # Errors
///
/// [`Refusal::MemoryLength`], [`Refusal::Image`] (also by `bus` or `master`, as in [`ask`]),
/// [`Refusal::UnknownEvent`], [`Refusal::NotHeld`] or [`Refusal::ShortAnswers`], the first in this
/// order; then no buffer has changed.
///
/// ```
/// use fm3130::Refusal;
///
/// let (mut image, mut memory, mut bus, mut answers) = ([0; 64], [0; 8192], [1], [0; 2]);
/// fm3130::fresh(&mut image)?;
/// let by_other = fm3130::call(&mut bus, 2, &mut image, &mut memory, &[0, 1], &mut answers);
/// assert_eq!(by_other, Err(Refusal::NotHeld));
/// let by_holder = fm3130::call(&mut bus, 1, &mut image, &mut memory, &[0, 1], &mut answers);
/// assert_eq!((by_holder, bus), (Ok(2), [0]));
/// # Ok::<(), Refusal>(())
/// ```
pub fn call(
    bus: &mut [u8],
    master: u64,
    image: &mut [u8],
    memory: &mut [u8],
    events: &[u8],
    answers: &mut [u8],
) -> Result<usize, Refusal> {
    let ran = archive::fm3130_call(bus, master, image, memory, events, answers);
    // The count is the number of events, so it is a length of a slice and fits.
    Refusal::outcome_of(ran.number).map(|()| ran.count as usize)
}

/// Writes the image of the fresh state: power on, no transfer, both addresses 0.
///
/// # Errors
///
/// [`Refusal::Image`] if the image is not 64 bytes; then it has not changed.
///
/// ```
/// let mut image = [0; 64];
/// assert_eq!(fm3130::fresh(&mut image), Ok(()));
/// assert_eq!(image[..8], [0x90, 0x80, 0, 0, 0, 1, 1, 1]);
/// assert_eq!(fm3130::fresh(&mut image[1..]), Err(fm3130::Refusal::Image));
/// ```
pub fn fresh(image: &mut [u8]) -> Result<(), Refusal> {
    Refusal::outcome_of(archive::fm3130_fresh(image))
}

/// Puts a state image right that holds an impossible date or time: registers 02h to 08h and, by
/// itself but by the same rule, the core. Each field that is out of range on its own goes to its
/// lowest legal figure, then a date beyond its month's end goes to the last day; all else stays.
///
/// For each register changed, in register order, `changes` gets its number, the old byte and the new
/// byte ([`crate::CHANGE_BYTES`]); bytes past them stay. Returns how many registers were changed.
/// [`crate::CHANGES_ROOM`] bytes are always enough.
///
/// # Errors
///
/// [`Refusal::Image`] or [`Refusal::ShortAnswers`] (fewer bytes than the list has), the first that
/// applies; then no buffer has changed.
///
/// ```
/// use fm3130::Refusal;
///
/// let (mut image, mut changes) = ([0; 64], [0xEE; 4]);
/// fm3130::fresh(&mut image)?;
/// image[6..8].copy_from_slice(&[0x31, 0x04]); // 31 April
/// assert_eq!(fm3130::mend(&mut image, &mut []), Err(Refusal::ShortAnswers));
/// assert_eq!(fm3130::mend(&mut image, &mut changes), Ok(1));
/// assert_eq!(changes, [0x06, 0x31, 0x30, 0xEE]);
/// assert_eq!(fm3130::mend(&mut image, &mut []), Ok(0)); // once is enough
/// # Ok::<(), Refusal>(())
/// ```
pub fn mend(image: &mut [u8], changes: &mut [u8]) -> Result<usize, Refusal> {
    let mended = archive::fm3130_mend(image, changes);
    // The count is at most 7, so it fits.
    Refusal::outcome_of(mended.number).map(|()| mended.count as usize)
}

/// A part of the memory or of the registers, never a copy. Of the image only the length is tested.
///
/// # Errors
///
/// [`Refusal::MemoryLength`], [`Refusal::Image`], [`Refusal::Selector`] or [`Refusal::PastTheEnd`],
/// the first that applies.
///
/// ```
/// use fm3130::{selector, Refusal};
///
/// let (image, memory) = ([0; 64], [7; 8192]);
/// assert_eq!(fm3130::view(&image, &memory, selector::MEMORY, 8190, 2)?, [7, 7]);
/// assert_eq!(fm3130::view(&image, &memory, selector::MEMORY, 8192, 0)?, []);
/// assert_eq!(fm3130::view(&image, &memory, selector::REGISTERS, 14, 2), Err(Refusal::PastTheEnd));
/// assert_eq!(fm3130::view(&image, &memory, 2, 0, 0), Err(Refusal::Selector));
/// # Ok::<(), Refusal>(())
/// ```
pub fn view<'part>(
    image: &'part [u8],
    memory: &'part [u8],
    selector: u64,
    start: u64,
    length: u64,
) -> Result<&'part [u8], Refusal> {
    let number = archive::fm3130_view_number(image, memory, selector, start, length);
    Refusal::outcome_of(number)?;
    let registers = image.get(..REGISTER_COUNT).ok_or(Refusal::Image)?;
    selector::shown(memory, registers, selector, start, length).ok_or(Refusal::PastTheEnd)
}
