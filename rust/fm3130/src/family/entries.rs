// SPDX-License-Identifier: Apache-2.0
//! The archive's entries of the family, on slices of any length.

use super::refusal::Refusal;
use super::size::Size;
use super::REGISTER_COUNT;
use crate::{selector, IMAGE_BYTES};
use fm3130_sys as archive;

/// Writes the image of the fresh state, which is the same for both sizes: power on, no transfer, the
/// memory's address 0000h, the companion's 09h, POR and LB 1.
///
/// # Errors
///
/// [`Refusal::Image`] if the image is not 64 bytes; then it has not changed.
///
/// ```
/// use fm3130::family;
///
/// let mut image = [0; 64];
/// assert_eq!(family::fresh(&mut image), Ok(()));
/// assert_eq!(image[..2], [0x60, 0x00]);
/// assert_eq!(family::fresh(&mut image[1..]), Err(family::Refusal::Image));
/// ```
pub fn fresh(image: &mut [u8]) -> Result<(), Refusal> {
    Refusal::outcome_of(archive::fm31_fresh(image))
}

/// The image of the fresh state.
pub(super) fn fresh_image() -> [u8; IMAGE_BYTES] {
    let mut image = [0; IMAGE_BYTES];
    // 64 bytes are not refused. Were they, zeros would stay, which every entry refuses by number 2.
    fresh(&mut image).map_or([0; IMAGE_BYTES], |()| image)
}

/// Runs a list of events on a state image and a memory of a size; the answers go to the first bytes
/// of `answers`, the others stay.
///
/// # Errors
///
/// [`Refusal::MemoryLength`], [`Refusal::Image`], [`Refusal::UnknownEvent`] or
/// [`Refusal::ShortAnswers`], the first that applies; then no buffer has changed.
///
/// ```
/// use fm3130::family::{self, Refusal, Size};
///
/// let (mut image, mut memory, mut answers) = ([0; 64], [0; 8192], [7; 3]);
/// family::fresh(&mut image)?;
/// family::run(Size::Kb64, &mut image, &mut memory, &[8, 9], &mut answers)?;
/// assert_eq!(answers, [1, 1, 7]);
/// assert_eq!(
///     family::run(Size::Kb256, &mut image, &mut memory, &[8, 9], &mut answers),
///     Err(Refusal::MemoryLength)
/// );
/// # Ok::<(), Refusal>(())
/// ```
pub fn run(
    size: Size,
    image: &mut [u8],
    memory: &mut [u8],
    events: &[u8],
    answers: &mut [u8],
) -> Result<(), Refusal> {
    Refusal::outcome_of(match size {
        Size::Kb64 => archive::fm3164_run(image, memory, events, answers),
        Size::Kb256 => archive::fm31256_run(image, memory, events, answers),
    })
}

/// Does one event on a state image and a memory of a size; its answer goes to the first byte of
/// `told`, the others stay.
///
/// # Errors
///
/// [`Refusal::MemoryLength`], [`Refusal::Image`], [`Refusal::UnknownEvent`] or
/// [`Refusal::ShortAnswers`] (no byte at all), the first that applies; then no buffer has changed.
///
/// ```
/// use fm3130::family::{self, event, Refusal, Size};
///
/// let (mut image, mut memory, mut told) = ([0; 64], [0; 32768], [7; 2]);
/// family::fresh(&mut image)?;
/// family::step(Size::Kb256, &mut image, &mut memory, event::CLOCK_LOW, &mut told)?;
/// assert_eq!(told, [0, 7]);
/// assert_eq!(
///     family::step(Size::Kb256, &mut image, &mut memory, event::TICK, &mut []),
///     Err(Refusal::ShortAnswers)
/// );
/// # Ok::<(), Refusal>(())
/// ```
pub fn step(
    size: Size,
    image: &mut [u8],
    memory: &mut [u8],
    event: u8,
    told: &mut [u8],
) -> Result<(), Refusal> {
    let event = u64::from(event);
    Refusal::outcome_of(match size {
        Size::Kb64 => archive::fm3164_step(image, memory, event, told),
        Size::Kb256 => archive::fm31256_step(image, memory, event, told),
    })
}

/// A part of the memory or of the 16 registers, never a copy; see [`crate::selector`]. Register 09h is
/// at 0. Of the image only the length is tested.
///
/// # Errors
///
/// [`Refusal::MemoryLength`], [`Refusal::Image`], [`Refusal::Selector`] or [`Refusal::PastTheEnd`],
/// the first that applies.
///
/// ```
/// use fm3130::family::{self, Refusal, Size};
/// use fm3130::selector;
///
/// let (image, memory) = ([0; 64], [7; 32768]);
/// let view = |selector, start, length| {
///     family::view(Size::Kb256, &image, &memory, selector, start, length)
/// };
/// assert_eq!(view(selector::MEMORY, 32767, 1)?, [7]);
/// assert_eq!(view(selector::REGISTERS, 15, 1)?, [0]);
/// assert_eq!(view(selector::REGISTERS, 15, 2), Err(Refusal::PastTheEnd));
/// assert_eq!(view(2, 0, 0), Err(Refusal::Selector));
/// # Ok::<(), Refusal>(())
/// ```
pub fn view<'part>(
    size: Size,
    image: &'part [u8],
    memory: &'part [u8],
    selector: u64,
    start: u64,
    length: u64,
) -> Result<&'part [u8], Refusal> {
    Refusal::outcome_of(match size {
        Size::Kb64 => archive::fm3164_view_number(image, memory, selector, start, length),
        Size::Kb256 => archive::fm31256_view_number(image, memory, selector, start, length),
    })?;
    let registers = image.get(..REGISTER_COUNT).ok_or(Refusal::Image)?;
    selector::shown(memory, registers, selector, start, length).ok_or(Refusal::PastTheEnd)
}
