// SPDX-License-Identifier: Apache-2.0
//! A part of the family that owns its state image and its memory.

use std::fmt;
use std::marker::PhantomData;

use super::refusal::Refusal;
use super::size::{ChosenSize, Kb256, Kb64, Size};
use super::state::{Counts, State};
use super::transaction::{self, COMPANION, MEMORY};
use super::{entries, REGISTER_COUNT};
use crate::state::{Phase, Power};
use crate::{IMAGE_BYTES, UNANSWERED};

/// The 64Kb part: 8,192 bytes of memory.
pub type Fm3164 = Part<Kb64>;

/// The 256Kb part: 32,768 bytes of memory.
pub type Fm31256 = Part<Kb256>;

/// One part of the family: a state image, and the memory of its size.
///
/// The image is always that of a well-formed state: only the archive writes it, and
/// [`Part::from_parts`] lets the archive judge one that comes from outside.
#[derive(Clone, PartialEq, Eq)]
pub struct Part<Chosen: ChosenSize> {
    image: [u8; IMAGE_BYTES],
    memory: Vec<u8>,
    size: PhantomData<Chosen>,
}

impl<Chosen: ChosenSize> Part<Chosen> {
    /// The part's size.
    pub const SIZE: Size = Chosen::SIZE;

    /// The fresh device; its memory is all 0.
    ///
    /// ```
    /// use fm3130::family::{Fm31256, Fm3164};
    ///
    /// assert_eq!(Fm3164::fresh().registers()[0], 0x60); // POR and LB
    /// assert_eq!(Fm3164::fresh().memory().len(), 8_192);
    /// assert_eq!(Fm31256::fresh().memory().len(), 32_768);
    /// ```
    pub fn fresh() -> Part<Chosen> {
        Part {
            image: entries::fresh_image(),
            memory: vec![0; Chosen::SIZE.bytes()],
            size: PhantomData,
        }
    }

    /// A device made of an image and a memory, as another device or a C host left them.
    ///
    /// # Errors
    ///
    /// [`Refusal::MemoryLength`] or [`Refusal::Image`].
    ///
    /// ```
    /// use fm3130::family::{Fm31256, Fm3164, Refusal};
    ///
    /// let device = Fm3164::fresh();
    /// assert_eq!(Fm3164::from_parts(device.image(), device.memory()), Ok(device.clone()));
    /// assert_eq!(
    ///     Fm31256::from_parts(device.image(), device.memory()),
    ///     Err(Refusal::MemoryLength)
    /// );
    /// assert_eq!(Fm3164::from_parts(&[0; 64], device.memory()), Err(Refusal::Image));
    /// ```
    pub fn from_parts(image: &[u8], memory: &[u8]) -> Result<Part<Chosen>, Refusal> {
        if memory.len() != Chosen::SIZE.bytes() {
            return Err(Refusal::MemoryLength);
        }
        let mut device = Part {
            image: image.try_into().or(Err(Refusal::Image))?,
            memory: memory.to_vec(),
            size: PhantomData,
        };
        // An empty list changes nothing and is refused if no well-formed state writes the image.
        device.run_into(&[], &mut [])?;
        Ok(device)
    }

    /// Runs a list of events; returns an answer for each.
    ///
    /// # Errors
    ///
    /// [`Refusal::UnknownEvent`]; then no event was done.
    ///
    /// ```
    /// use fm3130::family::{event, Fm3164};
    ///
    /// let mut device = Fm3164::fresh();
    /// assert_eq!(device.run(&[event::START, event::EDGE_1, event::STOP])?, [1, 1, 1]);
    /// assert!(device.run(&[event::START, 10]).is_err());
    /// # Ok::<(), fm3130::family::Refusal>(())
    /// ```
    pub fn run(&mut self, events: &[u8]) -> Result<Vec<u8>, Refusal> {
        let mut answers = vec![UNANSWERED; events.len()];
        self.run_into(events, &mut answers)?;
        Ok(answers)
    }

    /// Runs a list of events; the answers go to the first bytes of `answers`, the others stay.
    ///
    /// # Errors
    ///
    /// [`Refusal::UnknownEvent`] or [`Refusal::ShortAnswers`]; then no event was done.
    ///
    /// ```
    /// use fm3130::family::{event, Fm3164, Refusal};
    ///
    /// let mut device = Fm3164::fresh();
    /// let mut answers = [7; 3];
    /// device.run_into(&[event::EDGE_1; 2], &mut answers)?;
    /// assert_eq!(answers, [1, 1, 7]);
    /// assert_eq!(device.run_into(&[event::TICK; 4], &mut answers), Err(Refusal::ShortAnswers));
    /// # Ok::<(), Refusal>(())
    /// ```
    pub fn run_into(&mut self, events: &[u8], answers: &mut [u8]) -> Result<(), Refusal> {
        let (image, memory) = (&mut self.image, &mut self.memory[..]);
        entries::run(Chosen::SIZE, image, memory, events, answers)
    }

    /// Does one event; returns its answer.
    ///
    /// # Errors
    ///
    /// [`Refusal::UnknownEvent`]; then nothing was done.
    ///
    /// ```
    /// use fm3130::family::{event, Fm31256};
    ///
    /// let mut device = Fm31256::fresh();
    /// assert_eq!(device.step(event::EDGE_2)?, 1);
    /// assert_eq!(device.counts().two(), 1);
    /// # Ok::<(), fm3130::family::Refusal>(())
    /// ```
    pub fn step(&mut self, event: u8) -> Result<u8, Refusal> {
        let mut told = [UNANSWERED];
        let (image, memory) = (&mut self.image, &mut self.memory[..]);
        entries::step(Chosen::SIZE, image, memory, event, &mut told)?;
        Ok(told[0])
    }

    /// Writes registers over the bus, from an address on and over 18h to 09h: one whole transaction.
    /// Returns for each byte whether the device acknowledged it.
    ///
    /// None is acknowledged if the address is outside 09h to 18h, or without power. A byte for a locked
    /// serial number is acknowledged and not stored.
    ///
    /// # Errors
    ///
    /// That of [`Part::run`], should it refuse the transaction's events; then nothing was done.
    ///
    /// ```
    /// use fm3130::family::{registers, Fm3164};
    ///
    /// let mut device = Fm3164::fresh();
    /// assert_eq!(device.write_registers(registers::SERIAL, &[1, 2, 3])?, [true; 3]);
    /// assert_eq!(device.state().serial(), [1, 2, 3, 0, 0, 0, 0, 0]);
    /// assert_eq!(device.write_registers(0x08, &[1])?, [false]);
    /// # Ok::<(), fm3130::family::Refusal>(())
    /// ```
    pub fn write_registers(&mut self, address: u8, bytes: &[u8]) -> Result<Vec<bool>, Refusal> {
        transaction::write(&[COMPANION, address], bytes, |events| self.run(events))
    }

    /// Reads so many registers over the bus, from an address on and over 18h to 09h: one whole
    /// transaction. Returns the bytes; none if the device did not acknowledge its address.
    ///
    /// # Errors
    ///
    /// That of [`Part::run`], should it refuse the transaction's events; then nothing was done.
    ///
    /// ```
    /// use fm3130::family::{registers, Fm3164};
    ///
    /// let mut device = Fm3164::fresh();
    /// assert_eq!(device.read_registers(registers::LAST, 2)?, [0x00, 0x60]);
    /// assert_eq!(device.read_registers(0x19, 2)?, []);
    /// # Ok::<(), fm3130::family::Refusal>(())
    /// ```
    pub fn read_registers(&mut self, address: u8, count: usize) -> Result<Vec<u8>, Refusal> {
        transaction::read(&[COMPANION, address], count, |events| self.run(events))
    }

    /// Writes bytes to the memory over the bus, from an address on and over its end to 0000h: one whole
    /// transaction. Returns for each byte whether the device acknowledged it. Address bits above the
    /// size are ignored.
    ///
    /// # Errors
    ///
    /// That of [`Part::run`], should it refuse the transaction's events; then nothing was done.
    ///
    /// ```
    /// use fm3130::family::Fm31256;
    ///
    /// let mut device = Fm31256::fresh();
    /// assert_eq!(device.write_memory(0x7FFF, &[0x5A, 0xC3])?, [true, true]);
    /// assert_eq!((device.memory()[0x7FFF], device.memory()[0x0000]), (0x5A, 0xC3));
    /// # Ok::<(), fm3130::family::Refusal>(())
    /// ```
    pub fn write_memory(&mut self, address: u16, bytes: &[u8]) -> Result<Vec<bool>, Refusal> {
        let [high, low] = address.to_be_bytes();
        transaction::write(&[MEMORY, high, low], bytes, |events| self.run(events))
    }

    /// Reads so many bytes of the memory over the bus, from an address on: one whole transaction.
    /// Returns the bytes; none if the device did not acknowledge.
    ///
    /// # Errors
    ///
    /// That of [`Part::run`], should it refuse the transaction's events; then nothing was done.
    ///
    /// ```
    /// use fm3130::family::Fm3164;
    ///
    /// let mut device = Fm3164::fresh();
    /// device.write_memory(0x1FFF, &[0x5A, 0xC3])?;
    /// assert_eq!(device.read_memory(0xFFFF, 2)?, [0x5A, 0xC3]);
    /// # Ok::<(), fm3130::family::Refusal>(())
    /// ```
    pub fn read_memory(&mut self, address: u16, count: usize) -> Result<Vec<u8>, Refusal> {
        let [high, low] = address.to_be_bytes();
        transaction::read(&[MEMORY, high, low], count, |events| self.run(events))
    }

    /// The state image: its first 16 bytes are the registers.
    ///
    /// ```
    /// let device = fm3130::family::Fm3164::fresh();
    /// assert_eq!(device.image()[..16], device.registers()[..]);
    /// ```
    pub fn image(&self) -> &[u8; IMAGE_BYTES] {
        &self.image
    }

    /// The memory.
    ///
    /// ```
    /// assert_eq!(fm3130::family::Fm3164::fresh().memory(), [0; 8192]);
    /// ```
    pub fn memory(&self) -> &[u8] {
        &self.memory
    }

    /// The memory, to preset it from outside the bus. FRAM may hold any bytes.
    ///
    /// ```
    /// let mut device = fm3130::family::Fm31256::fresh();
    /// device.memory_mut().fill(0xFF);
    /// assert_eq!(device.memory()[0x7FFF], 0xFF);
    /// ```
    pub fn memory_mut(&mut self) -> &mut [u8] {
        &mut self.memory
    }

    /// Registers 09h to 18h; [`State::register`] finds one by its address.
    ///
    /// ```
    /// use fm3130::family::{registers, Fm3164};
    ///
    /// let device = Fm3164::fresh();
    /// assert_eq!(device.registers()[0], registers::POR | registers::LB);
    /// ```
    pub fn registers(&self) -> &[u8; REGISTER_COUNT] {
        match self.image.first_chunk() {
            Some(registers) => registers,
            None => &[0; REGISTER_COUNT],
        }
    }

    /// A part of the memory or of the registers, never a copy; see [`crate::selector`].
    ///
    /// # Errors
    ///
    /// [`Refusal::Selector`] or [`Refusal::PastTheEnd`].
    ///
    /// ```
    /// use fm3130::family::{Fm3164, Refusal};
    /// use fm3130::selector;
    ///
    /// let device = Fm3164::fresh();
    /// assert_eq!(device.view(selector::REGISTERS, 0, 2)?, [0x60, 0x00]);
    /// assert_eq!(device.view(selector::MEMORY, 8192, 1), Err(Refusal::PastTheEnd));
    /// # Ok::<(), Refusal>(())
    /// ```
    pub fn view(&self, selector: u64, start: u64, length: u64) -> Result<&[u8], Refusal> {
        let (image, memory) = (&self.image, &self.memory);
        entries::view(Chosen::SIZE, image, memory, selector, start, length)
    }

    /// All that the image holds, taken apart.
    ///
    /// ```
    /// let state = fm3130::family::Fm3164::fresh().state();
    /// assert!(!state.is_locked() && !state.is_frozen() && !state.is_joined());
    /// ```
    pub fn state(&self) -> State {
        State::of_image(&self.image)
    }

    /// The two counters as they run.
    ///
    /// ```
    /// use fm3130::family::{event, Fm3164};
    ///
    /// let mut device = Fm3164::fresh();
    /// device.run(&[event::EDGE_1; 300])?;
    /// assert_eq!(device.counts().one(), 300);
    /// # Ok::<(), fm3130::family::Refusal>(())
    /// ```
    pub fn counts(&self) -> Counts {
        self.state().counts()
    }

    /// Which supplies are there.
    ///
    /// ```
    /// use fm3130::family::{event, Fm3164};
    /// use fm3130::Power;
    ///
    /// let mut device = Fm3164::fresh();
    /// device.step(event::POWER_LOST_WITH_BACKUP)?;
    /// assert_eq!(device.power(), Power::Backup);
    /// # Ok::<(), fm3130::family::Refusal>(())
    /// ```
    pub fn power(&self) -> Power {
        self.state().power
    }

    /// What byte is under way on the bus.
    ///
    /// ```
    /// assert_eq!(fm3130::family::Fm3164::fresh().phase(), fm3130::Phase::Idle);
    /// ```
    pub fn phase(&self) -> Phase {
        self.state().phase
    }
}

impl<Chosen: ChosenSize> Default for Part<Chosen> {
    fn default() -> Part<Chosen> {
        Part::fresh()
    }
}

/// The state in words; the memory would hide it.
impl<Chosen: ChosenSize> fmt::Debug for Part<Chosen> {
    fn fmt(&self, formatter: &mut fmt::Formatter<'_>) -> fmt::Result {
        formatter
            .debug_struct(match Chosen::SIZE {
                Size::Kb64 => "Fm3164",
                Size::Kb256 => "Fm31256",
            })
            .field("state", &self.state())
            .finish_non_exhaustive()
    }
}

#[cfg(test)]
mod tests {
    use super::*;

    /// A device that no safe code makes: its image is none of a state's.
    fn spoilt<Chosen: ChosenSize>() -> Part<Chosen> {
        Part {
            image: [0; IMAGE_BYTES],
            ..Part::fresh()
        }
    }

    fn refusals_are_returned<Chosen: ChosenSize>() {
        let mut device = spoilt::<Chosen>();
        let refused = Refusal::Image;
        assert_eq!(device.run(&[0, 1]), Err(refused));
        assert_eq!(device.step(0), Err(refused));
        assert_eq!(device.write_memory(0, &[1]), Err(refused));
        assert_eq!(device.read_memory(0, 1), Err(refused));
        assert_eq!(device.write_registers(0x11, &[1]), Err(refused));
        assert_eq!(device.read_registers(0x11, 1), Err(refused));
        assert_eq!(device, spoilt());
    }

    #[test]
    fn a_refusal_is_never_an_acknowledge() {
        refusals_are_returned::<Kb64>();
        refusals_are_returned::<Kb256>();
    }
}
