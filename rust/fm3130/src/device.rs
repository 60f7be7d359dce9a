// SPDX-License-Identifier: Apache-2.0
//! A device that owns its state image and its memory.

use std::fmt;

use crate::answer::{Answer, Pin};
use crate::calendar::Calendar;
use crate::change::Change;
use crate::entries;
use crate::line::NextLine;
use crate::master::{self, TransactionRefusal};
use crate::refusal::Refusal;
use crate::report::Report;
use crate::rolled::{Rolled, Told};
use crate::state::{Phase, Power, State};
use crate::{CHANGES_ROOM, IMAGE_BYTES, MEMORY_BYTES, REGISTER_COUNT, UNANSWERED};

/// One FM3130: a state image and 8,192 bytes of memory.
///
/// The image is always that of a well-formed state: only the archive writes it, and
/// [`Device::from_parts`] lets the archive judge one that comes from outside.
#[derive(Clone, PartialEq, Eq)]
pub struct Device {
    image: [u8; IMAGE_BYTES],
    memory: Box<[u8; MEMORY_BYTES]>,
}

impl Device {
    /// The fresh device; its memory is all 0.
    ///
    /// ```
    /// let device = fm3130::Device::fresh();
    /// assert_eq!(device.registers()[0], 0x90); // LB and POR
    /// assert_eq!(device.memory(), &[0; 8192]);
    /// ```
    pub fn fresh() -> Device {
        let mut image = [0; IMAGE_BYTES];
        // 64 bytes are not refused. Were they, zeros would stay, which every entry refuses by number 2.
        let image = entries::fresh(&mut image).map_or([0; IMAGE_BYTES], |()| image);
        Device {
            image,
            memory: Box::new([0; MEMORY_BYTES]),
        }
    }

    /// A device made of an image and a memory, as another device or a C host left them.
    ///
    /// # Errors
    ///
    /// [`Refusal::MemoryLength`] or [`Refusal::Image`].
    ///
    /// ```
    /// use fm3130::{Device, Refusal};
    ///
    /// let device = Device::fresh();
    /// assert_eq!(Device::from_parts(device.image(), device.memory()), Ok(device));
    /// assert_eq!(Device::from_parts(&[0; 64], &[0; 8192]), Err(Refusal::Image));
    /// assert_eq!(Device::from_parts(&[0; 64], &[0; 8191]), Err(Refusal::MemoryLength));
    /// ```
    pub fn from_parts(image: &[u8], memory: &[u8]) -> Result<Device, Refusal> {
        let memory: [u8; MEMORY_BYTES] = memory.try_into().or(Err(Refusal::MemoryLength))?;
        let image: [u8; IMAGE_BYTES] = image.try_into().or(Err(Refusal::Image))?;
        let mut device = Device {
            image,
            memory: Box::new(memory),
        };
        // An empty list changes nothing and is refused if no well-formed state writes the image.
        device.run_into(&[], &mut [])?;
        Ok(device)
    }

    /// Runs a list of events; returns an answer for each.
    ///
    /// # Errors
    ///
    /// [`Refusal::UnknownEvent`]; then no event was done.
    ///
    /// ```
    /// use fm3130::{event, Device};
    ///
    /// let mut device = Device::fresh();
    /// assert_eq!(device.run(&[event::START, event::STOP])?, [5, 5]);
    /// assert!(device.run(&[event::START, 8]).is_err());
    /// # Ok::<(), fm3130::Refusal>(())
    /// ```
    pub fn run(&mut self, events: &[u8]) -> Result<Vec<u8>, Refusal> {
        let mut answers = vec![UNANSWERED; events.len()];
        self.run_into(events, &mut answers)?;
        Ok(answers)
    }

    /// Runs a list of events; the answers go to the first bytes of `answers`, the others stay.
    /// Returns the number of events.
    ///
    /// # Errors
    ///
    /// [`Refusal::UnknownEvent`] or [`Refusal::ShortAnswers`]; then no event was done.
    ///
    /// ```
    /// use fm3130::{event, Device, Refusal};
    ///
    /// let mut device = Device::fresh();
    /// let mut answers = [0xEE; 3];
    /// assert_eq!(device.run_into(&[event::START, event::STOP], &mut answers), Ok(2));
    /// assert_eq!(answers, [5, 5, 0xEE]);
    /// assert_eq!(device.run_into(&[event::TICK; 4], &mut answers), Err(Refusal::ShortAnswers));
    /// ```
    pub fn run_into(&mut self, events: &[u8], answers: &mut [u8]) -> Result<usize, Refusal> {
        entries::run(&mut self.image, &mut self.memory[..], events, answers)
    }

    /// Does one event; returns its answer.
    ///
    /// # Errors
    ///
    /// [`Refusal::UnknownEvent`]; then nothing was done.
    ///
    /// ```
    /// use fm3130::{event, Answer, Device};
    ///
    /// let answer = Device::fresh().step(event::CLOCK_LOW)?;
    /// assert!(!Answer(answer).line_is_high());
    /// # Ok::<(), fm3130::Refusal>(())
    /// ```
    pub fn step(&mut self, event: u8) -> Result<u8, Refusal> {
        let mut answer = [UNANSWERED];
        self.run_into(&[event], &mut answer)?;
        Ok(answer[0])
    }

    /// Does one event; returns its answer, and the highest field of the calendar that it changed.
    ///
    /// # Errors
    ///
    /// [`Refusal::UnknownEvent`]; then nothing was done.
    ///
    /// ```
    /// use fm3130::{event, Device, Rolled};
    ///
    /// let mut device = Device::fresh();
    /// // Start, D0h, 01h, 00h, Stop: the oscillator runs.
    /// let mut events = vec![event::START];
    /// for byte in [0xD0, 0x01, 0x00] {
    ///     events.extend(event::written_byte(byte));
    /// }
    /// events.push(event::STOP);
    /// device.run(&events)?;
    /// for _ in 0..59 {
    ///     assert_eq!(device.step_told(event::TICK)?.rolled, Rolled::Seconds);
    /// }
    /// assert_eq!(device.step_told(event::TICK)?.rolled, Rolled::Minutes);
    /// # Ok::<(), fm3130::Refusal>(())
    /// ```
    pub fn step_told(&mut self, event: u8) -> Result<Told, Refusal> {
        let mut told = [UNANSWERED, 0];
        entries::step(&mut self.image, &mut self.memory[..], event, &mut told)?;
        let [answer, field] = told;
        Ok(Told {
            answer: Answer(answer),
            rolled: Rolled::of_number(field),
        })
    }

    /// What the device will do to the line of the next Clock, and of the one after it. Nothing is changed.
    ///
    /// # Errors
    ///
    /// None that is known: [`Refusal::Image`] if the image were none of a state's.
    ///
    /// ```
    /// use fm3130::Device;
    ///
    /// assert!(!Device::fresh().next_line()?.pulled);
    /// # Ok::<(), fm3130::Refusal>(())
    /// ```
    pub fn next_line(&self) -> Result<NextLine, Refusal> {
        entries::next_line(&self.image, &self.memory[..])
    }

    /// Puts right registers 02h to 08h and, by itself but by the same rule, the core: each field that
    /// is out of range on its own goes to its lowest legal figure, then a date beyond its month's end
    /// goes to the last day. Returns the registers changed, in their order; the core is none of them.
    ///
    /// # Errors
    ///
    /// None that is known: [`Refusal::Image`] if the image were none of a state's; then it has not changed.
    ///
    /// ```
    /// use fm3130::Device;
    ///
    /// let mut image = *Device::fresh().image();
    /// image[6..8].copy_from_slice(&[0x31, 0x04]); // 31 April, in the registers
    /// image[19..21].copy_from_slice(&[0x30, 0x02]); // 30 February, in the core
    /// let mut device = Device::from_parts(&image, &[0; 8192])?;
    /// let changes = device.mend()?;
    /// assert_eq!(changes.len(), 1);
    /// assert_eq!(changes[0].to_string(), "06h date: 31h to 30h");
    /// assert_eq!(device.calendar().to_string(), "00:00:00, 29/02/00, day 1");
    /// assert_eq!(device.mend()?, []);
    /// # Ok::<(), fm3130::Refusal>(())
    /// ```
    pub fn mend(&mut self) -> Result<Vec<Change>, Refusal> {
        let mut list = [0; CHANGES_ROOM];
        let count = entries::mend(&mut self.image, &mut list)?;
        Ok(Change::all_of(&list, count))
    }

    /// Catches up after sleep: does many ticks in one call, as [`Device::run`] does a list of them,
    /// but without the answers: 20 to 32 ns for a leap year of them (docs/SPEED.md). 0 ticks change
    /// nothing.
    ///
    /// # Errors
    ///
    /// [`Refusal::TooManyTicks`] if there are more than [`crate::MOST_TICKS`]; then nothing was done.
    ///
    /// ```
    /// use fm3130::{event, Device, Refusal, MOST_TICKS};
    ///
    /// let mut device = Device::fresh();
    /// // Start, D0h, 01h, 00h, Stop: the oscillator runs.
    /// let mut events = vec![event::START];
    /// for byte in [0xD0, 0x01, 0x00] {
    ///     events.extend(event::written_byte(byte));
    /// }
    /// events.push(event::STOP);
    /// device.run(&events)?;
    /// device.catch_up(86_400)?;
    /// assert_eq!(device.calendar().to_string(), "00:00:00, 02/01/00, day 2");
    /// assert_eq!(device.catch_up(MOST_TICKS + 1), Err(Refusal::TooManyTicks));
    /// # Ok::<(), Refusal>(())
    /// ```
    pub fn catch_up(&mut self, ticks: u64) -> Result<(), Refusal> {
        entries::catch_up(&mut self.image, ticks)
    }

    /// Writes bytes to the memory over the bus, from an address on and over 1FFFh to 0000h: one whole
    /// transaction. Returns for each byte whether the device acknowledged it.
    ///
    /// A byte at a protected address is not acknowledged, and none after it is. Without power, none is.
    ///
    /// # Errors
    ///
    /// [`master::Refusal::TooMany`] above 256 bytes, [`master::Refusal::WrongAddress`] above 1FFFh, or that
    /// of [`Device::run`], should it refuse the transaction's events; then nothing was done.
    ///
    /// ```
    /// use fm3130::{event, Device};
    ///
    /// let mut device = Device::fresh();
    /// assert_eq!(device.write(0x1FFF, &[0x5A, 0xC3])?, [true, true]);
    /// assert_eq!((device.memory()[0x1FFF], device.memory()[0x0000]), (0x5A, 0xC3));
    /// device.step(event::POWER_LOST_WITH_BACKUP)?;
    /// assert_eq!(device.write(0x1FFF, &[0x00])?, [false]);
    /// # Ok::<(), fm3130::master::TransactionRefusal>(())
    /// ```
    pub fn write(&mut self, address: u64, bytes: &[u8]) -> Result<Vec<bool>, TransactionRefusal> {
        let mut events = vec![0; master::write_events_count(bytes.len().min(master::MOST))];
        master::write_events(address, bytes, &mut events)?;
        let answers = self.run(&events)?;
        let mut flags = vec![0; bytes.len()];
        master::write_told(bytes.len() as u64, &answers, &mut flags)?;
        Ok(flags.into_iter().map(|flag| flag == 1).collect())
    }

    /// Reads so many bytes of the memory over the bus, from an address on and over 1FFFh to 0000h: one
    /// whole transaction. Returns the bytes; none if the device did not acknowledge, as without power.
    ///
    /// # Errors
    ///
    /// [`master::Refusal::TooMany`] above 256 bytes, [`master::Refusal::ReadOfNone`],
    /// [`master::Refusal::WrongAddress`] above 1FFFh, or that of [`Device::run`], should it refuse the
    /// transaction's events; then nothing was done.
    ///
    /// ```
    /// use fm3130::Device;
    ///
    /// let mut device = Device::fresh();
    /// device.write(0x1FFF, &[0x5A, 0xC3])?;
    /// assert_eq!(device.read(0x1FFF, 3)?, [0x5A, 0xC3, 0x00]);
    /// # Ok::<(), fm3130::master::TransactionRefusal>(())
    /// ```
    pub fn read(&mut self, address: u64, count: u64) -> Result<Vec<u8>, TransactionRefusal> {
        let most = usize::try_from(count).map_or(master::MOST, |count| count.min(master::MOST));
        let mut events = vec![0; master::read_events_count(most)];
        master::read_events(address, count, &mut events)?;
        let answers = self.run(&events)?;
        let mut bytes = vec![0; most];
        let told = master::read_told(count, &answers, &mut bytes)?;
        bytes.truncate(told);
        Ok(bytes)
    }

    /// Runs a list of events with a proving record beside it; the answers go to the first bytes of
    /// `answers`. Returns the report after the last event.
    pub(crate) fn run_with(
        &mut self,
        record: &mut [u8],
        events: &[u8],
        answers: &mut [u8],
    ) -> Result<Report, Refusal> {
        entries::run_with_lamps(
            &mut self.image,
            &mut self.memory[..],
            events,
            answers,
            record,
        )
    }

    /// The state image: its first 15 bytes are the registers.
    ///
    /// ```
    /// let device = fm3130::Device::fresh();
    /// assert_eq!(device.image()[..15], device.registers()[..]);
    /// ```
    pub fn image(&self) -> &[u8; IMAGE_BYTES] {
        &self.image
    }

    /// The memory.
    ///
    /// ```
    /// assert_eq!(fm3130::Device::fresh().memory().len(), 8192);
    /// ```
    pub fn memory(&self) -> &[u8; MEMORY_BYTES] {
        &self.memory
    }

    /// The memory, to preset it from outside the bus. FRAM may hold any bytes.
    ///
    /// ```
    /// let mut device = fm3130::Device::fresh();
    /// device.memory_mut().fill(0xFF);
    /// assert_eq!(device.memory()[8191], 0xFF);
    /// ```
    pub fn memory_mut(&mut self) -> &mut [u8; MEMORY_BYTES] {
        &mut self.memory
    }

    /// Image and memory, for an entry that writes both.
    pub(crate) fn parts_mut(&mut self) -> (&mut [u8], &mut [u8]) {
        (&mut self.image, &mut self.memory[..])
    }

    /// Registers 00h to 0Eh.
    ///
    /// ```
    /// use fm3130::{registers, Device};
    ///
    /// let device = Device::fresh();
    /// assert!(device.registers()[registers::CALIBRATION] & registers::OSCEN != 0);
    /// ```
    pub fn registers(&self) -> &[u8; REGISTER_COUNT] {
        match self.image.first_chunk() {
            Some(registers) => registers,
            None => &[0; REGISTER_COUNT],
        }
    }

    /// A part of the memory or of the registers, never a copy; see [`crate::selector`].
    ///
    /// # Errors
    ///
    /// [`Refusal::Selector`] or [`Refusal::PastTheEnd`].
    ///
    /// ```
    /// use fm3130::{selector, Device, Refusal};
    ///
    /// let device = Device::fresh();
    /// assert_eq!(device.view(selector::MEMORY, 0, 4)?, [0; 4]);
    /// assert_eq!(device.view(selector::MEMORY, u64::MAX, 1), Err(Refusal::PastTheEnd));
    /// # Ok::<(), Refusal>(())
    /// ```
    pub fn view(&self, selector: u64, start: u64, length: u64) -> Result<&[u8], Refusal> {
        entries::view(&self.image, &self.memory[..], selector, start, length)
    }

    /// All that the image holds, taken apart.
    ///
    /// ```
    /// let state = fm3130::Device::fresh().state();
    /// assert!(state.core.is_valid());
    /// ```
    pub fn state(&self) -> State {
        State::of_image(&self.image)
    }

    /// The calendar core.
    ///
    /// ```
    /// let device = fm3130::Device::fresh();
    /// assert_eq!(device.calendar().to_string(), "00:00:00, 01/01/00, day 1");
    /// ```
    pub fn calendar(&self) -> Calendar {
        self.state().core
    }

    /// The ACS pin.
    ///
    /// ```
    /// assert_eq!(fm3130::Device::fresh().pin().to_string(), "square wave");
    /// ```
    pub fn pin(&self) -> Pin {
        self.state().pin()
    }

    /// Which supplies are there.
    ///
    /// ```
    /// use fm3130::{event, Device, Power};
    ///
    /// let mut device = Device::fresh();
    /// device.step(event::POWER_LOST_WITH_BACKUP)?;
    /// assert_eq!(device.power(), Power::Backup);
    /// # Ok::<(), fm3130::Refusal>(())
    /// ```
    pub fn power(&self) -> Power {
        self.state().power
    }

    /// The memory's current address, 0000h to 1FFFh.
    ///
    /// ```
    /// assert_eq!(fm3130::Device::fresh().memory_address(), 0x0000);
    /// ```
    pub fn memory_address(&self) -> u16 {
        self.state().memory_address
    }

    /// The companion's current address, 00h to 0Eh.
    ///
    /// ```
    /// assert_eq!(fm3130::Device::fresh().companion_address(), 0x00);
    /// ```
    pub fn companion_address(&self) -> u8 {
        self.state().companion_address
    }

    /// What byte is under way on the bus.
    ///
    /// ```
    /// use fm3130::{event, Device, Phase};
    ///
    /// let mut device = Device::fresh();
    /// assert_eq!(device.phase(), Phase::Idle);
    /// device.step(event::START)?;
    /// assert_eq!(device.phase(), Phase::SlaveByte);
    /// # Ok::<(), fm3130::Refusal>(())
    /// ```
    pub fn phase(&self) -> Phase {
        self.state().phase
    }
}

impl Default for Device {
    fn default() -> Device {
        Device::fresh()
    }
}

/// The state in words; 8,192 bytes of memory would hide it.
impl fmt::Debug for Device {
    fn fmt(&self, formatter: &mut fmt::Formatter<'_>) -> fmt::Result {
        formatter
            .debug_struct("Device")
            .field("state", &self.state())
            .finish_non_exhaustive()
    }
}

#[cfg(test)]
mod tests {
    use super::*;

    /// A device that no safe code makes: its image is none of a state's.
    fn spoilt() -> Device {
        Device {
            image: [0; IMAGE_BYTES],
            ..Device::fresh()
        }
    }

    #[test]
    fn a_refusal_is_never_an_acknowledge() {
        let mut device = spoilt();
        let refused = Refusal::Image;
        assert_eq!(device.run(&[0, 1]), Err(refused));
        assert_eq!(device.step(0), Err(refused));
        assert_eq!(device.step_told(4), Err(refused));
        assert_eq!(device.write(0, &[1]), Err(refused.into()));
        assert_eq!(device.read(0, 1), Err(refused.into()));
        assert_eq!(device, spoilt());
    }

    #[test]
    fn a_refusal_is_never_a_line_let_go_or_an_image_that_is_right() {
        let mut device = spoilt();
        assert_eq!(device.next_line(), Err(Refusal::Image));
        assert_eq!(device.mend(), Err(Refusal::Image));
        assert_eq!(device.catch_up(1), Err(Refusal::Image));
        assert_eq!(device, spoilt());
    }
}
