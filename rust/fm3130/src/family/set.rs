// SPDX-License-Identifier: Apache-2.0
//! One to four devices of the family on one line.

use std::fmt;

use super::refusal::SetRefusal;
use super::select::Select;
use super::size::{ChosenSize, Size};
use super::state::{Counts, State};
use super::transaction::{self, COMPANION, MEMORY};
use super::Part;
use crate::{IMAGE_BYTES, UNANSWERED};
use fm3130_sys as archive;

/// The most devices of a set.
pub const MOST_MEMBERS: usize = 4;

/// The bit of a plan's byte that says the 256Kb size.
const PLAN_KB256: u8 = 0x04;

/// A device of a set: its size, its select bits, its state image and its memory.
///
/// ```
/// use fm3130::family::{Fm3164, Member, Select, Size};
///
/// let mut device = Fm3164::fresh();
/// device.memory_mut()[0] = 0x5A;
/// let member = Member::of(device, Select::TWO);
/// assert_eq!((member.size(), member.select()), (Size::Kb64, Select::TWO));
/// assert_eq!(member.memory()[0], 0x5A);
/// ```
#[derive(Clone, PartialEq, Eq)]
pub struct Member {
    size: Size,
    select: Select,
    image: [u8; IMAGE_BYTES],
    memory: Vec<u8>,
}

impl Member {
    /// A fresh device of a size; its memory is all 0.
    ///
    /// ```
    /// use fm3130::family::{Member, Select, Size};
    ///
    /// let member = Member::fresh(Size::Kb256, Select::ONE);
    /// assert_eq!(member.memory(), [0; 32_768]);
    /// ```
    pub fn fresh(size: Size, select: Select) -> Member {
        Member {
            size,
            select,
            image: super::entries::fresh_image(),
            memory: vec![0; size.bytes()],
        }
    }

    /// A device that was alone on its line, with select bits of its own from now on.
    pub fn of<Chosen: ChosenSize>(device: Part<Chosen>, select: Select) -> Member {
        Member {
            size: Chosen::SIZE,
            select,
            image: *device.image(),
            memory: device.memory().to_vec(),
        }
    }

    /// A device made of an image and a memory, as a set or a C host left them. [`Set::new`] judges
    /// them; only an image of another length is refused here.
    ///
    /// # Errors
    ///
    /// [`SetRefusal::Image`] if the image is not 64 bytes.
    ///
    /// ```
    /// use fm3130::family::{Member, Select, Set, SetRefusal, Size};
    ///
    /// let member = Member::from_parts(Size::Kb64, Select::ZERO, &[0xFF; 64], &[0; 8192])?;
    /// assert_eq!(Set::new([member]), Err(SetRefusal::Image));
    /// let member = Member::from_parts(Size::Kb64, Select::ZERO, &[0; 63], &[0; 8192]);
    /// assert_eq!(member, Err(SetRefusal::Image));
    /// # Ok::<(), SetRefusal>(())
    /// ```
    pub fn from_parts(
        size: Size,
        select: Select,
        image: &[u8],
        memory: &[u8],
    ) -> Result<Member, SetRefusal> {
        Ok(Member {
            size,
            select,
            image: image.try_into().or(Err(SetRefusal::Image))?,
            memory: memory.to_vec(),
        })
    }

    /// The size.
    pub fn size(&self) -> Size {
        self.size
    }

    /// The select bits.
    pub fn select(&self) -> Select {
        self.select
    }

    /// The state image: its first 16 bytes are the registers.
    pub fn image(&self) -> &[u8; IMAGE_BYTES] {
        &self.image
    }

    /// The memory.
    pub fn memory(&self) -> &[u8] {
        &self.memory
    }

    /// The memory, to preset it from outside the bus. FRAM may hold any bytes.
    ///
    /// ```
    /// use fm3130::family::{Member, Select, Size};
    ///
    /// let mut member = Member::fresh(Size::Kb64, Select::THREE);
    /// member.memory_mut().fill(0xFF);
    /// assert_eq!(member.memory()[8191], 0xFF);
    /// ```
    pub fn memory_mut(&mut self) -> &mut [u8] {
        &mut self.memory
    }

    /// All that the image holds, taken apart.
    pub fn state(&self) -> State {
        State::of_image(&self.image)
    }

    /// The two counters as they run.
    pub fn counts(&self) -> Counts {
        self.state().counts()
    }

    /// The device's byte of a plan: bits 1 and 0 are its select bits, bit 2 is its size.
    fn plan(&self) -> u8 {
        let size = match self.size {
            Size::Kb64 => 0,
            Size::Kb256 => PLAN_KB256,
        };
        size | self.select.bits()
    }
}

/// The state in words; the memory would hide it.
impl fmt::Debug for Member {
    fn fmt(&self, formatter: &mut fmt::Formatter<'_>) -> fmt::Result {
        formatter
            .debug_struct("Member")
            .field("size", &self.size)
            .field("select", &self.select)
            .field("state", &self.state())
            .finish_non_exhaustive()
    }
}

/// One to four devices that share one line, which is low if the master or any device pulls it low.
///
/// A device is found by its place, 0 to 3, in the order in which the set was made; a slave byte names
/// it by its select bits, and an edge by its place ([`edge_1`], [`edge_2`]). All other events reach
/// every device. Each does what it would do alone; a whole transaction that names one device leaves
/// the others, once ended, as they were.
///
/// What [`Set::new`] tested stays true: of its devices only the memories are lent to be changed.
///
/// ```
/// use fm3130::family::{edge_1, Member, Select, Set, SetRefusal, Size};
///
/// let mut set = Set::new([
///     Member::fresh(Size::Kb256, Select::ZERO),
///     Member::fresh(Size::Kb64, Select::TWO),
/// ])?;
/// assert_eq!(set.write_memory(Select::TWO, 0x0010, &[0x5A])?, [true]);
/// assert_eq!(set.read_memory(Select::TWO, 0x0010, 1)?, [0x5A]);
/// assert_eq!(set.read_memory(Select::ZERO, 0x0010, 1)?, [0x00]);
/// assert_eq!(set.read_memory(Select::ONE, 0x0010, 1)?, []); // nobody has these select bits
///
/// set.run(&[edge_1(1), edge_1(1)])?;
/// assert_eq!(set.device(1).map(|member| member.counts().one()), Some(2));
/// assert_eq!(set.device(0).map(|member| member.counts().one()), Some(0));
/// # Ok::<(), SetRefusal>(())
/// ```
#[derive(Clone, Debug, PartialEq, Eq)]
pub struct Set {
    members: Vec<Member>,
}

impl Set {
    /// The set of some devices; the archive judges it.
    ///
    /// # Errors
    ///
    /// [`SetRefusal::WrongCount`], [`SetRefusal::MemoryLength`], [`SetRefusal::Image`],
    /// [`SetRefusal::EqualSelects`] or [`SetRefusal::InTransfer`], the first that applies.
    ///
    /// ```
    /// use fm3130::family::{event, Fm3164, Member, Select, Set, SetRefusal};
    ///
    /// let member = Member::of(Fm3164::fresh(), Select::ONE);
    /// assert!(Set::new([member.clone()]).is_ok());
    /// assert_eq!(Set::new([]), Err(SetRefusal::WrongCount));
    /// assert_eq!(Set::new([member.clone(), member]), Err(SetRefusal::EqualSelects));
    ///
    /// let mut device = Fm3164::fresh();
    /// device.step(event::START).unwrap();
    /// assert_eq!(Set::new([Member::of(device, Select::ONE)]), Err(SetRefusal::InTransfer));
    /// ```
    pub fn new(members: impl IntoIterator<Item = Member>) -> Result<Set, SetRefusal> {
        let set = Set {
            members: members.into_iter().collect(),
        };
        let mut memories: [&[u8]; MOST_MEMBERS] = [&[]; MOST_MEMBERS];
        for (memory, member) in memories.iter_mut().zip(&set.members) {
            *memory = &member.memory;
        }
        let [one, two, three, four] = memories;
        let (plan, images) = (set.plan(), set.images());
        let number = archive::fm31_set_check(&plan, &images, one, two, three, four);
        SetRefusal::outcome_of(number).map(|()| set)
    }

    /// Runs a list of events; returns the line for each: 0 low, 1 high.
    ///
    /// # Errors
    ///
    /// [`SetRefusal::UnknownEvent`]; then no event was done.
    ///
    /// ```
    /// use fm3130::family::{edge_2, event, Member, Select, Set, SetRefusal, Size};
    ///
    /// let mut set = Set::new([Member::fresh(Size::Kb64, Select::THREE)])?;
    /// assert_eq!(set.run(&[event::CLOCK_LOW, event::TICK, edge_2(0)])?, [0, 1, 1]);
    /// assert_eq!(set.run(&[edge_2(1)]), Err(SetRefusal::UnknownEvent));
    /// # Ok::<(), SetRefusal>(())
    /// ```
    pub fn run(&mut self, events: &[u8]) -> Result<Vec<u8>, SetRefusal> {
        let mut answers = vec![UNANSWERED; events.len()];
        self.run_into(events, &mut answers)?;
        Ok(answers)
    }

    /// Runs a list of events; the answers go to the first bytes of `answers`, the others stay. A list
    /// may be cut into pieces at any place, each a call: the outcome is the same.
    ///
    /// # Errors
    ///
    /// [`SetRefusal::UnknownEvent`] or [`SetRefusal::ShortAnswers`]; then no event was done.
    pub fn run_into(&mut self, events: &[u8], answers: &mut [u8]) -> Result<(), SetRefusal> {
        let (plan, mut images) = (self.plan(), self.images());
        let mut memories: [&mut [u8]; MOST_MEMBERS] = Default::default();
        for (memory, member) in memories.iter_mut().zip(&mut self.members) {
            *memory = &mut member.memory;
        }
        let [one, two, three, four] = memories;
        SetRefusal::outcome_of(archive::fm31_set_run(
            &plan,
            &mut images,
            one,
            two,
            three,
            four,
            events,
            answers,
        ))?;
        for (member, image) in self
            .members
            .iter_mut()
            .zip(images.chunks_exact(IMAGE_BYTES))
        {
            member.image.copy_from_slice(image);
        }
        Ok(())
    }

    /// Does one event; returns the line.
    ///
    /// # Errors
    ///
    /// [`SetRefusal::UnknownEvent`]; then nothing was done.
    ///
    /// ```
    /// use fm3130::family::{edge_1, Member, Select, Set, SetRefusal, Size};
    ///
    /// let mut set = Set::new([Member::fresh(Size::Kb256, Select::ZERO)])?;
    /// assert_eq!(set.step(edge_1(0))?, 1);
    /// assert_eq!(set.members()[0].counts().one(), 1);
    /// # Ok::<(), SetRefusal>(())
    /// ```
    pub fn step(&mut self, event: u8) -> Result<u8, SetRefusal> {
        let mut told = [UNANSWERED];
        self.run_into(&[event], &mut told)?;
        Ok(told[0])
    }

    /// The device at a place; none past the last.
    pub fn device(&self, place: usize) -> Option<&Member> {
        self.members.get(place)
    }

    /// The memory of the device at a place, to preset it from outside the bus; none past the last. FRAM
    /// may hold any bytes.
    ///
    /// ```
    /// use fm3130::family::{Member, Select, Set, SetRefusal, Size};
    ///
    /// let mut set = Set::new([Member::fresh(Size::Kb64, Select::ONE)])?;
    /// set.memory_mut(0).unwrap()[0x0010] = 0x5A;
    /// assert_eq!(set.read_memory(Select::ONE, 0x0010, 1)?, [0x5A]);
    /// assert_eq!(set.memory_mut(1), None);
    /// # Ok::<(), SetRefusal>(())
    /// ```
    pub fn memory_mut(&mut self, place: usize) -> Option<&mut [u8]> {
        self.members.get_mut(place).map(Member::memory_mut)
    }

    /// All devices, in the order of their places.
    pub fn members(&self) -> &[Member] {
        &self.members
    }

    /// All devices, taken from the line with their images and memories.
    ///
    /// ```
    /// use fm3130::family::{Member, Select, Set, SetRefusal, Size};
    ///
    /// let member = Member::fresh(Size::Kb64, Select::ONE);
    /// assert_eq!(Set::new([member.clone()])?.into_members(), [member]);
    /// # Ok::<(), SetRefusal>(())
    /// ```
    pub fn into_members(self) -> Vec<Member> {
        self.members
    }

    /// The place of the device that has some select bits.
    ///
    /// ```
    /// use fm3130::family::{Member, Select, Set, SetRefusal, Size};
    ///
    /// let set = Set::new([Member::fresh(Size::Kb64, Select::THREE)])?;
    /// assert_eq!(set.place_of(Select::THREE), Some(0));
    /// assert_eq!(set.place_of(Select::ZERO), None);
    /// # Ok::<(), SetRefusal>(())
    /// ```
    pub fn place_of(&self, select: Select) -> Option<usize> {
        self.members.iter().position(|one| one.select == select)
    }

    /// Writes registers of the device with some select bits over the bus: one whole transaction.
    /// Returns for each byte whether it was acknowledged; see [`Part::write_registers`].
    ///
    /// # Errors
    ///
    /// That of [`Set::run`], should it refuse the transaction's events; then nothing was done.
    pub fn write_registers(
        &mut self,
        select: Select,
        address: u8,
        bytes: &[u8],
    ) -> Result<Vec<bool>, SetRefusal> {
        let place = [select.named(COMPANION), address];
        transaction::write(&place, bytes, |events| self.run(events))
    }

    /// Reads registers of the device with some select bits over the bus: one whole transaction.
    /// Returns the bytes; none if nobody acknowledged. See [`Part::read_registers`].
    ///
    /// # Errors
    ///
    /// That of [`Set::run`], should it refuse the transaction's events; then nothing was done.
    pub fn read_registers(
        &mut self,
        select: Select,
        address: u8,
        count: usize,
    ) -> Result<Vec<u8>, SetRefusal> {
        let place = [select.named(COMPANION), address];
        transaction::read(&place, count, |events| self.run(events))
    }

    /// Writes bytes to the memory of the device with some select bits over the bus: one whole
    /// transaction. Returns for each byte whether it was acknowledged; see [`Part::write_memory`].
    ///
    /// # Errors
    ///
    /// That of [`Set::run`], should it refuse the transaction's events; then nothing was done.
    pub fn write_memory(
        &mut self,
        select: Select,
        address: u16,
        bytes: &[u8],
    ) -> Result<Vec<bool>, SetRefusal> {
        let [high, low] = address.to_be_bytes();
        let place = [select.named(MEMORY), high, low];
        transaction::write(&place, bytes, |events| self.run(events))
    }

    /// Reads bytes of the memory of the device with some select bits over the bus: one whole
    /// transaction. Returns the bytes; none if nobody acknowledged. See [`Part::read_memory`].
    ///
    /// # Errors
    ///
    /// That of [`Set::run`], should it refuse the transaction's events; then nothing was done.
    pub fn read_memory(
        &mut self,
        select: Select,
        address: u16,
        count: usize,
    ) -> Result<Vec<u8>, SetRefusal> {
        let [high, low] = address.to_be_bytes();
        let place = [select.named(MEMORY), high, low];
        transaction::read(&place, count, |events| self.run(events))
    }

    /// The plan, one byte a device.
    fn plan(&self) -> Vec<u8> {
        self.members.iter().map(Member::plan).collect()
    }

    /// The images, one after the other.
    fn images(&self) -> Vec<u8> {
        self.members.iter().flat_map(|one| one.image).collect()
    }
}

/// The event of an edge on CNT1 of the device at a place. For a place above 3 it is one that every
/// set refuses.
///
/// ```
/// assert_eq!((fm3130::family::edge_1(0), fm3130::family::edge_1(3)), (8, 14));
/// assert_eq!(fm3130::family::edge_1(usize::MAX), 255);
/// ```
pub fn edge_1(place: usize) -> u8 {
    edge(place, super::event::EDGE_1)
}

/// The event of an edge on CNT2 of the device at a place; see [`edge_1`].
///
/// ```
/// assert_eq!((fm3130::family::edge_2(0), fm3130::family::edge_2(3)), (9, 15));
/// ```
pub fn edge_2(place: usize) -> u8 {
    edge(place, super::event::EDGE_2)
}

fn edge(place: usize, first: u8) -> u8 {
    match u8::try_from(place) {
        Ok(place) if usize::from(place) < MOST_MEMBERS => first + 2 * place,
        _ => u8::MAX,
    }
}

#[cfg(test)]
mod tests {
    use super::*;
    use crate::family::{event, Fm3164};

    /// Two devices with the same select bits, which [`Set::new`] refuses.
    fn past_the_test() -> Set {
        let members = [Size::Kb64, Size::Kb256].map(|size| Member::fresh(size, Select::ONE));
        assert_eq!(Set::new(members.clone()), Err(SetRefusal::EqualSelects));
        Set {
            members: members.to_vec(),
        }
    }

    #[test]
    fn a_refusal_is_never_an_acknowledge() {
        let mut set = past_the_test();
        let before = set.clone();
        let refused = SetRefusal::EqualSelects;
        assert_eq!(set.run(&[0, 1]), Err(refused));
        assert_eq!(set.step(0), Err(refused));
        assert_eq!(set.write_memory(Select::ONE, 0, &[1]), Err(refused));
        assert_eq!(set.read_memory(Select::ONE, 0, 1), Err(refused));
        let serial = crate::family::registers::SERIAL;
        assert_eq!(set.write_registers(Select::ONE, serial, &[1]), Err(refused));
        assert_eq!(set.read_registers(Select::ONE, serial, 1), Err(refused));
        assert_eq!(set, before);
    }

    /// A device that was alone and sends is put in the place of one of a set whose other device receives:
    /// no set that was made comes to that.
    #[test]
    fn devices_in_transfers_of_their_own_are_not_run() {
        let members = [Select::ZERO, Select::ONE].map(|one| Member::fresh(Size::Kb64, one));
        let mut set = Set::new(members).unwrap();
        set.step(event::START).unwrap();
        for byte in [Select::ZERO.memory_byte(), 0x00, 0x10] {
            set.run(&event::written_byte(byte)).unwrap();
        }
        let mut alone = Fm3164::fresh();
        alone.step(event::START).unwrap();
        let read = Select::ZERO.memory_byte() | 1;
        alone.run(&event::written_byte(read)).unwrap();
        set.members[1] = Member::of(alone, Select::ONE);
        let before = set.clone();
        let written = event::written_byte(0xFF);
        assert_eq!(set.run(&written), Err(SetRefusal::InTransfer));
        assert_eq!(set, before);
    }
}
