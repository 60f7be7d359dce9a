// SPDX-License-Identifier: Apache-2.0
//! The parts that a command line can choose, and a device of any of them.
//!
//! Every part has the same bus, so the modules that tell what happens there see a [`State`] of any
//! part. What differs is its companion: a clock, or counters and a serial number.

use std::fmt;

use fm3130::event::{CLOCK_HIGH, CLOCK_LOW};
use fm3130::family::{self, Counts, Fm31256, Fm3164, Member, Select, Size};
use fm3130::{Calendar, Device, NextLine, Phase, Pin, PinFunction, Power, Rolled, UNANSWERED};

/// Where the mark of an image stands, in every part's layout.
const MARK: usize = 61;

/// A part that can be chosen.
#[derive(Clone, Copy, Debug, PartialEq, Eq)]
pub enum Part {
    /// The clock-and-memory chip, which every command knows.
    Fm3130,
    /// A part of the larger family, with event counters and a serial number.
    Family(Size),
}

impl Part {
    /// All of them, with the words that choose them.
    const WORDS: [(&'static str, Part); 3] = [
        ("fm3130", Part::Fm3130),
        ("fm3164", Part::Family(Size::Kb64)),
        ("fm31256", Part::Family(Size::Kb256)),
    ];

    /// The part that a word chooses.
    pub fn of_word(word: &str) -> Option<Part> {
        let known = Part::WORDS.into_iter();
        let mut chosen = known.filter(|(name, _)| name.eq_ignore_ascii_case(word));
        chosen.next().map(|(_, part)| part)
    }

    /// Whether it has event counters, and scripts edges for them.
    pub fn has_counters(self) -> bool {
        matches!(self, Part::Family(_))
    }

    /// The bytes of its memory.
    pub fn memory_bytes(self) -> usize {
        match self {
            Part::Fm3130 => fm3130::MEMORY_BYTES,
            Part::Family(size) => size.bytes(),
        }
    }

    /// The addresses of its first register and of its last.
    pub fn registers(self) -> (u8, u8) {
        match self {
            Part::Fm3130 => (0x00, fm3130::REGISTER_COUNT as u8 - 1),
            Part::Family(_) => (family::registers::FIRST, family::registers::LAST),
        }
    }

    /// How many registers it has.
    pub fn register_count(self) -> usize {
        let (first, last) = self.registers();
        usize::from(last - first) + 1
    }

    /// The name of the register at an address.
    pub fn register_name(self, address: u8) -> Option<&'static str> {
        match self {
            Part::Fm3130 => fm3130::registers::name(address),
            Part::Family(_) => family::registers::name(address),
        }
    }

    /// What a byte means in the register at an address.
    pub fn register_words(self, address: u8, byte: u8) -> String {
        match self {
            Part::Fm3130 => fm3130::registers::words(address, byte),
            Part::Family(size) => family::registers::words(size, address, byte),
        }
    }

    /// The greatest event byte.
    pub fn last_event(self) -> u8 {
        match self {
            Part::Fm3130 => fm3130::event::LAST,
            Part::Family(_) => family::event::LAST,
        }
    }

    /// Why an event above the last is refused.
    pub fn unknown_event(self) -> Refused {
        match self {
            Part::Fm3130 => fm3130::Refusal::UnknownEvent.into(),
            Part::Family(_) => family::Refusal::UnknownEvent.into(),
        }
    }

    /// Why an image of another length is refused.
    pub fn wrong_image(self) -> Refused {
        match self {
            Part::Fm3130 => fm3130::Refusal::Image.into(),
            Part::Family(_) => family::Refusal::Image.into(),
        }
    }

    /// Why a memory of another length is refused.
    pub fn wrong_memory(self) -> Refused {
        match self {
            Part::Fm3130 => fm3130::Refusal::MemoryLength.into(),
            Part::Family(_) => family::Refusal::MemoryLength.into(),
        }
    }

    /// The mark of its images, which the sizes of the family share: docs/IMAGE.md and docs/FAMILY.md.
    fn mark(self) -> [u8; 2] {
        match self {
            Part::Fm3130 => [0x31, 0x30],
            Part::Family(_) => [0x31, 0xCC],
        }
    }

    /// Whose an image is, in words, if by its mark it is another part's.
    pub fn other_owner(self, image: &[u8]) -> Option<&'static str> {
        let marked = image.get(MARK..MARK + 2)?;
        let owners = [
            (Part::Fm3130, "an FM3130"),
            (Part::Family(Size::Kb64), "an FM3164 or an FM31256"),
        ];
        let mut others = owners
            .into_iter()
            .filter(|(part, _)| part.mark() == marked && part.mark() != self.mark());
        others.next().map(|(_, words)| words)
    }

    /// A part of a memory or of registers, as the part's viewer gives it.
    pub fn view<'part>(
        self,
        image: &'part [u8],
        memory: &'part [u8],
        selector: u64,
        start: u64,
        length: u64,
    ) -> Result<&'part [u8], Refused> {
        Ok(match self {
            Part::Fm3130 => fm3130::view(image, memory, selector, start, length)?,
            Part::Family(size) => family::view(size, image, memory, selector, start, length)?,
        })
    }
}

impl fmt::Display for Part {
    fn fmt(&self, formatter: &mut fmt::Formatter<'_>) -> fmt::Result {
        match self {
            Part::Fm3130 => formatter.write_str("FM3130"),
            Part::Family(size) => size.fmt(formatter),
        }
    }
}

/// Why a device of some part refuses, in its own words.
#[derive(Clone, Copy, Debug, PartialEq, Eq)]
pub enum Refused {
    /// The FM3130's words.
    Clock(fm3130::Refusal),
    /// Those of the family.
    Counters(family::Refusal),
}

impl Refused {
    /// The number; both have the same up to 6.
    pub fn number(self) -> u64 {
        match self {
            Refused::Clock(refusal) => refusal.number(),
            Refused::Counters(refusal) => refusal.number(),
        }
    }
}

impl From<fm3130::Refusal> for Refused {
    fn from(refusal: fm3130::Refusal) -> Refused {
        Refused::Clock(refusal)
    }
}

impl From<family::Refusal> for Refused {
    fn from(refusal: family::Refusal) -> Refused {
        Refused::Counters(refusal)
    }
}

impl fmt::Display for Refused {
    fn fmt(&self, formatter: &mut fmt::Formatter<'_>) -> fmt::Result {
        match self {
            Refused::Clock(refusal) => refusal.fmt(formatter),
            Refused::Counters(refusal) => refusal.fmt(formatter),
        }
    }
}

/// A device of any part.
#[derive(Clone, Debug, PartialEq, Eq)]
pub enum Chip {
    /// An FM3130.
    Fm3130(Device),
    /// A part of the family with 8,192 bytes.
    Fm3164(Fm3164),
    /// A part of the family with 32,768 bytes.
    Fm31256(Fm31256),
}

impl Chip {
    /// A fresh device.
    pub fn fresh(part: Part) -> Chip {
        match part {
            Part::Fm3130 => Chip::Fm3130(Device::fresh()),
            Part::Family(Size::Kb64) => Chip::Fm3164(Fm3164::fresh()),
            Part::Family(Size::Kb256) => Chip::Fm31256(Fm31256::fresh()),
        }
    }

    /// A device of an image and a memory.
    pub fn from_parts(part: Part, image: &[u8], memory: &[u8]) -> Result<Chip, Refused> {
        Ok(match part {
            Part::Fm3130 => Chip::Fm3130(Device::from_parts(image, memory)?),
            Part::Family(Size::Kb64) => Chip::Fm3164(Fm3164::from_parts(image, memory)?),
            Part::Family(Size::Kb256) => Chip::Fm31256(Fm31256::from_parts(image, memory)?),
        })
    }

    /// Its image.
    pub fn image(&self) -> &[u8] {
        match self {
            Chip::Fm3130(device) => device.image(),
            Chip::Fm3164(device) => device.image(),
            Chip::Fm31256(device) => device.image(),
        }
    }

    /// Its memory.
    pub fn memory(&self) -> &[u8] {
        match self {
            Chip::Fm3130(device) => device.memory(),
            Chip::Fm3164(device) => device.memory(),
            Chip::Fm31256(device) => device.memory(),
        }
    }

    /// Its state, as the bus sees it.
    pub fn state(&self) -> State {
        match self {
            Chip::Fm3130(device) => State::from(device.state()),
            Chip::Fm3164(device) => State::of_family(Size::Kb64, device.state()),
            Chip::Fm31256(device) => State::of_family(Size::Kb256, device.state()),
        }
    }

    /// Runs a list of events; the answers go to the first bytes of `answers`.
    pub fn run_into(&mut self, events: &[u8], answers: &mut [u8]) -> Result<(), Refused> {
        match self {
            Chip::Fm3130(device) => {
                device.run_into(events, answers)?;
            }
            Chip::Fm3164(device) => device.run_into(events, answers)?,
            Chip::Fm31256(device) => device.run_into(events, answers)?,
        }
        Ok(())
    }

    /// What the device will do to the line. The FM3130 has an entry for it; of another part it is seen by trying the clocks on
    /// copies.
    pub fn next_line(&self) -> Result<NextLine, Refused> {
        if let Chip::Fm3130(device) = self {
            return Ok(device.next_line()?);
        }
        Ok(NextLine {
            pulled: self.pulls_last(&[CLOCK_HIGH])?,
            pulled_after_low: self.pulls_last(&[CLOCK_LOW, CLOCK_HIGH])?,
            pulled_after_high: self.pulls_last(&[CLOCK_HIGH, CLOCK_HIGH])?,
        })
    }

    /// Whether the device pulls the last of some clocks, in which the master leaves the line high.
    fn pulls_last(&self, clocks: &[u8]) -> Result<bool, Refused> {
        let mut answers = vec![UNANSWERED; clocks.len()];
        self.clone().run_into(clocks, &mut answers)?;
        Ok(answers.last().is_some_and(|answer| answer & 1 == 0))
    }

    /// Runs ticks one by one; returns the highest field of the calendar that one of them changed.
    pub fn run_ticks(&mut self, ticks: &[u8], answers: &mut [u8]) -> Result<Rolled, Refused> {
        let Chip::Fm3130(device) = self else {
            self.run_into(ticks, answers)?;
            return Ok(Rolled::Nothing);
        };
        let mut rolled = Rolled::Nothing;
        for (tick, answer) in ticks.iter().zip(answers.iter_mut()) {
            let told = device.step_told(*tick)?;
            *answer = told.answer.0;
            rolled = rolled.max(told.rolled);
        }
        Ok(rolled)
    }
}

impl From<Device> for Chip {
    fn from(device: Device) -> Chip {
        Chip::Fm3130(device)
    }
}

/// A state of any part, as the bus sees it.
#[derive(Clone, Copy, Debug, PartialEq, Eq)]
pub struct State {
    /// The part.
    pub part: Part,
    /// Its select bits, if it is a device of a set.
    pub select: Option<Select>,
    /// What stands behind slave bytes D0h and D1h.
    pub companion: Companion,
    /// The companion's address.
    pub companion_address: u8,
    /// The memory's address.
    pub memory_address: u16,
    /// Which supplies are there.
    pub power: Power,
    /// What byte is under way.
    pub phase: Phase,
    /// The clocks of that byte already done, 0 to 8.
    pub clocks: u8,
    /// The bits received so far, or the byte that is sent.
    pub byte: u8,
}

/// What stands behind slave bytes D0h and D1h.
#[derive(Clone, Copy, Debug, PartialEq, Eq)]
pub enum Companion {
    /// A clock with an alarm: the FM3130.
    Clock {
        /// Registers 00h to 0Eh.
        registers: [u8; fm3130::REGISTER_COUNT],
        /// Registers 02h to 08h as a calendar.
        written: Calendar,
        /// The calendar that counts.
        core: Calendar,
        /// The ACS pin.
        pin: Pin,
    },
    /// Counters and a serial number: the family.
    Counters(family::State),
}

impl State {
    /// The state of a part of the family.
    fn of_family(size: Size, state: family::State) -> State {
        State {
            part: Part::Family(size),
            select: None,
            companion: Companion::Counters(state),
            companion_address: state.companion_address,
            memory_address: state.memory_address,
            power: state.power,
            phase: state.phase,
            clocks: state.clocks,
            byte: state.byte,
        }
    }

    /// The state of a device of a set.
    pub fn of_member(member: &Member) -> State {
        State {
            select: Some(member.select()),
            ..State::of_family(member.size(), member.state())
        }
    }

    /// The registers, the first one of the part first.
    pub fn registers(&self) -> &[u8] {
        match &self.companion {
            Companion::Clock { registers, .. } => registers,
            Companion::Counters(state) => &state.registers,
        }
    }

    /// The byte of the register at an address; 0 where there is none.
    pub fn register(&self, address: u8) -> u8 {
        let (first, _) = self.part.registers();
        let place = usize::from(address.wrapping_sub(first));
        self.registers().get(place).copied().unwrap_or(0)
    }

    /// The ACS pin; a part that has none leaves it alone.
    pub fn pin(&self) -> Pin {
        match &self.companion {
            Companion::Clock { pin, .. } => *pin,
            Companion::Counters(_) => Pin {
                function: PinFunction::Released,
                alarm: false,
            },
        }
    }

    /// The calendar core, of a part that has one.
    pub fn core(&self) -> Option<Calendar> {
        match &self.companion {
            Companion::Clock { core, .. } => Some(*core),
            Companion::Counters(_) => None,
        }
    }

    /// The counters as they run, of a part that has them.
    pub fn counts(&self) -> Option<Counts> {
        match &self.companion {
            Companion::Clock { .. } => None,
            Companion::Counters(state) => Some(state.counts()),
        }
    }
}

impl From<fm3130::State> for State {
    fn from(state: fm3130::State) -> State {
        State {
            part: Part::Fm3130,
            select: None,
            companion: Companion::Clock {
                registers: state.registers,
                written: state.calendar_registers(),
                core: state.core,
                pin: state.pin(),
            },
            companion_address: state.companion_address,
            memory_address: state.memory_address,
            power: state.power,
            phase: state.phase,
            clocks: state.clocks,
            byte: state.byte,
        }
    }
}

/// What tests of several modules need.
#[cfg(test)]
pub mod trial {
    use super::*;

    /// All parts.
    pub const PARTS: [Part; 3] = [
        Part::Fm3130,
        Part::Family(Size::Kb64),
        Part::Family(Size::Kb256),
    ];

    /// A list of events for a part: one with counters has edges among them, at any place.
    pub fn with_edges(part: Part, events: &[u8]) -> Vec<u8> {
        let edges = |place: usize| match part.has_counters() && place % 5 == 0 {
            true => Some(family::event::EDGE_1 + (place / 5 % 2) as u8),
            false => None,
        };
        let numbered = events.iter().enumerate();
        let pairs = numbered.flat_map(|(place, event)| [edges(place), Some(*event)]);
        pairs.flatten().collect()
    }

    /// Does one event, which is known; returns its answer.
    pub fn step(chip: &mut Chip, event: u8) -> fm3130::Answer {
        let mut answer = [UNANSWERED];
        chip.run_into(&[event], &mut answer).unwrap();
        fm3130::Answer(answer[0])
    }
}

#[cfg(test)]
mod tests {
    use super::*;

    #[test]
    fn parts_are_chosen_by_their_names() {
        for (word, part) in Part::WORDS {
            assert_eq!(Part::of_word(word), Some(part));
            assert_eq!(part.to_string().to_lowercase(), word);
            let chip = Chip::fresh(part);
            assert_eq!(chip.state().part, part);
            assert_eq!(chip.memory().len(), part.memory_bytes());
            assert_eq!(chip.state().registers().len(), part.register_count());
        }
        assert_eq!(Part::of_word("FM3164"), Some(Part::Family(Size::Kb64)));
        assert_eq!(Part::of_word("fm3127"), None);
    }

    #[test]
    fn an_image_is_known_by_its_mark() {
        for part in trial::PARTS {
            for other in trial::PARTS {
                let image = Chip::fresh(other).image().to_vec();
                let is_other = part.has_counters() != other.has_counters();
                assert_eq!(part.other_owner(&image).is_some(), is_other);
                assert_eq!(
                    Chip::from_parts(part, &image, Chip::fresh(part).memory()).is_err(),
                    is_other
                );
            }
            assert_eq!(part.other_owner(&[0; 64]), None);
            assert_eq!(part.other_owner(&[0; 62]), None);
        }
        let counters = Chip::fresh(Part::Family(Size::Kb256));
        let owner = Part::Fm3130.other_owner(counters.image());
        assert_eq!(owner, Some("an FM3164 or an FM31256"));
    }

    #[test]
    fn registers_are_found_by_their_addresses() {
        let clock = Chip::fresh(Part::Fm3130).state();
        assert_eq!((clock.register(0x00), clock.register(0x0F)), (0x90, 0));
        let counters = Chip::fresh(Part::Family(Size::Kb256)).state();
        assert_eq!(
            (counters.register(0x09), counters.register(0x00)),
            (0x60, 0)
        );
    }
}
