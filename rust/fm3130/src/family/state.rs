// SPDX-License-Identifier: Apache-2.0
//! What an image of the family holds, taken apart.

use std::fmt;

use super::{registers, REGISTER_COUNT};
use crate::state::{BusBytes, Phase, Power};
use crate::IMAGE_BYTES;

/// Where the snapshot of the four counter bytes stands in the image.
const SNAPSHOT: usize = REGISTER_COUNT;

/// Both event counters: four bytes in the order of registers 0Dh to 10h.
///
/// ```
/// use fm3130::family::Counts;
///
/// let counts = Counts([0x05, 0x01, 0x02, 0x00]);
/// assert_eq!((counts.one(), counts.two()), (0x0105, 0x0002));
/// assert_eq!(counts.pair(), 0x0002_0105);
/// assert_eq!(counts.to_string(), "1: 261 (0105h), 2: 2 (0002h)");
/// ```
#[derive(Clone, Copy, Debug, Default, PartialEq, Eq, Hash)]
pub struct Counts(pub [u8; 4]);

impl Counts {
    /// Counter 1, 16 bits.
    pub fn one(self) -> u16 {
        let [low, high, ..] = self.0;
        u16::from_le_bytes([low, high])
    }

    /// Counter 2, 16 bits.
    pub fn two(self) -> u16 {
        let [.., low, high] = self.0;
        u16::from_le_bytes([low, high])
    }

    /// Both as one counter of 32 bits, as they count while CC is 1: counter 1 is the low half.
    pub fn pair(self) -> u32 {
        u32::from_le_bytes(self.0)
    }
}

/// Each counter by itself, in decimal and hexadecimal.
impl fmt::Display for Counts {
    fn fmt(&self, formatter: &mut fmt::Formatter<'_>) -> fmt::Result {
        let (one, two) = (self.one(), self.two());
        write!(formatter, "1: {one} ({one:04X}h), 2: {two} ({two:04X}h)")
    }
}

/// What a well-formed image of the family holds. It is a copy to look at; the image stays the truth.
///
/// ```
/// use fm3130::family::{event, Fm3164};
/// use fm3130::Phase;
///
/// let mut device = Fm3164::fresh();
/// device.run(&[event::EDGE_1, event::START, event::CLOCK_HIGH])?;
/// let state = device.state();
/// assert_eq!((state.phase, state.clocks), (Phase::SlaveByte, 1));
/// assert_eq!(state.counts().one(), 1);
/// # Ok::<(), fm3130::family::Refusal>(())
/// ```
#[derive(Clone, Copy, Debug, PartialEq, Eq)]
pub struct State {
    /// Registers 09h to 18h.
    pub registers: [u8; REGISTER_COUNT],
    /// The counters as RC froze them last; reads show them while RC is 1.
    pub snapshot: Counts,
    /// The companion's address, 09h to 18h.
    pub companion_address: u8,
    /// The memory's address, below the size.
    pub memory_address: u16,
    /// Which supplies are there.
    pub power: Power,
    /// What byte is under way.
    pub phase: Phase,
    /// The clocks of that byte already done, 0 to 8.
    pub clocks: u8,
    /// The bits received so far, or the byte that the device sends once its first clock fixed it.
    pub byte: u8,
    /// The first address byte, while the second is under way; else 0.
    pub first_address_byte: u8,
}

impl State {
    /// Takes apart the image of a well-formed state.
    pub(crate) fn of_image(image: &[u8; IMAGE_BYTES]) -> State {
        let mut registers = [0; REGISTER_COUNT];
        registers.copy_from_slice(&image[..REGISTER_COUNT]);
        let mut snapshot = [0; 4];
        snapshot.copy_from_slice(&image[SNAPSHOT..SNAPSHOT + 4]);
        let bus = BusBytes::of_image(image);
        State {
            registers,
            snapshot: Counts(snapshot),
            companion_address: bus.companion_address,
            memory_address: bus.memory_address,
            power: bus.power,
            phase: bus.phase,
            clocks: bus.clocks,
            byte: bus.byte,
            first_address_byte: bus.first_address_byte,
        }
    }

    /// The byte of the register at an address, 09h to 18h; none outside.
    ///
    /// ```
    /// let state = fm3130::family::Fm3164::fresh().state();
    /// assert_eq!(state.register(0x09), Some(0x60));
    /// assert_eq!((state.register(0x08), state.register(0x19)), (None, None));
    /// ```
    pub fn register(&self, address: u8) -> Option<u8> {
        let place = address.checked_sub(registers::FIRST)?;
        self.registers.get(usize::from(place)).copied()
    }

    /// The counters as they run, whether or not reads are frozen.
    ///
    /// ```
    /// assert_eq!(fm3130::family::Fm3164::fresh().state().counts().pair(), 0);
    /// ```
    pub fn counts(&self) -> Counts {
        let [_, _, _, _, a, b, c, d, ..] = self.registers;
        Counts([a, b, c, d])
    }

    /// The serial number, 11h first.
    ///
    /// ```
    /// assert_eq!(fm3130::family::Fm31256::fresh().state().serial(), [0; 8]);
    /// ```
    pub fn serial(&self) -> [u8; 8] {
        let [.., a, b, c, d, e, f, g, h] = self.registers;
        [a, b, c, d, e, f, g, h]
    }

    /// Whether SNL is 1: nothing changes the serial number any more.
    pub fn is_locked(&self) -> bool {
        self.has(registers::CONTROL, registers::SNL)
    }

    /// Whether RC is 1: reads of the counters show the snapshot.
    pub fn is_frozen(&self) -> bool {
        self.has(registers::COUNTING, registers::RC)
    }

    /// Whether CC is 1: the two counters are one of 32 bits on CNT1.
    pub fn is_joined(&self) -> bool {
        self.has(registers::COUNTING, registers::CC)
    }

    fn has(&self, address: u8, bit: u8) -> bool {
        self.register(address).is_some_and(|byte| byte & bit != 0)
    }
}
