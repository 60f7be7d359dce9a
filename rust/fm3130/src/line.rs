// SPDX-License-Identifier: Apache-2.0
//! What the device will do to the line, before a clock rises.

use crate::refusal::Refusal;

/// Whether the device pulls the line low: of the next Clock, and of the one after it. A controller that
/// drives real wires asks this before the clock rises; the answer to a Clock comes too late for that.
///
/// ```
/// use fm3130::Device;
///
/// // Start, and seven bits of the slave byte A0h: the eighth may be 0 or 1, both are acknowledged.
/// let mut device = Device::fresh();
/// device.run(&[0, 3, 2, 3, 2, 2, 2, 2])?;
/// let line = device.next_line()?;
/// assert!(!line.pulled && line.pulled_after_low && line.pulled_after_high);
/// device.run(&[2])?;
/// assert!(device.next_line()?.pulled); // the acknowledge
/// # Ok::<(), fm3130::Refusal>(())
/// ```
#[derive(Clone, Copy, Debug, Default, PartialEq, Eq, Hash)]
pub struct NextLine {
    /// Of the next Clock.
    pub pulled: bool,
    /// Of the Clock after it, if the next one is low (event 2).
    pub pulled_after_low: bool,
    /// Of the Clock after it, if the next one is high (event 3).
    pub pulled_after_high: bool,
}

impl NextLine {
    /// What the archive returned: the number in the low eight bits, a line in each of the next three.
    pub(crate) fn of_word(word: u64) -> Result<NextLine, Refusal> {
        Refusal::outcome_of(word & 0xFF)?;
        Ok(NextLine {
            pulled: word & 0x100 != 0,
            pulled_after_low: word & 0x200 != 0,
            pulled_after_high: word & 0x400 != 0,
        })
    }
}
