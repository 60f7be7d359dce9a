// SPDX-License-Identifier: Apache-2.0
//! Which bytes the viewer shows. It takes any number, as 01 says, and refuses all but these two.
//!
//! ```
//! use fm3130::{selector, Device};
//!
//! let device = Device::fresh();
//! assert_eq!(device.view(selector::REGISTERS, 5, 3)?, [1, 1, 1]);
//! # Ok::<(), fm3130::Refusal>(())
//! ```

/// The memory.
pub const MEMORY: u64 = 0;
/// The registers.
pub const REGISTERS: u64 = 1;

/// The bytes that are shown, once the archive has refused nothing; none past the end.
pub(crate) fn shown<'part>(
    memory: &'part [u8],
    registers: &'part [u8],
    selector: u64,
    start: u64,
    length: u64,
) -> Option<&'part [u8]> {
    let chosen = match selector {
        MEMORY => memory,
        _ => registers,
    };
    // Number 0 says that start + length is at most the length of a memory, so neither cast loses bits.
    let (start, length) = (start as usize, length as usize);
    chosen.get(start..start.saturating_add(length))
}
