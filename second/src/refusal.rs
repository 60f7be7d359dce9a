// SPDX-License-Identifier: Apache-2.0
//! The numbers of refusals, as 01's table and the requests of 02 give them.

/// 1: "memory is not 8,192 bytes"; 02, number 5: "the wrong length for the chosen
/// size".
pub const WRONG_MEMORY: u8 = 1;

/// 2: "image is not 64 bytes, or no well-formed state writes it ...; for a state
/// by value, outside the limits below".
pub const WRONG_STATE: u8 = 2;

/// 3: "some event byte is above 7"; 02, number 5: "number 3 starts at 10 for this
/// part".
pub const UNKNOWN_EVENT: u8 = 3;

/// 4: "answers shorter than events".
pub const ANSWERS_TOO_SHORT: u8 = 4;

/// 5: "viewer: selector neither 0 (memory) nor 1 (registers)".
pub const UNKNOWN_SELECTOR: u8 = 5;

/// 6: "viewer: start + length (exact sum) passes the end of the chosen bytes".
pub const PAST_THE_END: u8 = 6;

/// 02, number 8: "refused with a new number 7", when the other master holds the
/// bus, or this one does not and needs it.
pub const BUS_NOT_HELD: u8 = 7;

/// 02, number 7: "a larger n is refused by number 8".
pub const TOO_MANY_TICKS: u8 = 8;

/// 02, number 12: "up to four devices"; none, or more than four, are no set. The
/// request names no numbers; 9 to 11 are the project's.
pub const NOT_ONE_TO_FOUR_DEVICES: u8 = 9;

/// 02, number 12: "Equal selects ... are refused when the set is made".
pub const EQUAL_SELECTS: u8 = 10;

/// 02, number 12: "a device not between transfers" is refused too, when the set is
/// made; when a list is run on it, devices that stand as in no set that was made.
pub const NOT_BETWEEN_TRANSFERS: u8 = 11;
