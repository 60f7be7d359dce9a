// SPDX-License-Identifier: Apache-2.0
//! The C interface of the proved archive, once for all programs in Rust: each function of `include/fm3130.h` and
//! `include/fm31.h` under its own name, with a slice in place of each pointer and its length.
//!
//! Nothing is made of what they return: a number is the archive's own, as the headers say it, and whoever calls
//! looks at it. The crate `fm3130` is the interface to use in a program.
//!
//! The archive asks of its callers that the buffers are not null and do not overlap. Rust's slices are never null,
//! and an exclusive slice overlaps no other slice that is alive: each function hands on exactly the pointers and
//! lengths of its slices, so safe code cannot break the rule. The archive allocates nothing and keeps no pointer.

/// What `fm3130_run` and `fm3130_call` return: the number, and how many events were done.
#[repr(C)]
#[derive(Clone, Copy, Debug, PartialEq, Eq)]
pub struct Ran {
    pub number: u64,
    pub count: u64,
}

/// What `fm3130_mend` returns: the number, and how many registers were changed.
#[repr(C)]
#[derive(Clone, Copy, Debug, PartialEq, Eq)]
pub struct Mended {
    pub number: u64,
    pub count: u64,
}

/// What the master's functions return: their own number, and how many bytes were written.
#[repr(C)]
#[derive(Clone, Copy, Debug, PartialEq, Eq)]
pub struct Filled {
    pub number: u64,
    pub count: u64,
}

/// What `fm3130_judge` returns: the verdict's number, and its place.
#[repr(C)]
#[derive(Clone, Copy, Debug, PartialEq, Eq)]
pub struct Judgement {
    pub number: u64,
    pub place: u64,
}

/// What `fm3130_lamps` returns: the number, and the report, bit k for lamp k.
#[repr(C)]
#[derive(Clone, Copy, Debug, PartialEq, Eq)]
pub struct Shown {
    pub number: u64,
    pub report: u64,
}

/// Declares a function of the archive: a slice is a pointer and a length, a number is itself. The arguments are
/// taken one by one from the first list to the second.
macro_rules! declared {
    ($name:ident, $answer:ty, [], [$($taken:tt)*]) => {
        unsafe extern "C" {
            pub fn $name($($taken)*) -> $answer;
        }
    };
    ($name:ident, $answer:ty, [$slice:ident: &[u8] $(, $($rest:tt)*)?], [$($taken:tt)*]) => {
        declared!($name, $answer, [$($($rest)*)?], [$($taken)* $slice: *const u8, _: u64,]);
    };
    ($name:ident, $answer:ty, [$slice:ident: &mut [u8] $(, $($rest:tt)*)?], [$($taken:tt)*]) => {
        declared!($name, $answer, [$($($rest)*)?], [$($taken)* $slice: *mut u8, _: u64,]);
    };
    ($name:ident, $answer:ty, [$number:ident: $kind:ty $(, $($rest:tt)*)?], [$($taken:tt)*]) => {
        declared!($name, $answer, [$($($rest)*)?], [$($taken)* $number: $kind,]);
    };
}

/// Calls a function of the archive, with the arguments of `declared`.
macro_rules! called {
    ($name:ident, [], [$($taken:tt)*]) => {
        // SAFETY: each pointer and length is a live slice's own, so it is not null and the archive may read it, and
        // write where it is exclusive; an exclusive slice overlaps nothing. Of numbers the archive asks nothing.
        unsafe { foreign::$name($($taken)*) }
    };
    ($name:ident, [$slice:ident: &[u8] $(, $($rest:tt)*)?], [$($taken:tt)*]) => {
        called!($name, [$($($rest)*)?], [$($taken)* $slice.as_ptr(), $slice.len() as u64,])
    };
    ($name:ident, [$slice:ident: &mut [u8] $(, $($rest:tt)*)?], [$($taken:tt)*]) => {
        called!($name, [$($($rest)*)?], [$($taken)* $slice.as_mut_ptr(), $slice.len() as u64,])
    };
    ($name:ident, [$number:ident: $kind:ty $(, $($rest:tt)*)?], [$($taken:tt)*]) => {
        called!($name, [$($($rest)*)?], [$($taken)* $number,])
    };
}

/// The table: for each line the declaration of the archive's function, and a safe function of its name.
macro_rules! entries {
    ($($(#[$comment:meta])* fn $name:ident($($arguments:tt)*) -> $answer:ty;)*) => {
        mod foreign {
            #[allow(unused_imports)]
            use super::{Filled, Judgement, Mended, Ran, Shown};

            $(declared!($name, $answer, [$($arguments)*], []);)*
        }

        $(safe!($(#[$comment])* $name, $answer, [$($arguments)*]);)*
    };
}

macro_rules! safe {
    ($(#[$comment:meta])* $name:ident, $answer:ty, [$($arguments:tt)*]) => {
        $(#[$comment])*
        #[allow(clippy::too_many_arguments)]
        pub fn $name($($arguments)*) -> $answer {
            called!($name, [$($arguments)*], [])
        }
    };
}

entries! {
    /// Writes the fresh image.
    fn fm3130_fresh(image: &mut [u8]) -> u64;

    /// Runs a list of events.
    fn fm3130_run(image: &mut [u8], memory: &mut [u8], events: &[u8], answers: &mut [u8]) -> Ran;

    /// The same, by its number alone.
    fn fm3130_run_number(image: &mut [u8], memory: &mut [u8], events: &[u8], answers: &mut [u8]) -> u64;

    /// Does one event; its answer byte and the number of the field that a tick changed go to `told`.
    fn fm3130_step(image: &mut [u8], memory: &mut [u8], event: u64, told: &mut [u8]) -> u64;

    /// What the device will do to the line: the number in the low byte, and a bit for each Clock that it pulls.
    fn fm3130_line(image: &[u8], memory: &[u8]) -> u64;

    /// On the pins of a controller: the first look, and the word of what is known after it.
    fn fm3130_pins_begin(image: &[u8], memory: &[u8], levels: u64) -> u64;

    /// One look: what is due, and what SDA is to do.
    fn fm3130_pins_look(word: u64, levels: u64) -> u64;

    /// SDA was turned, with SCL as it was read before that and after.
    fn fm3130_pins_driven(before: u64, word: u64, scl: u64) -> u64;

    /// Does what is due.
    fn fm3130_pins_settle(image: &mut [u8], memory: &mut [u8], word: u64) -> u64;

    /// Hands in a tick or a power event.
    fn fm3130_pins_hand(image: &[u8], word: u64, event: u64) -> u64;

    /// Does many ticks.
    fn fm3130_catch_up(image: &mut [u8], ticks: u64) -> u64;

    /// Runs a list of events with the proving record.
    fn fm3130_lamps(
        image: &mut [u8],
        memory: &mut [u8],
        events: &[u8],
        answers: &mut [u8],
        record: &mut [u8],
    ) -> Shown;

    /// The viewer's number.
    fn fm3130_view_number(image: &[u8], memory: &[u8], selector: u64, start: u64, length: u64) -> u64;

    /// Puts an image right.
    fn fm3130_mend(image: &mut [u8], changes: &mut [u8]) -> Mended;

    /// The events of a master's write.
    fn fm3130_write_events(address: u64, bytes: &[u8], events: &mut [u8]) -> Filled;

    /// The events of a master's read.
    fn fm3130_read_events(address: u64, count: u64, events: &mut [u8]) -> Filled;

    /// What the answers to a master's write tell.
    fn fm3130_write_told(count: u64, answers: &[u8], flags: &mut [u8]) -> Filled;

    /// What the answers to a master's read tell.
    fn fm3130_read_told(count: u64, answers: &[u8], bytes: &mut [u8]) -> Filled;

    /// Judges a capture.
    fn fm3130_judge(file: &[u8]) -> Judgement;

    /// A master asks for the bus.
    fn fm3130_ask(bus: &mut [u8], master: u64) -> u64;

    /// A master runs a list of events.
    fn fm3130_call(
        bus: &mut [u8],
        master: u64,
        image: &mut [u8],
        memory: &mut [u8],
        events: &[u8],
        answers: &mut [u8],
    ) -> Ran;

    /// The number of the verdict on a trim setting.
    fn fm3130_trim_check(error: i32, sign: u64, code: u64) -> u64;

    /// What a trim setting leaves; 0 where the checker refuses.
    fn fm3130_trim_residue(error: i32, sign: u64, code: u64) -> i32;

    /// The number of the setting that is proposed.
    fn fm3130_trim_propose(error: i32) -> u64;

    /// Writes the fresh image of the larger family.
    fn fm31_fresh(image: &mut [u8]) -> u64;

    /// Runs a list of events on an FM3164.
    fn fm3164_run(image: &mut [u8], memory: &mut [u8], events: &[u8], answers: &mut [u8]) -> u64;

    /// Runs a list of events on an FM31256.
    fn fm31256_run(image: &mut [u8], memory: &mut [u8], events: &[u8], answers: &mut [u8]) -> u64;

    /// Does one event on an FM3164; its answer byte goes to `told`.
    fn fm3164_step(image: &mut [u8], memory: &mut [u8], event: u64, told: &mut [u8]) -> u64;

    /// Does one event on an FM31256; its answer byte goes to `told`.
    fn fm31256_step(image: &mut [u8], memory: &mut [u8], event: u64, told: &mut [u8]) -> u64;

    /// The viewer's number of an FM3164.
    fn fm3164_view_number(image: &[u8], memory: &[u8], selector: u64, start: u64, length: u64) -> u64;

    /// The viewer's number of an FM31256.
    fn fm31256_view_number(image: &[u8], memory: &[u8], selector: u64, start: u64, length: u64) -> u64;

    /// Whether a set can be made: the number.
    fn fm31_set_check(plan: &[u8], images: &[u8], one: &[u8], two: &[u8], three: &[u8], four: &[u8]) -> u64;

    /// Runs a list of events on a set.
    fn fm31_set_run(
        plan: &[u8],
        images: &mut [u8],
        one: &mut [u8],
        two: &mut [u8],
        three: &mut [u8],
        four: &mut [u8],
        events: &[u8],
        answers: &mut [u8],
    ) -> u64;
}
