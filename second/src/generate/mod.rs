// SPDX-License-Identifier: Apache-2.0
//! Generators of event lists. They are deterministic: the same arguments give
//! the same lists.
//!
//! * [`exhaustive`]: small families that try every value of something.
//! * [`for_every_prefix`]: those of them that pass through every place of every kind
//!   of transfer, to ask something after each of their events.
//! * [`structured`]: transactions of every kind with chosen disturbances.
//! * [`random`]: noise and plausible traffic by weights.
//! * [`handed_in`] and [`handed_in_random`]: lists that begin in a state handed
//!   in, so with an invalid core too, which no events bring about.
//! * [`handed_in_any_phase`], [`family_any_phase`] and [`set_any_phase`]: random lists
//!   that begin in a state handed in of any phase, so inside transfers too.
//! * [`ticks_told`]: short lists of ticks over every midnight of the century and
//!   the ends of minutes and hours, to ask each tick what rolled over.
//! * [`lamps`]: lists that read the eight lamps of 02, number 11, in every way.
//! * [`family_exhaustive`], [`family_structured`] and [`family_random`]: the same for
//!   the larger family, for a chosen size; [`family_calls`] and [`family_views`]:
//!   3,129 calls and 5,184 views a size, on and over the edges of each refusal.
//! * [`set_exhaustive`] and [`set_random`]: lists for one to four parts on one line;
//!   [`set_calls`]: 1,710 sets made or refused, and lists run on them or refused;
//!   [`set_runs`]: 4,960 lists run on devices handed in that may be inside transfers.
//! * [`trim_edges`]: 23,040 errors and settings at the edges of what is allowed.
//!
//! What [`exhaustive`] holds; `tests/generators.rs` fails when the numbers are
//! no longer true:
//!
//! | family | lists | events | what it tries |
//! |---|---|---|---|
//! | slave-bytes | 512 | 73,216 | all 256 slave bytes, ninth bits high and low |
//! | companion-addresses | 256 | 19,712 | all 256 companion address bytes |
//! | memory-address-bytes | 256 | 66,048 | all first and all second address bytes |
//! | write-protection | 256 | 213,248 | all 256 bytes of 0Eh, addresses at each border |
//! | reading-on | 384 | 46,584 | every WP and border, then reads that set no address |
//! | data-byte-cuts | 960 | 88,800 | every WP and border, the data byte cut, then read on |
//! | address-wraps | 246 | 149,820 | from 0Eh to 00h and from 1FFFh to 0000h |
//! | cuts | 2,325 | 500,295 | every transaction cut after every clock |
//! | insertions | 930 | 200,844 | a tick or event 7 after every clock |
//! | pairs-of-events | 3,520 | 479,680 | all 64 pairs inside transactions |
//! | register-values | 60 | 1,060,556 | every register, byte, W and CAL |
//! | control-writes | 16 | 595,392 | every byte of 00h after every AEN CAL W R |
//! | flags-kept | 8 | 558,080 | every byte of 00h with every set of flags |
//! | flag-races | 88 | 37,628 | ticks inside a read of 00h |
//! | month-ends | 100 | 580,800 | 1,200 month ends and the days before |
//! | rollovers | 15 | 68,244 | every second, minute, hour, day, date, year |
//! | whole-day | 1 | 168,610 | 86,400 ticks |
//! | calendar-field-values | 28 | 433,664 | all 256 values of each calendar byte |
//! | alarm-field-values | 5 | 89,340 | all 256 values of each alarm byte |
//! | alarm-matches | 32 | 112,608 | every Match and every difference |
//! | bad-date-bytes | 28 | 732,928 | all 256 values of each calendar byte, then W falls |
//! | bad-date-controls | 1,056 | 564,960 | every kind of fault, every R, every byte of 00h |
//! | bad-date-rollovers | 660 | 390,456 | 00h reached by rolling over from 0Eh |
//! | bad-date-cuts | 88 | 46,720 | the byte of 00h cut after every clock |
//! | power-sequences | 1,024 | 361,472 | all five events out of 4, 5, 6, 7 |
//! | pin-functions | 32 | 6,000 | every AEN, CAL, AL/SW and AF |
//! | ticks-everywhere | 48 | 27,072 | core, oscillator, W, R and power |
//! | all | 12,934 | 7,672,777 | |
//!
//! What [`handed_in`] holds:
//!
//! | family | lists | events | what it tries |
//! |---|---|---|---|
//! | core-bytes | 680 | 152,320 | every byte that each field of the core can hold |
//! | core-samples | 792 | 237,600 | every kind of fault with W, R, oscillator, supply |
//! | register-samples | 528 | 146,784 | every kind of fault in 02h to 08h, W and R |
//! | supplies-and-addresses | 432 | 22,464 | every supply, addresses that no loss leaves |
//! | all | 2,432 | 559,168 | |
//!
//! What [`ticks_told`] holds:
//!
//! | family | lists | events | what it tries |
//! |---|---|---|---|
//! | midnights | 36,525 | 109,575 | every midnight of the century |
//! | minute-ends | 10,080 | 30,240 | every minute of seven dates |
//! | all | 46,605 | 139,815 | |
//!
//! What [`family_exhaustive`] holds for either size; `tests/family_generators.rs`
//! fails when the numbers are no longer true:
//!
//! | family | lists | events | what it tries |
//! |---|---|---|---|
//! | family-slave-bytes | 512 | 73,216 | all 256 slave bytes, ninth bits high and low |
//! | family-companion-addresses | 256 | 76,288 | all 256 companion address bytes |
//! | family-memory-address-bytes | 256 | 132,096 | all address bytes, bits above the size |
//! | family-write-protection | 256 | 213,248 | all 256 bytes of 0Bh, addresses at each border |
//! | family-data-byte-cuts | 960 | 134,880 | every WP and border, the data byte cut |
//! | family-address-wraps | 54 | 29,484 | from 18h to 09h and from the last byte to 0000h |
//! | family-cuts | 3,540 | 866,784 | every transaction cut after every clock |
//! | family-insertions | 1,416 | 307,992 | a tick or event 7 after every clock |
//! | family-pairs-of-events | 6,000 | 973,200 | all 100 pairs inside transactions |
//! | family-register-values | 32 | 563,552 | every register and byte, SNL 0 and 1 |
//! | family-flags-kept | 2,048 | 356,352 | every byte of 09h and 0Bh over every flag |
//! | family-counter-tops | 324 | 168,480 | both counters at and around their tops, CC |
//! | family-long-counts | 6 | 533,998 | more than 65,536 edges |
//! | family-edges-everywhere | 5,784 | 1,912,104 | an edge after every clock, CC and RC |
//! | family-edges-in-counter-writes | 1,584 | 332,784 | edges inside writes of each counter byte |
//! | family-count-controls | 512 | 204,032 | every byte of 0Ch after every other |
//! | family-frozen-reads | 780 | 244,036 | frozen reads cut after every clock |
//! | family-writes-while-frozen | 128 | 48,224 | counter bytes written while RC is 1 |
//! | family-locks-inside-writes | 240 | 212,880 | long writes that lock on their way |
//! | family-locks-and-protection | 64 | 81,664 | SNL and WP before and after |
//! | family-locks-and-supplies | 108 | 97,416 | locked or not, all three power events |
//! | family-power-sequences | 2,592 | 990,144 | all four events out of 4 to 9 |
//! | family-power-everywhere | 2,124 | 643,236 | a loss of power after every clock |
//! | family-handed-in | 96 | 37,536 | every supply with every byte of 0Ch |
//! | family-handed-in-addresses | 972 | 59,292 | every supply, addresses that no loss leaves |
//! | all | 30,644 | 9,292,918 | |
//!
//! What [`set_exhaustive`] holds; `tests/family_sets.rs` fails when the numbers are
//! no longer true:
//!
//! | family | lists | events | what it tries |
//! |---|---|---|---|
//! | set-arrangements | 128 | 281,312 | all 64 arrangements of selects, both orders of sizes |
//! | set-slave-bytes | 1,536 | 1,250,304 | all 256 slave bytes on sets of four, two and one |
//! | set-edges-inside | 720 | 903,744 | ticks and edges on all inputs after every clock |
//! | set-power-inside | 816 | 990,312 | power events inside transactions |
//! | set-other-starts | 1,184 | 1,461,416 | a Start to another device inside a transaction |
//! | set-supplies | 729 | 118,827 | every choice of supplies, addresses that no loss leaves |
//! | all | 5,113 | 5,005,915 | |

mod any_phase_lists;
mod exhaustive_bad_dates;
mod exhaustive_bus;
mod exhaustive_calendar;
mod exhaustive_lists;
mod exhaustive_power;
mod exhaustive_refused;
mod exhaustive_registers;
mod family;
mod handed_in_lists;
mod lamp_lists;
mod random_lists;
mod random_source;
mod sample_calendars;
mod script;
mod starting_state;
mod structured_bad_dates;
mod structured_bus;
mod structured_calendar;
mod structured_companion;
mod structured_lists;
mod structured_refused;
mod ticks_told_lists;
mod transactions;
mod trim_edges;

pub use any_phase_lists::{any_state_in_any_phase, handed_in_any_phase, AnyPhaseList};
pub use exhaustive_lists::{exhaustive, for_every_prefix};
pub use family::{
    addressed_to, any_family_state, any_family_state_in_any_phase, count_family_events,
    count_set_events, family_any_phase, family_calls, family_exhaustive, family_random,
    family_structured, family_views, select_arrangements, set_any_phase, set_calls, set_exhaustive,
    set_random, set_runs, FamilyCall, FamilyList, FamilyView, SetCall, SetCallPlace, SetList,
    SetPlace,
};
pub use handed_in_lists::{count_handed_in_events, handed_in, handed_in_random, HandedInList};
pub use lamp_lists::lamps;
pub use random_lists::random;
pub use random_source::RandomSource;
pub use sample_calendars::{invalid_calendars, valid_calendars};
pub use script::Script;
pub use starting_state::{any_state, StartingState};
pub use structured_lists::structured;
pub use ticks_told_lists::ticks_told;
pub use trim_edges::trim_edges;

use crate::device::Device;

/// One list of events, to be run on a fresh device whose memory may be preset
/// by `memory_seed` (see [`fill_memory`]).
#[derive(Clone, Debug, PartialEq, Eq)]
pub struct List {
    pub family: &'static str,
    pub name: String,
    pub memory_seed: u64,
    pub events: Vec<u8>,
}

impl List {
    /// A list made of a script.
    pub fn from_script(family: &'static str, name: String, seed: u64, script: Script) -> List {
        List {
            family,
            name,
            memory_seed: seed,
            events: script.events,
        }
    }

    /// The device that the list is to be run on.
    pub fn device(&self) -> Device {
        let mut device = Device::fresh();
        fill_memory(self.memory_seed, &mut device.memory);
        device
    }
}

/// Fills a memory: seed 0 makes it all 0, any other seed gives pseudo random
/// bytes.
pub fn fill_memory(seed: u64, memory: &mut [u8]) {
    let mut source = RandomSource::new(seed);
    for byte in memory.iter_mut() {
        *byte = if seed == 0 { 0 } else { source.byte() };
    }
}

/// The number of events of some lists together.
pub fn count_events(lists: &[List]) -> usize {
    lists.iter().map(|list| list.events.len()).sum()
}
