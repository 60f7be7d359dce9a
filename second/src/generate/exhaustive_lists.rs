// SPDX-License-Identifier: Apache-2.0
//! All exhaustive families together.

use super::{
    exhaustive_bad_dates, exhaustive_bus, exhaustive_calendar, exhaustive_power,
    exhaustive_refused, exhaustive_registers, List,
};

/// The small exhaustive families; see the modules for what each tries.
pub fn exhaustive() -> Vec<List> {
    let mut lists = Vec::new();
    lists.extend(exhaustive_bus::slave_bytes());
    lists.extend(exhaustive_bus::companion_addresses());
    lists.extend(exhaustive_bus::memory_address_bytes());
    lists.extend(exhaustive_bus::write_protection());
    lists.extend(exhaustive_refused::reading_on());
    lists.extend(exhaustive_refused::data_byte_cuts());
    lists.extend(exhaustive_bus::address_wraps());
    lists.extend(exhaustive_bus::cuts());
    lists.extend(exhaustive_bus::insertions());
    lists.extend(exhaustive_bus::pairs_of_events());
    lists.extend(exhaustive_registers::register_values());
    lists.extend(exhaustive_registers::control_writes());
    lists.extend(exhaustive_registers::flags_kept());
    lists.extend(exhaustive_registers::flag_races());
    lists.extend(exhaustive_calendar::month_ends());
    lists.extend(exhaustive_calendar::rollovers());
    lists.extend(exhaustive_calendar::whole_day());
    lists.extend(exhaustive_calendar::field_values());
    lists.extend(exhaustive_calendar::alarm_field_values());
    lists.extend(exhaustive_calendar::alarm_match_combinations());
    lists.extend(exhaustive_bad_dates::every_byte());
    lists.extend(exhaustive_bad_dates::every_control());
    lists.extend(exhaustive_bad_dates::rolled_over());
    lists.extend(exhaustive_bad_dates::cuts());
    lists.extend(exhaustive_power::power_sequences());
    lists.extend(exhaustive_power::pin_functions());
    lists.extend(exhaustive_power::ticks_everywhere());
    lists
}

/// The exhaustive families that pass through every place of every kind of
/// transfer in many ways: 9,743 lists, 1,788,519 events.
pub fn for_every_prefix() -> Vec<List> {
    let mut lists = Vec::new();
    lists.extend(exhaustive_bus::slave_bytes());
    lists.extend(exhaustive_refused::reading_on());
    lists.extend(exhaustive_refused::data_byte_cuts());
    lists.extend(exhaustive_bus::cuts());
    lists.extend(exhaustive_bus::insertions());
    lists.extend(exhaustive_bus::pairs_of_events());
    lists.extend(exhaustive_registers::flag_races());
    lists.extend(exhaustive_power::power_sequences());
    lists
}
