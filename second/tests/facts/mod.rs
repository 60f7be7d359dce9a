// SPDX-License-Identifier: Apache-2.0
//! Watches a device and notes which situations come about.

use crate::snapshot::{snapshot, Snapshot};
use second::generate::{HandedInList, List};
use second::registers::alarm_matches;
use second::{Device, LogicalDevice, Phase, PinFunction, Power, Transfer};

/// The situations; each has kinds with numbers from 0 to 127.
#[derive(Clone, Copy, Debug, PartialEq, Eq)]
pub enum Situation {
    AFAndCFLeftByAWrite,
    AFRaisedDuringAReadOfControl,
    AFShownAndRaisedAgain,
    AFWithoutThePin,
    AcknowledgeWithMaster,
    AlarmOnThePin,
    AlarmRaisedWithAEN,
    AlarmRaisedWithPower,
    AlarmWithSelectedFields,
    BadDateRefused,
    BadDateRefusedByRollOver,
    BadDateRefusedWithR,
    BothAddressesClearedByEvent,
    CFRaisedDuringAReadOfControl,
    CalendarWrittenWithW,
    CalibrationWrittenWithCAL,
    ChangeOfWAndR,
    ChangeOfWAndRCoreApart,
    ClockOutsideATransfer,
    ClockWhileOff,
    CompanionAddressRefused,
    CountedTickWithWAndR,
    EndOfFebruary,
    FieldRolledOver,
    FlagsCleared,
    FlagsLeftByARead,
    FlagsRaised,
    FlagsShown,
    LBAndPORCleared,
    LBAndPORNotSet,
    MasterLowWhileDeviceSends1,
    MemoryByteStoredUnderProtection,
    NinthBitOfARead,
    PORSetByEvent,
    PinFunction,
    Place,
    Power,
    PowerEvent,
    PowerLostAt,
    ProtectedByteRefused,
    ReadOnAfterARefusedByte,
    RefusedAtABorder,
    RegisterWritten,
    StartAt,
    StopAt,
    Tick,
    TickAt,
    UnknownSlaveByte,
    UpperAddressBits,
    WrapByARefusedByte,
    WrapByRead,
    WrapByWrite,
}

const SITUATIONS: usize = 52;

/// A situation and the number of its kind.
pub type Fact = (Situation, u8);

/// A set of facts: for each situation one bit for each kind.
pub struct Facts {
    kinds: [u128; SITUATIONS],
}

impl Facts {
    fn new() -> Facts {
        Facts {
            kinds: [0; SITUATIONS],
        }
    }

    fn insert(&mut self, fact: Fact) {
        self.kinds[fact.0 as usize] |= 1 << fact.1;
    }

    pub fn contains(&self, fact: Fact) -> bool {
        self.kinds[fact.0 as usize] >> fact.1 & 1 == 1
    }
}

/// A number for each phase.
fn phase_number(phase: Phase) -> u8 {
    match phase {
        Phase::BetweenTransfers => 0,
        Phase::SlaveByte => 1,
        Phase::MemoryAddressHighByte => 2,
        Phase::MemoryAddressLowByte => 3,
        Phase::CompanionAddressByte => 4,
        Phase::WriteData(LogicalDevice::Memory) => 5,
        Phase::WriteData(LogicalDevice::Companion) => 6,
        Phase::ReadData(LogicalDevice::Memory) => 7,
        Phase::ReadData(LogicalDevice::Companion) => 8,
    }
}

fn power_number(power: Power) -> u8 {
    match power {
        Power::On => 0,
        Power::Backup => 1,
        Power::Gone => 2,
    }
}

/// The phase and the clocks of its byte as one number.
fn place_number(transfer: &Transfer) -> u8 {
    phase_number(transfer.phase) * 10 + transfer.clocks
}

/// Runs lists and collects what comes about.
pub fn facts_of(lists: &[List]) -> Facts {
    let mut facts = Facts::new();
    for list in lists {
        note_run(&mut facts, list.device(), &list.events);
    }
    facts
}

/// The same for lists with states handed in.
pub fn facts_of_handed_in(lists: &[HandedInList]) -> Facts {
    let mut facts = Facts::new();
    for list in lists {
        note_run(&mut facts, list.device(), &list.events);
    }
    facts
}

fn note_run(facts: &mut Facts, mut device: Device, events: &[u8]) {
    let mut refused_under = None;
    let mut rolled_over = false;
    for event in events {
        let before = snapshot(&device);
        let answer = device.event(*event);
        let after = snapshot(&device);
        note(facts, &before, *event, answer, &after, &device);
        note_reading_on(facts, &before, *event, &after, &mut refused_under);
        note_roll_over(facts, &before, *event, &after, &mut rolled_over);
    }
}

fn note(
    facts: &mut Facts,
    before: &Snapshot,
    event: u8,
    answer: u8,
    after: &Snapshot,
    device: &Device,
) {
    facts.insert((Situation::Place, place_number(&after.transfer)));
    facts.insert((Situation::Power, power_number(after.power)));
    note_pin(facts, after, answer, device);
    match event {
        0 => {
            facts.insert((Situation::StartAt, place_number(&before.transfer)));
        }
        1 => {
            facts.insert((Situation::StopAt, place_number(&before.transfer)));
        }
        2 | 3 => note_clock(facts, before, event == 3, answer & 1 == 1, after),
        4 => note_tick(facts, before, after),
        _ => note_power(facts, before, event, after),
    }
}

/// A memory read that begins while the address is still where a refused byte
/// left it; `refused_under` is the protection that refused the byte.
fn note_reading_on(
    facts: &mut Facts,
    before: &Snapshot,
    event: u8,
    after: &Snapshot,
    refused_under: &mut Option<u8>,
) {
    let is_clock = matches!(event, 2 | 3) && before.power == Power::On;
    let place = (before.transfer.phase, before.transfer.clocks);
    let refused = after.transfer.phase == Phase::BetweenTransfers;
    match place {
        (Phase::WriteData(LogicalDevice::Memory), 7) if is_clock && refused => {
            *refused_under = Some(before.registers[0x0E] >> 3 & 3);
        }
        (Phase::ReadData(LogicalDevice::Memory), 0) if is_clock => {
            if let Some(protection) = *refused_under {
                facts.insert((Situation::ReadOnAfterARefusedByte, protection));
            }
        }
        _ => {
            if before.memory_address != after.memory_address {
                *refused_under = None;
            }
        }
    }
}

fn note_pin(facts: &mut Facts, after: &Snapshot, answer: u8, device: &Device) {
    let function = device.pin_function();
    let kind = function.number() * 3 + power_number(after.power);
    facts.insert((Situation::PinFunction, kind));
    if function == PinFunction::Alarm {
        facts.insert((Situation::AlarmOnThePin, answer >> 3 & 1));
    } else if after.registers[0] & 0x40 != 0 {
        facts.insert((Situation::AFWithoutThePin, function.number()));
    }
}

fn note_clock(facts: &mut Facts, before: &Snapshot, master: bool, line: bool, after: &Snapshot) {
    if before.power != Power::On {
        facts.insert((Situation::ClockWhileOff, u8::from(line)));
        return;
    }
    let clocks = before.transfer.clocks;
    match before.transfer.phase {
        Phase::BetweenTransfers => {
            facts.insert((Situation::ClockOutsideATransfer, u8::from(line)));
        }
        Phase::ReadData(source) => note_read_clock(facts, before, master, line, after, source),
        _ if clocks == 8 => {
            facts.insert((Situation::AcknowledgeWithMaster, u8::from(master)));
        }
        _ if clocks == 7 => note_received_byte(facts, before, master, after),
        _ => {}
    }
}

fn note_read_clock(
    facts: &mut Facts,
    before: &Snapshot,
    master: bool,
    line: bool,
    after: &Snapshot,
    source: LogicalDevice,
) {
    let clocks = before.transfer.clocks;
    if clocks == 8 {
        facts.insert((Situation::NinthBitOfARead, u8::from(master)));
        return;
    }
    let bit = after.transfer.byte_sent >> (7 - clocks) & 1 == 1;
    if bit && !master {
        assert!(!line);
        facts.insert((Situation::MasterLowWhileDeviceSends1, 0));
    }
    if clocks != 7 {
        return;
    }
    note_wrap(facts, before, after, Situation::WrapByRead);
    if source == LogicalDevice::Companion && before.companion_address == 0 {
        let shown = before.transfer.byte_sent >> 5 & 3;
        let cleared = (before.registers[0] & !after.registers[0]) >> 5 & 3;
        let left = after.registers[0] >> 5 & 3;
        facts.insert((Situation::FlagsShown, shown));
        facts.insert((Situation::FlagsCleared, cleared));
        facts.insert((Situation::FlagsLeftByARead, left));
    }
}

fn note_wrap(facts: &mut Facts, before: &Snapshot, after: &Snapshot, name: Situation) {
    if before.memory_address == 0x1FFF && after.memory_address == 0 {
        facts.insert((name, 0));
    }
    if before.companion_address == 14 && after.companion_address == 0 {
        facts.insert((name, 1));
    }
}

/// The eighth clock of a byte received.
fn note_received_byte(facts: &mut Facts, before: &Snapshot, master: bool, after: &Snapshot) {
    let refused = after.transfer.phase == Phase::BetweenTransfers;
    let mut complete = before.transfer;
    complete.received_bits[7] = master;
    let byte = complete.received_byte();
    let protection = before.registers[0x0E] >> 3 & 3;
    match before.transfer.phase {
        Phase::SlaveByte if refused => facts.insert((Situation::UnknownSlaveByte, 0)),
        Phase::CompanionAddressByte if refused => {
            facts.insert((Situation::CompanionAddressRefused, 0))
        }
        Phase::WriteData(LogicalDevice::Memory) if refused => {
            note_wrap(facts, before, after, Situation::WrapByARefusedByte);
            note_border(facts, before.memory_address, protection);
            facts.insert((Situation::ProtectedByteRefused, protection))
        }
        Phase::WriteData(LogicalDevice::Memory) => {
            note_wrap(facts, before, after, Situation::WrapByWrite);
            facts.insert((Situation::MemoryByteStoredUnderProtection, protection))
        }
        Phase::WriteData(LogicalDevice::Companion) if refused => {
            note_bad_date(facts, before, byte);
        }
        Phase::WriteData(LogicalDevice::Companion) => {
            note_wrap(facts, before, after, Situation::WrapByWrite);
            note_register_write(facts, before, byte, after);
            facts.insert((Situation::RegisterWritten, before.companion_address))
        }
        Phase::MemoryAddressHighByte => facts.insert((Situation::UpperAddressBits, byte >> 5)),
        _ => {}
    }
}

/// A byte of 00h that is refused; the kinds are 0 to 6 for the register that is
/// at fault first, 7 for a date beyond its month's end.
fn note_bad_date(facts: &mut Facts, before: &Snapshot, byte: u8) {
    let limits = [0x59, 0x59, 0x23, 0x07, 0x31, 0x12, 0x99];
    let lowest = [0, 0, 0, 1, 1, 1, 0];
    let at_fault = (0..7).find(|place| {
        let field = before.registers[2 + place];
        field & 0x0F > 9 || field > limits[*place] || field < lowest[*place]
    });
    let kind = at_fault.unwrap_or(7) as u8;
    facts.insert((Situation::BadDateRefused, kind));
    let read_bits = (before.registers[0] & 1) * 2 + (byte & 1);
    facts.insert((Situation::BadDateRefusedWithR, read_bits));
}

/// Registers 0Eh and 00h written in one transaction, the second one refused.
fn note_roll_over(
    facts: &mut Facts,
    before: &Snapshot,
    event: u8,
    after: &Snapshot,
    rolled_over: &mut bool,
) {
    let is_clock = matches!(event, 2 | 3) && before.power == Power::On;
    let writing = before.transfer.phase == Phase::WriteData(LogicalDevice::Companion);
    if !writing || !is_clock {
        *rolled_over = false;
        return;
    }
    let refused = after.transfer.phase == Phase::BetweenTransfers;
    if *rolled_over && before.transfer.clocks == 7 && refused {
        facts.insert((Situation::BadDateRefusedByRollOver, 0));
    }
    if before.companion_address == 0x0E && after.companion_address == 0x00 {
        *rolled_over = true;
    }
}

/// The borders of the protected parts, from the lowest address on.
const BORDERS: [u16; 6] = [0x0000, 0x07FF, 0x0800, 0x0FFF, 0x1000, 0x1FFF];

fn note_border(facts: &mut Facts, address: u16, protection: u8) {
    if let Some(index) = BORDERS.iter().position(|border| *border == address) {
        facts.insert((Situation::RefusedAtABorder, protection * 8 + index as u8));
    }
}

fn note_register_write(facts: &mut Facts, before: &Snapshot, byte: u8, after: &Snapshot) {
    let old = before.registers[0];
    match before.companion_address {
        0 => {
            facts.insert((Situation::ChangeOfWAndR, (old & 3) * 4 + (byte & 3)));
            let apart = before.core.to_bytes() != before.registers[2..=8];
            if apart {
                facts.insert((
                    Situation::ChangeOfWAndRCoreApart,
                    (old & 3) * 4 + (byte & 3),
                ));
            }
            let cleared = old & !after.registers[0];
            facts.insert((
                Situation::LBAndPORCleared,
                cleared >> 7 << 1 | cleared >> 4 & 1,
            ));
            let tried = byte & !old & 0x90;
            facts.insert((Situation::LBAndPORNotSet, tried >> 7 << 1 | tried >> 4 & 1));
            facts.insert((Situation::AFAndCFLeftByAWrite, old >> 5 & 3));
        }
        1 => {
            facts.insert((Situation::CalibrationWrittenWithCAL, old >> 2 & 1));
        }
        2..=8 => {
            facts.insert((Situation::CalendarWrittenWithW, old >> 1 & 1));
        }
        _ => {}
    }
}

fn note_tick(facts: &mut Facts, before: &Snapshot, after: &Snapshot) {
    let halted = before.registers[1] >> 7;
    let valid = u8::from(before.core.is_valid());
    let kind = power_number(before.power) * 4 + halted * 2 + valid;
    facts.insert((Situation::Tick, kind));
    facts.insert((Situation::TickAt, place_number(&before.transfer)));
    if halted == 1 || before.power == Power::Gone {
        return;
    }
    facts.insert((Situation::CountedTickWithWAndR, before.registers[0] & 3));
    if valid == 0 {
        return;
    }
    let raised = after.registers[0] & !before.registers[0];
    facts.insert((Situation::FlagsRaised, raised >> 5 & 3));
    let matches = alarm_matches(&before.registers, &after.core);
    if matches {
        let selected = (0..5).fold(0, |sum, place| {
            sum * 2 + (before.registers[9 + place] >> 7 ^ 1)
        });
        facts.insert((Situation::AlarmWithSelectedFields, selected));
        facts.insert((Situation::AlarmRaisedWithAEN, before.registers[0] >> 3 & 1));
        facts.insert((Situation::AlarmRaisedWithPower, power_number(before.power)));
    }
    note_race(facts, before, raised, matches);
    note_rollover(facts, before, after);
}

/// A tick between the first and the eighth clock of a read of 00h.
fn note_race(facts: &mut Facts, before: &Snapshot, raised: u8, matches: bool) {
    let reading = before.transfer.phase == Phase::ReadData(LogicalDevice::Companion);
    let inside = (1..=7).contains(&before.transfer.clocks);
    if !reading || !inside || before.companion_address != 0 {
        return;
    }
    let shown = before.transfer.byte_sent;
    if raised & 0x40 != 0 && shown & 0x40 == 0 {
        facts.insert((
            Situation::AFRaisedDuringAReadOfControl,
            before.transfer.clocks,
        ));
    }
    if raised & 0x20 != 0 && shown & 0x20 == 0 {
        facts.insert((Situation::CFRaisedDuringAReadOfControl, 0));
    }
    if matches && shown & 0x40 != 0 {
        facts.insert((Situation::AFShownAndRaisedAgain, 0));
    }
}

fn note_rollover(facts: &mut Facts, before: &Snapshot, after: &Snapshot) {
    let old = before.core.to_bytes();
    let new = after.core.to_bytes();
    for place in 0..7 {
        if new[place] < old[place] {
            facts.insert((Situation::FieldRolledOver, place as u8));
        }
    }
    if old[5] == 2 && old[4] != new[4] && old[4] >= 0x28 {
        let kind = match (old[4], new[4]) {
            (0x28, 0x29) => 0,
            (0x28, 0x01) => 1,
            _ => 2,
        };
        facts.insert((Situation::EndOfFebruary, kind));
    }
}

fn note_power(facts: &mut Facts, before: &Snapshot, event: u8, after: &Snapshot) {
    let kind = (event - 5) * 3 + power_number(before.power);
    facts.insert((Situation::PowerEvent, kind));
    if before.power == Power::On && event != 7 {
        facts.insert((Situation::PowerLostAt, place_number(&before.transfer)));
    }
    let moved = before.memory_address != 0 && before.companion_address != 0;
    if moved && after.memory_address == 0 && after.companion_address == 0 {
        facts.insert((Situation::BothAddressesClearedByEvent, event));
    }
    if after.registers[0] & !before.registers[0] & 0x10 != 0 {
        facts.insert((Situation::PORSetByEvent, event));
    }
}

/// The facts that the lists have to show; the numbers of each name.
pub fn required_facts() -> Vec<Fact> {
    let mut required = Vec::new();
    let mut want = |name: Situation, numbers: &[u8]| {
        for number in numbers {
            required.push((name, *number));
        }
    };
    want(Situation::Power, &[0, 1, 2]);
    want(Situation::PinFunction, &[0, 1, 2, 3, 4, 6, 7, 9, 10]);
    want(Situation::AlarmOnThePin, &[0, 1]);
    want(Situation::AFWithoutThePin, &[0, 2, 3]);
    want(Situation::ClockWhileOff, &[0, 1]);
    want(Situation::ClockOutsideATransfer, &[0, 1]);
    want(Situation::AcknowledgeWithMaster, &[0, 1]);
    want(Situation::NinthBitOfARead, &[0, 1]);
    want(Situation::MasterLowWhileDeviceSends1, &[0]);
    want(Situation::WrapByRead, &[0, 1]);
    want(Situation::WrapByWrite, &[0, 1]);
    want(Situation::FlagsShown, &[0, 1, 2, 3]);
    want(Situation::FlagsCleared, &[0, 1, 2, 3]);
    want(Situation::FlagsLeftByARead, &[0, 2]);
    want(Situation::UnknownSlaveByte, &[0]);
    want(Situation::CompanionAddressRefused, &[0]);
    want(Situation::ProtectedByteRefused, &[1, 2, 3]);
    want(Situation::ReadOnAfterARefusedByte, &[1, 2, 3]);
    want(Situation::RefusedAtABorder, &[8, 9, 16, 17, 18, 19]);
    want(Situation::RefusedAtABorder, &[24, 25, 26, 27, 28, 29]);
    want(Situation::WrapByARefusedByte, &[0]);
    want(Situation::MemoryByteStoredUnderProtection, &[0, 1, 2]);
    want(Situation::UpperAddressBits, &[0, 7]);
    want(Situation::ChangeOfWAndR, &(0..16).collect::<Vec<u8>>());
    want(Situation::LBAndPORCleared, &[0, 1, 2, 3]);
    want(Situation::LBAndPORNotSet, &[0, 1, 2, 3]);
    want(Situation::AFAndCFLeftByAWrite, &[0, 1, 2, 3]);
    want(Situation::CalibrationWrittenWithCAL, &[0, 1]);
    want(Situation::CalendarWrittenWithW, &[0, 1]);
    want(Situation::RegisterWritten, &(0..15).collect::<Vec<u8>>());
    want(Situation::BadDateRefused, &[0, 1, 2, 3, 4, 5, 6, 7]);
    want(Situation::BadDateRefusedWithR, &[0, 1, 2, 3]);
    want(Situation::BadDateRefusedByRollOver, &[0]);
    required.extend(required_tick_and_power_facts());
    required.extend(required_places());
    required
}

fn required_tick_and_power_facts() -> Vec<Fact> {
    let mut required = Vec::new();
    let mut want = |name: Situation, numbers: &[u8]| {
        for number in numbers {
            required.push((name, *number));
        }
    };
    // on and on backup: runs or halted; gone: halted; the core is valid
    want(Situation::Tick, &[1, 3, 5, 7, 11]);
    want(Situation::CountedTickWithWAndR, &[0, 1, 2, 3]);
    want(Situation::FlagsRaised, &[0, 1, 2, 3]);
    want(
        Situation::AlarmWithSelectedFields,
        &(0..32).collect::<Vec<u8>>(),
    );
    want(Situation::AlarmRaisedWithAEN, &[0, 1]);
    want(Situation::AlarmRaisedWithPower, &[0, 1]);
    want(
        Situation::AFRaisedDuringAReadOfControl,
        &[1, 2, 3, 4, 5, 6, 7],
    );
    want(Situation::CFRaisedDuringAReadOfControl, &[0]);
    want(Situation::AFShownAndRaisedAgain, &[0]);
    want(Situation::FieldRolledOver, &[0, 1, 2, 3, 4, 5, 6]);
    want(Situation::EndOfFebruary, &[0, 1, 2]);
    want(Situation::PowerEvent, &[0, 1, 2, 3, 4, 5, 6, 7, 8]);
    want(Situation::BothAddressesClearedByEvent, &[5, 6]);
    want(Situation::PORSetByEvent, &[6, 7]);
    // W falling, R rising and both 0 while core and registers differ
    want(
        Situation::ChangeOfWAndRCoreApart,
        &[4, 8, 9, 10, 11, 12, 13, 14],
    );
    required
}

/// Ticks that find an invalid core; no events bring these about.
pub fn ticks_with_an_invalid_core() -> Vec<Fact> {
    [0, 2, 4, 6, 8, 10]
        .map(|kind| (Situation::Tick, kind))
        .to_vec()
}

/// Every phase with every number of clocks of its byte, and Starts, Stops,
/// ticks and power losses there.
fn required_places() -> Vec<Fact> {
    let mut required = Vec::new();
    for name in [
        Situation::Place,
        Situation::StartAt,
        Situation::StopAt,
        Situation::TickAt,
        Situation::PowerLostAt,
    ] {
        required.push((name, 0));
        for phase in 1..=8 {
            for clocks in 0..=8 {
                required.push((name, phase * 10 + clocks));
            }
        }
    }
    required
}

/// The required facts that are not there.
pub fn missing(facts: &Facts, required: &[Fact]) -> Vec<Fact> {
    required
        .iter()
        .filter(|fact| !facts.contains(**fact))
        .copied()
        .collect()
}
