// SPDX-License-Identifier: Apache-2.0
//! The wrapper and the second program on the same random lists.

use fm3130::{Answer, Calendar, Device, Phase, Power, Side};
use second::generate::{self, List};
use second::{LogicalDevice, PinFunction};

/// About as many events as some hundred lists have.
const EVENTS: usize = 320_000;

#[test]
fn random_lists_give_the_same_answers_and_states() {
    let lists = generate::random(3130, EVENTS);
    assert!(lists.len() >= 300, "only {} lists", lists.len());
    for list in &lists {
        compare(list);
    }
}

/// Runs a list on both, whole and event by event.
fn compare(list: &List) {
    let mut expected = list.device();
    let mut whole = Device::fresh();
    whole.memory_mut().copy_from_slice(&expected.memory);
    let mut stepped = whole.clone();
    let answers = whole.run(&list.events).unwrap();
    for (index, (event, answer)) in list.events.iter().zip(&answers).enumerate() {
        let place = format!("{} {}, event {index}", list.family, list.name);
        assert_eq!(expected.event(*event), *answer, "{place}");
        assert_eq!(stepped.step(*event), Ok(*answer), "{place}");
        assert_state(&expected, &stepped, &place);
        assert_eq!(Answer(*answer).pin(), stepped.pin(), "{place}");
    }
    assert_eq!(expected.memory[..], whole.memory()[..]);
    assert_eq!(whole, stepped);
}

/// Everything that both can say of a state.
fn assert_state(expected: &second::Device, device: &Device, place: &str) {
    assert_eq!(expected.registers, *device.registers(), "{place}");
    let core = Calendar::from_bytes(expected.core.to_bytes());
    assert_eq!(core, device.calendar(), "{place}");
    assert_eq!(expected.core.is_valid(), core.is_valid(), "{place}");
    assert_eq!(expected.memory_address, device.memory_address(), "{place}");
    assert_eq!(
        expected.companion_address,
        device.companion_address(),
        "{place}"
    );
    assert_eq!(power(expected.power), device.power(), "{place}");
    assert_eq!(phase(expected.transfer.phase), device.phase(), "{place}");
    assert_eq!(expected.transfer.clocks, device.state().clocks, "{place}");
    assert_eq!(
        pin(expected.pin_function()),
        device.pin().function,
        "{place}"
    );
}

/// The second program's power in the wrapper's words.
fn power(power: second::Power) -> Power {
    match power {
        second::Power::On => Power::On,
        second::Power::Backup => Power::Backup,
        second::Power::Gone => Power::None,
    }
}

/// The second program's phase in the wrapper's words.
fn phase(phase: second::Phase) -> Phase {
    match phase {
        second::Phase::BetweenTransfers => Phase::Idle,
        second::Phase::SlaveByte => Phase::SlaveByte,
        second::Phase::MemoryAddressHighByte => Phase::FirstAddressByte,
        second::Phase::MemoryAddressLowByte => Phase::SecondAddressByte,
        second::Phase::CompanionAddressByte => Phase::CompanionAddressByte,
        second::Phase::WriteData(device) => Phase::Write(side(device)),
        second::Phase::ReadData(device) => Phase::Read(side(device)),
    }
}

/// The second program's device in the wrapper's words.
fn side(device: LogicalDevice) -> Side {
    match device {
        LogicalDevice::Memory => Side::Memory,
        LogicalDevice::Companion => Side::Companion,
    }
}

/// The second program's pin in the wrapper's words.
fn pin(function: PinFunction) -> fm3130::PinFunction {
    match function {
        PinFunction::Released => fm3130::PinFunction::Released,
        PinFunction::Alarm => fm3130::PinFunction::Alarm,
        PinFunction::SquareWave => fm3130::PinFunction::SquareWave,
        PinFunction::Calibration => fm3130::PinFunction::Calibration,
    }
}
