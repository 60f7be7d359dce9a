// SPDX-License-Identifier: Apache-2.0
//! The rules of "Ticks, alarm, power", sentence by sentence.

use second::calendar::calendar_from_numbers;
use second::generate::Script;
use second::host;
use second::{Calendar, Device, LogicalDevice, Phase, Power};

const WITHOUT_SUPPLY: [u8; 15] = [0x90, 0x80, 0, 0, 0, 1, 1, 1, 0, 0, 0, 0, 0, 0, 0];

fn ordinary() -> Calendar {
    calendar_from_numbers((12, 34, 56), 3, (15, 6, 21))
}

/// A running device with a core, its calendar registers and no alarm flag; the
/// alarm is set for a second that does not come.
fn running(core: Calendar, control: u8) -> Device {
    let mut device = Device::fresh();
    device.registers[0x00] = control;
    device.registers[0x01] = 0x00;
    device.registers[0x02..=0x08].copy_from_slice(&core.to_bytes());
    device.registers[0x09] = 0x7F;
    device.core = core;
    device
}

fn shown(device: &Device) -> Vec<u8> {
    device.registers[0x02..=0x08].to_vec()
}

#[test]
fn a_tick_counts_only_if_oscen_is_0() {
    let mut device = running(ordinary(), 0);
    device.registers[0x01] = 0x80;
    let before = device.clone();
    assert_eq!(device.event(4), 5);
    assert_eq!(device, before);
    // the other bits of 01h do not matter
    device.registers[0x01] = 0x3F;
    device.event(4);
    assert_eq!(device.core.seconds, 0x57);
}

#[test]
fn a_tick_counts_on_backup() {
    let mut device = running(ordinary(), 0);
    device.event(5);
    device.event(4);
    assert_eq!(device.core.seconds, 0x57);
    assert_eq!(device.registers[0x02], 0x57);
}

#[test]
fn a_tick_does_not_count_without_any_supply() {
    let mut device = running(ordinary(), 0);
    device.event(6);
    // even were the oscillator running
    device.registers[0x01] = 0x00;
    let before = device.clone();
    device.event(4);
    assert_eq!(device, before);
}

#[test]
fn year_99_to_00_sets_cf() {
    let mut device = running(calendar_from_numbers((23, 59, 59), 7, (31, 12, 99)), 0);
    device.event(4);
    assert_eq!(device.registers[0x00], 0x20);
    assert_eq!(device.core, calendar_from_numbers((0, 0, 0), 1, (1, 1, 0)));
    // other ends of a year do not
    let mut device = running(calendar_from_numbers((23, 59, 59), 7, (31, 12, 98)), 0);
    device.event(4);
    assert_eq!(device.registers[0x00], 0x00);
    assert_eq!(device.core.year, 0x99);
}

#[test]
fn cf_and_af_together() {
    let mut device = running(calendar_from_numbers((23, 59, 59), 7, (31, 12, 99)), 0);
    device.registers[0x09..=0x0D].copy_from_slice(&[0, 0, 0, 1, 1]);
    device.event(4);
    assert_eq!(device.registers[0x00], 0x60);
}

#[test]
fn an_invalid_core_is_left_and_raises_nothing() {
    for invalid in [
        calendar_from_numbers((23, 59, 59), 7, (31, 4, 99)),
        Calendar {
            seconds: 0x5F,
            ..ordinary()
        },
        Calendar {
            day: 0,
            ..ordinary()
        },
        Calendar {
            month: 0x13,
            ..ordinary()
        },
    ] {
        let mut device = running(invalid, 0);
        device.registers[0x09..=0x0D].copy_from_slice(&[0x80; 5]);
        device.event(4);
        assert_eq!(device.core, invalid);
        assert_eq!(device.registers[0x00], 0x00);
    }
}

#[test]
fn on_every_counted_tick_the_registers_take_the_core_valid_or_not() {
    for core in [ordinary(), calendar_from_numbers((1, 2, 3), 4, (30, 2, 5))] {
        for control in 0..4 {
            let mut device = running(core, control);
            device.registers[0x02..=0x08].copy_from_slice(&[9, 9, 9, 2, 9, 9, 9]);
            device.event(4);
            let advanced = core.next_second().0;
            assert_eq!(device.core, advanced);
            if control == 0 {
                assert_eq!(shown(&device), advanced.to_bytes());
            } else {
                assert_eq!(shown(&device), [9, 9, 9, 2, 9, 9, 9]);
            }
        }
    }
}

#[test]
fn the_core_runs_on_while_w_is_1() {
    let mut device = running(ordinary(), 0x02);
    host::run_script(&mut device, Script::new().ticks(3));
    assert_eq!(device.core.seconds, 0x59);
    assert_eq!(device.registers[0x02], 0x56);
    // and is overwritten when W falls
    host::companion_write(&mut device, 0x00, &[0x00]);
    assert_eq!(device.core, ordinary());
}

#[test]
fn the_alarm_compares_each_selected_field_after_the_advance() {
    let before = calendar_from_numbers((12, 59, 59), 3, (15, 6, 21));
    let after = [0x00, 0x00, 0x13, 0x15, 0x06];
    for selected in 0..32_u8 {
        for wrong in 0..32_u8 {
            let mut device = running(before, 0);
            for (field, correct) in after.iter().enumerate() {
                let not_selected = selected >> field & 1 == 0;
                let value = correct ^ (wrong >> field & 1);
                device.registers[0x09 + field] = value | if not_selected { 0x80 } else { 0 };
            }
            device.event(4);
            let expected = selected & wrong == 0;
            assert_eq!(device.registers[0x00] == 0x40, expected);
        }
    }
}

#[test]
fn with_no_field_selected_the_alarm_comes_every_second() {
    let mut device = running(ordinary(), 0);
    device.registers[0x09..=0x0D].copy_from_slice(&[0x80; 5]);
    for _ in 0..3 {
        device.event(4);
        assert_eq!(device.registers[0x00], 0x40);
        assert_eq!(host::companion_read(&mut device, 0x00, 1), [0x40]);
        assert_eq!(device.registers[0x00], 0x00);
    }
}

#[test]
fn af_stays_once_set() {
    let mut device = running(ordinary(), 0x40);
    device.event(4);
    assert_eq!(device.registers[0x00], 0x40);
}

#[test]
fn the_day_of_the_week_and_the_year_are_not_compared() {
    let mut device = running(ordinary(), 0);
    device.registers[0x09..=0x0D].copy_from_slice(&[0x57, 0x34, 0x12, 0x15, 0x06]);
    device.core.day = 7;
    device.core.year = 0x50;
    device.event(4);
    assert_eq!(device.registers[0x00], 0x40);
}

#[test]
fn the_alarm_compares_the_core_and_not_the_registers() {
    let mut device = running(ordinary(), 0x01);
    device.registers[0x02..=0x08].copy_from_slice(&[0; 7]);
    device.registers[0x09..=0x0D].copy_from_slice(&[0x57, 0x34, 0x12, 0x15, 0x06]);
    device.event(4);
    assert_eq!(device.registers[0x00], 0x41);
}

#[test]
fn neither_aen_nor_cal_nor_the_pin_gates_af() {
    for control in [0x00, 0x04, 0x08, 0x0C] {
        for other in [0x00, 0x80] {
            let mut device = running(ordinary(), control);
            device.registers[0x09..=0x0D].copy_from_slice(&[0x80; 5]);
            device.registers[0x0E] = other;
            device.event(4);
            assert_eq!(device.registers[0x00], control | 0x40);
        }
    }
}

#[test]
fn the_alarm_rises_on_backup_and_the_pin_shows_it() {
    let mut device = running(ordinary(), 0x08);
    device.registers[0x09..=0x0D].copy_from_slice(&[0x80; 5]);
    device.registers[0x0E] = 0x80;
    assert_eq!(device.event(5), 0b0011);
    assert_eq!(device.event(4), 0b1011);
    assert_eq!(device.event(7), 0b1011);
    assert_eq!(device.registers[0x00], 0x58);
}

#[test]
fn power_lost_ends_the_transfer_and_clears_both_addresses() {
    for lost in [5, 6] {
        let mut device = running(ordinary(), 0);
        host::companion_write(&mut device, 0x07, &[]);
        let mut script = Script::new();
        script.begin_memory_write(0x1111).first_bits(0xFF, 3);
        host::run_script(&mut device, &script);
        assert!(!device.between_transfers());
        device.event(lost);
        assert!(device.between_transfers());
        assert_eq!(device.memory_address, 0);
        assert_eq!(device.companion_address, 0);
        // the old transfer does not go on when power is back
        device.event(7);
        assert!(device.between_transfers());
    }
}

#[test]
fn event_5_keeps_registers_and_core() {
    let mut device = running(ordinary(), 0x08);
    let before = device.clone();
    device.event(5);
    assert_eq!(device.power, Power::Backup);
    assert_eq!(device.registers, before.registers);
    assert_eq!(device.core, before.core);
}

#[test]
fn event_6_while_off_with_backup_takes_the_backup_away() {
    let mut device = running(ordinary(), 0x08);
    device.event(5);
    device.event(6);
    assert_eq!(device.power, Power::Gone);
    assert_eq!(device.registers, WITHOUT_SUPPLY);
    assert_eq!(device.core, Device::fresh().core);
}

/// A fresh device without main power whose addresses are not 0: 01's limits admit
/// it, no events reach it.
fn handed_in(power: Power) -> Device {
    let mut device = Device::fresh();
    device.memory[0x0000] = 0x5A;
    device.memory[0x0332] = 0xC3;
    device.power = power;
    device.memory_address = 0x0332;
    device.companion_address = 8;
    device
}

/// "Power lost: the transfer ends, both addresses become 0." Event 6 on backup is
/// a loss of power too (READINGS 13).
#[test]
fn event_6_while_off_with_backup_makes_both_addresses_0() {
    let mut device = handed_in(Power::Backup);
    device.transfer.phase = Phase::ReadData(LogicalDevice::Memory);
    device.transfer.clocks = 3;
    device.event(6);
    assert_eq!((device.memory_address, device.companion_address), (0, 0));
    assert!(device.between_transfers());
}

/// Events 6, 7, Start, slave byte A1h, nine clocks: the byte at 0000h is read.
#[test]
fn after_event_6_on_backup_a_read_begins_at_0() {
    let mut device = handed_in(Power::Backup);
    device.run(&[6, 7]);
    assert!(host::begin(&mut device, 0xA1));
    assert_eq!(host::receive_byte(&mut device, false), 0x5A);
}

/// The other power events while off keep the addresses of a state handed in.
#[test]
fn power_events_that_lose_nothing_keep_the_addresses() {
    for (power, event) in [
        (Power::Backup, 5),
        (Power::Backup, 7),
        (Power::Gone, 5),
        (Power::Gone, 6),
        (Power::Gone, 7),
    ] {
        let mut device = handed_in(power);
        device.event(event);
        let addresses = (device.memory_address, device.companion_address);
        assert_eq!(addresses, (0x0332, 8), "event {event}, {power:?}");
    }
}

#[test]
fn event_6_while_on_takes_both_supplies_at_once() {
    let mut device = running(ordinary(), 0x08);
    device.event(6);
    assert_eq!(device.power, Power::Gone);
    assert_eq!(device.registers, WITHOUT_SUPPLY);
    assert_eq!(device.core, Device::fresh().core);
}

#[test]
fn event_5_while_off_changes_nothing() {
    let mut device = running(ordinary(), 0x08);
    device.event(5);
    let before = device.clone();
    device.event(5);
    assert_eq!(device, before);
    device.event(6);
    let before = device.clone();
    device.event(5);
    assert_eq!(device, before);
    assert_eq!(device.power, Power::Gone);
}

#[test]
fn event_6_when_both_supplies_are_gone_changes_nothing() {
    let mut device = running(ordinary(), 0x08);
    device.event(6);
    let before = device.clone();
    device.event(6);
    assert_eq!(device, before);
}

#[test]
fn event_7_while_on_changes_nothing() {
    let mut device = running(ordinary(), 0x08);
    let mut script = Script::new();
    script.begin_memory_write(0x0011).first_bits(0x55, 4);
    host::run_script(&mut device, &script);
    let before = device.clone();
    device.event(7);
    assert_eq!(device, before);
}

#[test]
fn event_7_after_backup_sets_por() {
    let mut device = running(ordinary(), 0x08);
    device.event(5);
    assert_eq!(device.registers[0x00], 0x08);
    let before = device.clone();
    device.event(7);
    assert_eq!(device.registers[0x00], 0x18);
    let mut expected = before;
    expected.registers[0x00] = 0x18;
    expected.power = Power::On;
    assert_eq!(device, expected);
}

#[test]
fn event_7_after_both_were_gone_changes_only_the_power() {
    let mut device = running(ordinary(), 0x08);
    device.event(6);
    let mut expected = device.clone();
    expected.power = Power::On;
    device.event(7);
    assert_eq!(device, expected);
    assert_eq!(device.registers[0x00], 0x90);
}

#[test]
fn por_and_lb_are_cleared_by_a_write_and_set_again_by_power() {
    let mut device = Device::fresh();
    host::companion_write(&mut device, 0x00, &[0x00]);
    assert_eq!(device.registers[0x00], 0x00);
    host::companion_write(&mut device, 0x00, &[0x90]);
    assert_eq!(device.registers[0x00], 0x00);
    device.run(&[5, 7]);
    assert_eq!(device.registers[0x00], 0x10);
    device.run(&[6, 7]);
    assert_eq!(device.registers[0x00], 0x90);
}

#[test]
fn memory_is_always_kept() {
    let mut device = Device::fresh();
    host::memory_write(&mut device, 0x0AAA, &[1, 2, 3]);
    let memory = device.memory.clone();
    device.run(&[5, 4, 6, 4, 7, 6, 7, 5, 7]);
    assert_eq!(device.memory, memory);
}

#[test]
fn protection_is_kept_on_backup_and_lost_with_both_supplies() {
    let mut device = Device::fresh();
    host::companion_write(&mut device, 0x0E, &[0x18]);
    device.run(&[5, 7]);
    assert!(!host::memory_write(&mut device, 0, &[1])[3]);
    device.run(&[6, 7]);
    assert!(host::memory_write(&mut device, 0, &[1])[3]);
}

#[test]
fn a_fresh_device_does_not_run() {
    let mut device = Device::fresh();
    host::run_script(&mut device, Script::new().ticks(100));
    assert_eq!(device, Device::fresh());
    host::companion_write(&mut device, 0x01, &[0x00]);
    device.event(4);
    assert_eq!(device.core.seconds, 0x01);
}

#[test]
fn ticks_inside_bytes_do_not_disturb_the_bus() {
    let mut device = running(ordinary(), 0);
    let mut script = Script::new();
    script.memory_write(0x0200, &[0xDE, 0xAD]);
    for event in &script.events {
        device.event(*event);
        device.event(4);
    }
    assert_eq!(&device.memory[0x0200..0x0202], &[0xDE, 0xAD]);
    let mut expected = ordinary();
    for _ in 0..script.events.len() {
        expected = expected.next_second().0;
    }
    assert_eq!(device.core, expected);
}
