// SPDX-License-Identifier: Apache-2.0
//! The rules of "Transfers", sentence by sentence.

use second::generate::{RandomSource, Script};
use second::host;
use second::{Device, LogicalDevice, Phase, Power, Transfer};

/// A device whose memory holds bytes that differ from their neighbours.
fn device_with_memory() -> Device {
    let mut device = Device::fresh();
    let mut source = RandomSource::new(1);
    for byte in device.memory.iter_mut() {
        *byte = source.byte();
    }
    device
}

fn run(device: &mut Device, build: impl FnOnce(&mut Script)) -> Vec<u8> {
    let mut script = Script::new();
    build(&mut script);
    host::run_script(device, &script)
}

#[test]
fn start_at_any_moment_begins_a_slave_byte() {
    let mut prefixes = Vec::new();
    let mut script = Script::new();
    script
        .begin_memory_write(0x0123)
        .bytes_and_acknowledges(&[1, 2]);
    prefixes.push(script.events.clone());
    let mut script = Script::new();
    script
        .begin_companion_read()
        .read_byte(true)
        .read_byte(true);
    prefixes.push(script.events.clone());
    for prefix in prefixes {
        for length in 0..=prefix.len() {
            let mut device = device_with_memory();
            device.run(&prefix[..length]);
            device.event(0);
            assert_eq!(device.transfer.phase, Phase::SlaveByte);
            assert_eq!(device.transfer.clocks, 0);
            assert!(host::send_byte(&mut device, 0xA0));
        }
    }
}

#[test]
fn stop_at_any_moment_ends_the_transfer() {
    let mut script = Script::new();
    script
        .begin_companion_write(0x0E)
        .bytes_and_acknowledges(&[0, 0]);
    for length in 0..=script.events.len() {
        let mut device = Device::fresh();
        device.run(&script.events[..length]);
        device.event(1);
        assert!(device.between_transfers());
        assert_eq!(device.transfer, Transfer::none());
    }
}

#[test]
fn start_and_stop_drop_a_part_byte() {
    for cut in [0, 1] {
        for count in 0..8 {
            let mut device = Device::fresh();
            run(&mut device, |script| {
                script.begin_memory_write(0x0040).first_bits(0xFF, count);
                script.event(cut);
            });
            assert_eq!(device.memory, Device::fresh().memory);
            assert_eq!(device.memory_address, 0x0040);
            // the next transfer is not disturbed by the dropped bits
            assert!(host::begin(&mut device, 0xA1));
        }
    }
}

#[test]
fn clocks_outside_a_transfer_change_nothing() {
    let mut device = device_with_memory();
    let before = device.clone();
    for event in [2, 3, 3, 2, 2, 3, 2, 3, 2, 3, 3, 2] {
        let answer = device.event(event);
        assert_eq!(host::line_is_high(answer), event == 3);
    }
    assert_eq!(device, before);
}

#[test]
fn clocks_after_the_transfer_has_ended_change_nothing() {
    let mut device = device_with_memory();
    run(&mut device, |script| {
        script.begin_memory_read().read_byte(false);
    });
    let before = device.clone();
    for event in [2, 3, 2, 2, 2, 3, 3, 3, 2, 2] {
        let answer = device.event(event);
        assert_eq!(host::line_is_high(answer), event == 3);
    }
    assert_eq!(device, before);
}

#[test]
fn bits_come_high_bit_first() {
    let mut device = Device::fresh();
    host::memory_write(&mut device, 0x0000, &[0x80, 0x01]);
    assert_eq!(&device.memory[0..2], &[0x80, 0x01]);
    host::memory_write(&mut device, 0x0000, &[]);
    host::begin(&mut device, 0xA1);
    assert!(host::line_is_high(device.event(3)));
    assert!(!host::line_is_high(device.event(3)));
}

#[test]
fn every_slave_byte() {
    for byte in 0..=255_u8 {
        let mut device = Device::fresh();
        let acknowledged = host::begin(&mut device, byte);
        let expected = matches!(byte, 0xA0 | 0xA1 | 0xD0 | 0xD1);
        assert_eq!(acknowledged, expected, "slave byte {byte:02X}h");
        let phase = match byte {
            0xA0 => Phase::MemoryAddressHighByte,
            0xA1 => Phase::ReadData(LogicalDevice::Memory),
            0xD0 => Phase::CompanionAddressByte,
            0xD1 => Phase::ReadData(LogicalDevice::Companion),
            _ => Phase::BetweenTransfers,
        };
        assert_eq!(device.transfer.phase, phase);
    }
}

#[test]
fn after_an_unknown_slave_byte_the_device_waits_for_a_start() {
    let mut device = Device::fresh();
    assert!(!host::begin(&mut device, 0xA2));
    assert!(!host::send_byte(&mut device, 0xA0));
    assert!(!host::send_byte(&mut device, 0x00));
    assert_eq!(device, Device::fresh());
    assert!(host::begin(&mut device, 0xA0));
}

#[test]
fn acknowledged_whatever_the_master_does_at_the_ninth_clock() {
    for ninth in [false, true] {
        let mut device = Device::fresh();
        let answers = run(&mut device, |script| {
            script.start();
            for byte in [0xA0, 0x01, 0x02, 0x77] {
                script.byte(byte).acknowledge_clock(ninth);
            }
        });
        for byte in 0..4 {
            assert!(!host::line_is_high(answers[9 * (byte + 1)]));
        }
        assert_eq!(device.memory[0x0102], 0x77);
    }
}

#[test]
fn a_refused_ninth_clock_is_the_masters() {
    for ninth in [false, true] {
        let mut device = Device::fresh();
        let answers = run(&mut device, |script| {
            script.start().byte(0xA8).acknowledge_clock(ninth);
        });
        assert_eq!(host::line_is_high(answers[9]), ninth);
    }
}

#[test]
fn the_upper_three_bits_of_a_memory_address_are_ignored() {
    for high in 0..=255_u8 {
        let mut device = Device::fresh();
        let acknowledged = host::write(&mut device, 0xA0, &[high, 0x34, 0x99]);
        assert_eq!(acknowledged, [true, true, true, true]);
        let address = usize::from(high & 0x1F) * 256 + 0x34;
        assert_eq!(device.memory[address], 0x99);
        assert_eq!(usize::from(device.memory_address), address + 1);
    }
}

#[test]
fn the_memory_address_is_taken_at_the_eighth_clock_of_the_second_byte() {
    let mut script = Script::new();
    script.start();
    script.bytes_and_acknowledges(&[0xA0, 0x1A, 0xBC]);
    let second_byte_complete = 1 + 9 + 9 + 8;
    for length in 0..=script.events.len() {
        for cut in [0, 1] {
            let mut device = Device::fresh();
            host::memory_write(&mut device, 0x0555, &[]);
            device.run(&script.events[..length]);
            device.event(cut);
            let expected = if length >= second_byte_complete {
                0x1ABC
            } else {
                0x0555
            };
            assert_eq!(device.memory_address, expected, "{length} events");
        }
    }
}

#[test]
fn the_companion_address_is_taken_at_its_eighth_clock() {
    let mut script = Script::new();
    script.start().bytes_and_acknowledges(&[0xD0, 0x0B]);
    for length in 0..=script.events.len() {
        let mut device = Device::fresh();
        host::companion_write(&mut device, 0x05, &[]);
        device.run(&script.events[..length]);
        device.event(1);
        let expected = if length >= 1 + 9 + 8 { 0x0B } else { 0x05 };
        assert_eq!(device.companion_address, expected);
    }
}

#[test]
fn every_companion_address_byte() {
    for byte in 0..=255_u8 {
        let mut device = Device::fresh();
        host::companion_write(&mut device, 0x05, &[]);
        let acknowledged = host::companion_write(&mut device, byte, &[0x0F]);
        if byte <= 0x0E {
            assert_eq!(acknowledged, [true, true, true]);
            assert_eq!(device.companion_address, (byte + 1) % 15);
        } else {
            // "not acknowledged, transfer ended, old address stands"
            assert_eq!(acknowledged, [true, false, false]);
            assert_eq!(device.companion_address, 0x05);
            assert_eq!(device.registers, Device::fresh().registers);
        }
    }
}

#[test]
fn a_refused_companion_address_ends_the_transfer() {
    let mut device = Device::fresh();
    run(&mut device, |script| {
        script.begin_companion_write(0x0F);
    });
    assert!(device.between_transfers());
    assert!(!host::send_byte(&mut device, 0x0E));
}

#[test]
fn memory_data_bytes_are_stored_one_after_the_other() {
    let mut device = Device::fresh();
    let data: Vec<u8> = (1..=20).collect();
    host::memory_write(&mut device, 0x00F8, &data);
    assert_eq!(&device.memory[0x00F8..0x00F8 + 20], &data[..]);
    assert_eq!(device.memory_address, 0x00F8 + 20);
}

#[test]
fn memory_goes_from_1fffh_to_0000h() {
    let mut device = Device::fresh();
    host::memory_write(&mut device, 0x1FFE, &[0x11, 0x22, 0x33]);
    assert_eq!(&device.memory[0x1FFE..], &[0x11, 0x22]);
    assert_eq!(device.memory[0], 0x33);
    assert_eq!(device.memory_address, 1);
    let bytes = host::memory_read(&mut device, 0x1FFE, 3);
    assert_eq!(bytes, [0x11, 0x22, 0x33]);
    assert_eq!(device.memory_address, 1);
}

#[test]
fn the_companion_goes_from_0eh_to_00h() {
    let mut device = Device::fresh();
    host::companion_write(&mut device, 0x0E, &[0x42, 0x0C]);
    assert_eq!(device.registers[0x0E], 0x42);
    assert_eq!(device.registers[0x00], 0x0C);
    assert_eq!(device.companion_address, 0x01);
    let bytes = host::companion_read(&mut device, 0x0E, 3);
    assert_eq!(bytes, [0x42, 0x0C, 0x80]);
    assert_eq!(device.companion_address, 0x02);
}

#[test]
fn a_power_loss_between_the_eighth_and_the_ninth_clock_keeps_the_byte() {
    for (clocks, cut, stored) in [(7, 5, false), (7, 6, false), (8, 5, true), (8, 6, true)] {
        let mut device = Device::fresh();
        run(&mut device, |script| {
            script.begin_memory_write(0x0300).first_bits(0x5A, clocks);
            script.event(cut);
        });
        assert_eq!(device.memory[0x0300] == 0x5A, stored);
    }
}

#[test]
fn protected_addresses_refuse_data_bytes() {
    let ends = [None, Some(0x07FF), Some(0x0FFF), Some(0x1FFF)];
    for (setting, end) in ends.iter().enumerate() {
        for address in [0x0000, 0x07FF, 0x0800, 0x0FFF, 0x1000, 0x1FFF] {
            let mut device = Device::fresh();
            host::companion_write(&mut device, 0x0E, &[(setting as u8) << 3]);
            let acknowledged = host::memory_write(&mut device, address, &[0x66]);
            let is_protected = end.is_some_and(|last| address <= last);
            // address bytes are acknowledged all the same
            assert_eq!(acknowledged, [true, true, true, !is_protected]);
            let stored = device.memory[usize::from(address)];
            assert_eq!(stored, if is_protected { 0 } else { 0x66 });
            assert_eq!(device.memory_address, (address + 1) & 0x1FFF);
        }
    }
}

#[test]
fn only_bits_4_and_3_of_0eh_protect() {
    for byte in 0..=255_u8 {
        let mut device = Device::fresh();
        host::companion_write(&mut device, 0x0E, &[byte]);
        let refused = !host::memory_write(&mut device, 0x0000, &[0x66])[3];
        assert_eq!(refused, byte & 0x18 != 0);
    }
}

#[test]
fn a_refused_data_byte_ends_the_transfer() {
    let mut device = Device::fresh();
    host::companion_write(&mut device, 0x0E, &[0x10]);
    run(&mut device, |script| {
        script.begin_memory_write(0x0FFF).byte(0x31);
    });
    assert!(device.between_transfers());
    let acknowledged = host::send_byte(&mut device, 0x32);
    assert!(!acknowledged);
    assert_eq!(device.memory, vec![0; 8192]);
    // the first byte stepped the address, the second one came too late
    assert_eq!(device.memory_address, 0x1000);
}

#[test]
fn protection_is_tested_for_each_data_byte() {
    let mut device = Device::fresh();
    host::companion_write(&mut device, 0x0E, &[0x08]);
    let acknowledged = host::memory_write(&mut device, 0x1FFE, &[1, 2, 3, 4]);
    assert_eq!(acknowledged, [true, true, true, true, true, false, false]);
    assert_eq!(device.memory_address, 0x0001);
    assert_eq!(device.memory[0x1FFE..], [1, 2]);
    assert_eq!(device.memory[0x0000..0x0002], [0, 0]);
}

#[test]
fn protection_does_not_touch_reads() {
    let mut device = device_with_memory();
    host::companion_write(&mut device, 0x0E, &[0x18]);
    let expected = device.memory[0x0010..0x0014].to_vec();
    assert_eq!(host::memory_read(&mut device, 0x0010, 4), expected);
}

#[test]
fn a_read_uses_the_current_address() {
    let mut device = device_with_memory();
    host::memory_write(&mut device, 0x0777, &[]);
    let first = host::read(&mut device, 0xA1, 2);
    let second = host::read(&mut device, 0xA1, 3);
    assert_eq!(first, &device.memory[0x0777..0x0779]);
    assert_eq!(second, &device.memory[0x0779..0x077C]);
}

#[test]
fn the_byte_is_fixed_at_its_first_clock() {
    // the seconds register changes with a tick while it is being sent
    let mut device = Device::fresh();
    host::companion_write(&mut device, 0x01, &[0x00]);
    host::companion_write(&mut device, 0x02, &[]);
    host::begin(&mut device, 0xD1);
    host::tick(&mut device);
    let mut answers = vec![device.event(3)];
    for _ in 1..8 {
        host::tick(&mut device);
        answers.push(device.event(3));
    }
    assert_eq!(host::byte_on_line(&answers), 0x01);
    assert_eq!(device.registers[0x02], 0x08);
}

#[test]
fn the_address_steps_on_at_the_eighth_clock_of_a_read() {
    for clocks in 0..=9 {
        for cut in [0, 1] {
            let mut device = device_with_memory();
            host::memory_write(&mut device, 0x0333, &[]);
            host::begin(&mut device, 0xA1);
            for _ in 0..clocks {
                device.event(3);
            }
            device.event(cut);
            let expected = if clocks >= 8 { 0x0334 } else { 0x0333 };
            assert_eq!(device.memory_address, expected);
        }
    }
}

#[test]
fn the_masters_low_ninth_bit_continues_and_high_ends() {
    let mut device = device_with_memory();
    host::begin(&mut device, 0xA1);
    let first = host::receive_byte(&mut device, true);
    let second = host::receive_byte(&mut device, false);
    assert_eq!([first, second], device.memory[0..2]);
    assert!(device.between_transfers());
    assert_eq!(host::receive_byte(&mut device, true), 0xFF);
    assert_eq!(device.memory_address, 2);
}

#[test]
fn the_ninth_line_of_a_read_is_the_masters() {
    for ninth in [false, true] {
        let mut device = Device::fresh();
        host::begin(&mut device, 0xA1);
        let answers = run(&mut device, |script| {
            script.byte(0xFF).acknowledge_clock(ninth);
        });
        assert_eq!(host::line_is_high(answers[8]), ninth);
    }
}

#[test]
fn a_master_that_pulls_low_while_the_device_sends_changes_only_the_line() {
    let mut device = device_with_memory();
    device.memory[0] = 0xFF;
    host::begin(&mut device, 0xA1);
    let answers = run(&mut device, |script| {
        script.byte(0x0F).acknowledge_clock(false);
    });
    assert_eq!(host::byte_on_line(&answers[0..8]), 0x0F);
    assert_eq!(device.memory[0], 0xFF);
    assert_eq!(device.memory_address, 1);
    let expected = device.memory[1];
    assert_eq!(host::receive_byte(&mut device, false), expected);
}

#[test]
fn the_line_is_low_if_master_or_device_pulls_it_low() {
    for byte in 0..=255_u8 {
        for driven in [0x00, 0x0F, 0x55, 0xF0, 0xFF] {
            let mut device = Device::fresh();
            device.memory[0] = byte;
            host::begin(&mut device, 0xA1);
            let answers = run(&mut device, |script| {
                script.byte(driven);
            });
            assert_eq!(host::byte_on_line(&answers), byte & driven);
        }
    }
}

#[test]
fn a_flag_counts_as_shown_though_the_master_pulls_the_line_low() {
    // "the byte sent" is what the device sent (READINGS 6)
    let mut device = Device::fresh();
    device.registers[0x00] = 0x60;
    host::begin(&mut device, 0xD1);
    run(&mut device, |script| {
        script.byte(0x00).acknowledge_clock(true);
    });
    assert_eq!(device.registers[0x00], 0x00);
}

#[test]
fn nothing_but_the_addresses_is_kept_between_transfers() {
    let mut device = Device::fresh();
    run(&mut device, |script| {
        script.begin_memory_write(0x1234).first_bits(0xAA, 5).stop();
    });
    let mut expected = Device::fresh();
    expected.memory_address = 0x1234;
    assert_eq!(device, expected);
}

#[test]
fn the_first_address_byte_is_not_kept_for_another_transfer() {
    let mut device = Device::fresh();
    run(&mut device, |script| {
        script.start().bytes_and_acknowledges(&[0xA0, 0x1F]);
        script.start().bytes_and_acknowledges(&[0xA0, 0x02, 0x03]);
    });
    assert_eq!(device.memory_address, 0x0203);
}

#[test]
fn set_address_then_repeated_start_and_read() {
    let mut device = device_with_memory();
    let answers = run(&mut device, |script| {
        script.begin_memory_write(0x0456).start();
        script.byte_and_acknowledge(0xA1).read_byte(false).stop();
    });
    let read = &answers[1 + 27 + 1 + 9..][..8];
    assert_eq!(host::byte_on_line(read), device.memory[0x0456]);
}

#[test]
fn bus_events_while_off_do_nothing() {
    for lost in [5, 6] {
        let mut device = device_with_memory();
        device.event(lost);
        let before = device.clone();
        let mut script = Script::new();
        script.memory_write(0x0001, &[1, 2]).companion_read(0x00, 2);
        for event in &script.events {
            let answer = device.event(*event);
            assert_eq!(host::line_is_high(answer), *event != 2);
        }
        assert_eq!(device, before);
        assert_ne!(device.power, Power::On);
    }
}
