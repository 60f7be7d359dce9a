// SPDX-License-Identifier: Apache-2.0
//! The larger family (02, number 5): registers, counters, frozen reads and the
//! serial number, in the words of 02 and 003.

use second::bus::Power;
use second::family::{Device, Size, State, SIZES};
use second::generate::Script;
use second::host;

fn fresh_devices() -> [Device; 2] {
    SIZES.map(Device::fresh)
}

fn register(device: &Device, address: u8) -> u8 {
    device.registers[usize::from(address - 0x09)]
}

/// Writes one register; it must be acknowledged.
fn write(device: &mut Device, address: u8, data: &[u8]) {
    let acknowledged = host::companion_write(device, address, data);
    assert!(acknowledged.iter().all(|one| *one), "from {address:02X}h");
}

fn read(device: &mut Device, address: u8) -> u8 {
    host::companion_read(device, address, 1)[0]
}

/// Counter 1 and counter 2, "low byte first (our ruling)".
fn counters(device: &Device) -> (u16, u16) {
    let byte = |address| u16::from(register(device, address));
    (byte(0x0D) + 256 * byte(0x0E), byte(0x0F) + 256 * byte(0x10))
}

fn set_counters(device: &mut Device, first: u16, second: u16) {
    let (first, second) = (first.to_le_bytes(), second.to_le_bytes());
    write(device, 0x0D, &[first[0], first[1], second[0], second[1]]);
}

#[test]
fn a_fresh_device_has_por_and_lb_and_0_elsewhere() {
    for device in fresh_devices() {
        let mut expected = [0; 16];
        expected[0] = 0x60;
        assert_eq!(device.registers, expected);
        assert_eq!(device.snapshot, [0; 4]);
        assert_eq!(device.power, Power::On);
        assert_eq!(device.memory_address, 0);
        assert_eq!(device.companion_address, 0x09);
        assert!(device.between_transfers());
        assert_eq!(device.memory, vec![0; device.size.bytes()]);
    }
}

/// What the map of 003 lets each register hold, all bits having been written 1.
#[test]
fn every_register_holds_the_bits_of_the_map() {
    let expected = [
        0x6F, 0x9F, 0x9F, 0x0F, 0xFF, 0xFF, 0xFF, 0xFF, 0xFF, 0xFF, 0xFF, 0xFF, 0xFF, 0xFF, 0xFF,
        0xFF,
    ];
    for mut device in fresh_devices() {
        // the serial number first: the byte FFh locks it
        write(&mut device, 0x11, &[0xFF; 8]);
        write(&mut device, 0x09, &[0xFF; 8]);
        assert_eq!(device.registers, expected);
    }
}

/// 003 of WTR, POR and LB: "internally set, user can only clear this bit".
#[test]
fn flags_can_only_be_cleared() {
    for flags in 0..8_u8 {
        for byte in 0..=255_u8 {
            let mut state = State::fresh();
            state.registers[0] = flags << 5;
            let mut device = state.device(Size::Kilobits64, vec![0; 8192]);
            write(&mut device, 0x09, &[byte]);
            let kept = (flags << 5) & byte & 0xE0;
            assert_eq!(register(&device, 0x09), kept + byte % 16);
        }
    }
}

/// "Nonvolatile, read/write": 0Ah, and 0Bh but for SNL.
#[test]
fn watchdog_and_control_bits_are_kept_and_drive_nothing() {
    for mut device in fresh_devices() {
        for byte in 0..=255_u8 {
            write(&mut device, 0x0A, &[byte]);
            assert_eq!(read(&mut device, 0x0A), byte & 0x9F);
            write(&mut device, 0x0B, &[byte & 0x7F]);
            assert_eq!(read(&mut device, 0x0B), byte & 0x1F);
        }
        for _ in 0..100 {
            assert_eq!(device.event(4), 1);
        }
        assert_eq!(register(&device, 0x09), 0x60);
    }
}

/// "It has no calendar: ticks change nothing".
#[test]
fn ticks_change_nothing_in_any_phase() {
    let mut script = Script::new();
    script.companion_write(0x0C, &[0x0C, 0xFF, 0xFF]);
    script.memory_read(0x1FFF, 2).companion_read(0x0C, 5);
    let mut device = Device::fresh(Size::Kilobits256);
    for event in script.events {
        device.event(event);
        let before = device.clone();
        assert_eq!(device.event(4), 1);
        assert!(device == before);
    }
}

// ----- counters -----

/// "rolls from FFFFh to 0000h"; each input has its own counter.
#[test]
fn each_counter_rolls_by_itself() {
    for mut device in fresh_devices() {
        for start in [0x0000, 0x00FF, 0x0100, 0xFEFF, 0xFFFE, 0xFFFF_u16] {
            set_counters(&mut device, start, 0x1234);
            assert_eq!(device.event(8), 1);
            assert_eq!(counters(&device), (start.wrapping_add(1), 0x1234));
            set_counters(&mut device, 0x1234, start);
            assert_eq!(device.event(9), 1);
            assert_eq!(counters(&device), (0x1234, start.wrapping_add(1)));
        }
    }
}

/// "with CC set the pair is one 32-bit counter on CNT1, counter 1 the low half,
/// rolling to zero from its top"; 003: "CNT2 is not used in this mode."
#[test]
fn the_pair_counts_on_cnt1_alone() {
    for mut device in fresh_devices() {
        write(&mut device, 0x0C, &[0x04]);
        for start in [
            0_u32,
            0xFF,
            0xFFFF,
            0x0001_FFFF,
            0x00FF_FFFF,
            u32::MAX - 1,
            u32::MAX,
        ] {
            set_counters(&mut device, start as u16, (start >> 16) as u16);
            device.event(9);
            assert_eq!(counters(&device), (start as u16, (start >> 16) as u16));
            device.event(8);
            let next = start.wrapping_add(1);
            assert_eq!(counters(&device), (next as u16, (next >> 16) as u16));
        }
    }
}

/// 65,536 edges bring a counter back, and the pair to the next high half.
#[test]
fn many_edges() {
    for control in [0x00, 0x04] {
        let mut device = Device::fresh(Size::Kilobits64);
        write(&mut device, 0x0C, &[control]);
        for count in 0..65_536_u32 {
            assert_eq!(counters(&device), (count as u16, 0));
            device.event(8);
        }
        assert_eq!(counters(&device), (0, u16::from(control == 0x04)));
    }
}

/// Events 8 and 9 are "already polarity-filtered": C1P and C2P drive nothing.
#[test]
fn polarity_bits_drive_nothing() {
    for polarity in 0..4_u8 {
        let mut device = Device::fresh(Size::Kilobits64);
        write(&mut device, 0x0C, &[polarity]);
        device.event(8);
        device.event(9);
        device.event(9);
        assert_eq!(counters(&device), (1, 2));
        assert_eq!(register(&device, 0x0C), polarity);
    }
}

/// "Edges count while power or backup is present".
#[test]
fn edges_count_with_power_or_backup() {
    for mut device in fresh_devices() {
        device.event(8);
        device.event(5);
        device.event(8);
        device.event(9);
        assert_eq!(counters(&device), (2, 1));
        device.event(7);
        assert_eq!(counters(&device), (2, 1));
        device.event(6);
        device.event(8);
        device.event(9);
        assert_eq!(counters(&device), (0, 0));
        device.event(7);
        device.event(8);
        assert_eq!(counters(&device), (1, 0));
    }
}

/// "during a write too (our ruling)": an edge inside a write of a counter byte
/// counts at once; the byte then replaces that one byte, and the other keeps the
/// carry.
#[test]
fn an_edge_inside_a_write_of_the_counter() {
    for clocks in 0..=9_u8 {
        let mut device = Device::fresh(Size::Kilobits64);
        set_counters(&mut device, 0x00FF, 0);
        host::begin(&mut device, 0xD0);
        host::send_byte(&mut device, 0x0D);
        for clock in 0..9_u8 {
            if clock == clocks {
                device.event(8);
            }
            // the byte is 7Fh
            device.event(if clock == 0 { 2 } else { 3 });
        }
        if clocks == 9 {
            device.event(8);
        }
        // before the eighth clock the edge carries into 0Eh, then 0Dh is stored
        let expected = if clocks < 8 { 0x017F } else { 0x0080 };
        assert_eq!(counters(&device).0, expected, "{clocks} clocks before");
    }
}

/// "The byte is fixed at its first clock" (01), RC or not.
#[test]
fn an_edge_inside_a_read_does_not_change_the_byte_sent() {
    for control in [0x00, 0x08] {
        for place in 1..9 {
            let mut device = Device::fresh(Size::Kilobits64);
            set_counters(&mut device, 0x00FF, 0);
            write(&mut device, 0x0C, &[control]);
            let mut script = Script::new();
            script.begin_companion_write(0x0D).begin_companion_read();
            host::run_script(&mut device, &script);
            let mut byte = 0;
            for clock in 0..8 {
                if clock == place {
                    device.event(8);
                }
                byte = byte * 2 + device.event(3);
            }
            assert_eq!(byte, 0xFF);
        }
    }
}

// ----- RC -----

/// 003: "takes a snapshot of all four counter bytes allowing a stable value even
/// if a count occurs during the read".
#[test]
fn a_frozen_read_is_stable_and_the_counters_run_on() {
    for mut device in fresh_devices() {
        set_counters(&mut device, 0x12FF, 0xFFFF);
        write(&mut device, 0x0C, &[0x08]);
        for _ in 0..3 {
            device.event(8);
            device.event(9);
        }
        assert_eq!(counters(&device), (0x1302, 0x0002));
        let mut script = Script::new();
        script.begin_companion_write(0x0D).begin_companion_read();
        host::run_script(&mut device, &script);
        let mut bytes = Vec::new();
        for index in 0..4 {
            device.event(8);
            bytes.push(host::receive_byte(&mut device, index < 3));
        }
        assert_eq!(bytes, [0xFF, 0x12, 0xFF, 0xFF]);
        assert_eq!(counters(&device), (0x1306, 0x0002));
        // "The RC bit will be automatically cleared."
        assert_eq!(register(&device, 0x0C), 0x00);
        assert_eq!(
            host::companion_read(&mut device, 0x0D, 4),
            [0x06, 0x13, 0x02, 0x00]
        );
    }
}

/// RC clears itself at the eighth clock of a read of 10h, no sooner.
#[test]
fn rc_clears_at_the_eighth_clock_of_10h() {
    for address in 0x09..=0x18_u8 {
        for clocks in 0..=9 {
            let mut device = Device::fresh(Size::Kilobits64);
            write(&mut device, 0x0C, &[0x0F]);
            let mut script = Script::new();
            script.begin_companion_write(address).begin_companion_read();
            host::run_script(&mut device, &script);
            for _ in 0..clocks {
                device.event(3);
            }
            host::stop(&mut device);
            let cleared = address == 0x10 && clocks >= 8;
            let expected = if cleared { 0x07 } else { 0x0F };
            assert_eq!(register(&device, 0x0C), expected, "{address:02X}h {clocks}");
        }
    }
}

/// 001: "Step #3 Clear RC bit"; then reads show the running counters.
#[test]
fn a_write_with_rc_0_ends_the_frozen_reads() {
    let mut device = Device::fresh(Size::Kilobits64);
    write(&mut device, 0x0C, &[0x09]);
    device.event(8);
    assert_eq!(read(&mut device, 0x0D), 0);
    write(&mut device, 0x0C, &[0x01]);
    assert_eq!(read(&mut device, 0x0D), 1);
}

/// A write with bit 3 = 1 takes a new snapshot, RC being 1 already.
#[test]
fn rc_written_again_takes_a_new_snapshot() {
    let mut device = Device::fresh(Size::Kilobits64);
    for count in 0..5 {
        write(&mut device, 0x0C, &[0x08]);
        assert_eq!(device.snapshot, [count, 0, 0, 0]);
        device.event(8);
        assert_eq!(read(&mut device, 0x0D), count);
    }
}

/// A write to a counter byte while RC is 1 goes to the counter.
#[test]
fn a_write_while_frozen_goes_to_the_counter() {
    let mut device = Device::fresh(Size::Kilobits64);
    set_counters(&mut device, 0x1111, 0x2222);
    write(&mut device, 0x0C, &[0x08]);
    set_counters(&mut device, 0xABCD, 0xEF01);
    assert_eq!(counters(&device), (0xABCD, 0xEF01));
    let frozen = host::companion_read(&mut device, 0x0D, 4);
    assert_eq!(frozen, [0x11, 0x11, 0x22, 0x22]);
    let running = host::companion_read(&mut device, 0x0D, 4);
    assert_eq!(running, [0xCD, 0xAB, 0x01, 0xEF]);
}

/// "That loss clears 0Ch to 10h": at the moment both supplies are gone the
/// snapshot becomes 0 with the counters, with RC 1 or 0 (READINGS 90). Without
/// that loss it is kept.
#[test]
fn the_loss_of_both_supplies_clears_the_snapshot() {
    for control in [0x08, 0x00] {
        for losing in [&[6][..], &[5, 6], &[5, 7, 6]] {
            for mut device in fresh_devices() {
                set_counters(&mut device, 0x1234, 0x5678);
                write(&mut device, 0x0C, &[0x08]);
                write(&mut device, 0x0C, &[control]);
                for event in losing {
                    assert_ne!(device.power, Power::Gone);
                    assert_eq!(device.snapshot, [0x34, 0x12, 0x78, 0x56]);
                    device.event(*event);
                }
                assert_eq!(device.snapshot, [0; 4]);
                assert_eq!(counters(&device), (0, 0));
                device.run(&[8, 9, 5, 6, 7, 8, 9]);
                assert_eq!(device.snapshot, [0; 4]);
            }
        }
    }
}

/// "6 when both supplies are already gone, changes nothing" (01): a snapshot
/// handed in then stays.
#[test]
fn no_second_loss_clears_a_snapshot() {
    let state = State {
        power: Power::Gone,
        snapshot: [1, 2, 3, 4],
        ..State::fresh()
    };
    for size in SIZES {
        let mut device = state.device(size, vec![0; size.bytes()]);
        device.run(&[6, 5]);
        assert_eq!(State::of(&device), state);
        device.event(7);
        assert_eq!(device.snapshot, [1, 2, 3, 4]);
    }
}

/// Backup keeps RC and the snapshot; the loss of both supplies clears RC.
#[test]
fn frozen_over_a_loss_of_power() {
    for mut device in fresh_devices() {
        set_counters(&mut device, 0x0010, 0);
        write(&mut device, 0x0C, &[0x08]);
        device.event(8);
        device.event(5);
        device.event(8);
        device.event(7);
        assert_eq!(read(&mut device, 0x0D), 0x10);
        device.event(6);
        device.event(7);
        assert_eq!(register(&device, 0x0C), 0);
        assert_eq!(read(&mut device, 0x0D), 0);
    }
}

// ----- the serial number -----

/// "Once SNL is 1 no event of any kind changes registers 11h to 18h or SNL";
/// "writes there are acknowledged and not stored".
#[test]
fn locked_bytes_are_acknowledged_and_not_stored() {
    for mut device in fresh_devices() {
        write(&mut device, 0x11, &[1, 2, 3, 4, 5, 6, 7, 8]);
        write(&mut device, 0x0B, &[0x80]);
        write(&mut device, 0x11, &[9; 8]);
        write(&mut device, 0x0B, &[0x00]);
        write(&mut device, 0x14, &[0x55]);
        assert_eq!(device.registers[8..], [1, 2, 3, 4, 5, 6, 7, 8]);
        assert_eq!(register(&device, 0x0B), 0x80);
        // the address steps on all the same
        assert_eq!(device.companion_address, 0x15);
    }
}

/// A write from 0Bh on that sets SNL by its first byte refuses its own bytes for
/// the serial number.
#[test]
fn a_lock_in_the_middle_of_a_write() {
    for mut device in fresh_devices() {
        let data: Vec<u8> = (0..14).map(|index| 0x80 + index).collect();
        write(&mut device, 0x0B, &data);
        assert_eq!(device.registers[8..], [0; 8]);
        assert_eq!(register(&device, 0x0B), 0x80);
        assert_eq!(counters(&device), (0x8382, 0x8584));
    }
}

/// A write that reaches the serial number before 0Bh still stores it.
#[test]
fn a_lock_after_the_serial_number_in_one_write() {
    for mut device in fresh_devices() {
        let mut data = vec![1, 2, 3, 4, 5, 6, 7, 8];
        // 09h, 0Ah, 0Bh with SNL, 0Ch to 10h, and 11h again
        data.extend([0, 0, 0x80, 0, 0, 0, 0, 0, 0x99]);
        write(&mut device, 0x11, &data);
        assert_eq!(device.registers[8..], [1, 2, 3, 4, 5, 6, 7, 8]);
        assert_eq!(device.companion_address, 0x12);
    }
}

/// The other bits of 0Bh stay writable once SNL is 1.
#[test]
fn protection_can_still_be_changed_once_locked() {
    for byte in 0..=255_u8 {
        let mut device = Device::fresh(Size::Kilobits64);
        write(&mut device, 0x0B, &[0x98]);
        write(&mut device, 0x0B, &[byte]);
        assert_eq!(register(&device, 0x0B), 0x80 | byte & 0x1F);
    }
}

/// "loss of both supplies included"; "That loss clears 0Ch to 10h and leaves 09h
/// with POR and LB alone (our ruling)".
#[test]
fn loss_of_both_supplies() {
    for lock in [0x00, 0x80] {
        for losing in [&[6][..], &[5, 6], &[6, 5, 6]] {
            let mut device = Device::fresh(Size::Kilobits256);
            write(&mut device, 0x11, &[1, 2, 3, 4, 5, 6, 7, 8]);
            let data = [0x2F, 0x9F, lock | 0x1F, 0x0F, 1, 2, 3, 4];
            write(&mut device, 0x09, &data);
            assert_eq!(device.registers[0], 0x2F);
            device.run(losing);
            let expected = [
                0x60,
                0x9F,
                lock | 0x1F,
                0,
                0,
                0,
                0,
                0,
                1,
                2,
                3,
                4,
                5,
                6,
                7,
                8,
            ];
            assert_eq!(device.registers, expected);
            device.event(7);
            assert_eq!(device.registers, expected);
        }
    }
}

/// Event 7 "after backup it sets POR" (01); nothing else changes but the power.
#[test]
fn por_after_backup() {
    for mut device in fresh_devices() {
        write(&mut device, 0x09, &[0x00]);
        device.event(5);
        assert_eq!(register(&device, 0x09), 0x00);
        device.event(7);
        assert_eq!(register(&device, 0x09), 0x40);
        device.event(7);
        assert_eq!(register(&device, 0x09), 0x40);
    }
}
