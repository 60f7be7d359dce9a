// SPDX-License-Identifier: Apache-2.0
//! The larger family (02, number 5): addresses, protection, supplies, limits and
//! refusals, in the words of 01 and 02.

use second::bus::{LogicalDevice, Phase, Power, Transfer};
use second::family::{self, Device, Size, State, SIZES};
use second::generate::{self, fill_memory, FamilyView, Script};
use second::host;

fn filled(size: Size) -> Device {
    let mut device = Device::fresh(size);
    fill_memory(77, &mut device.memory);
    device
}

#[test]
fn sizes() {
    assert_eq!(Size::Kilobits64.bytes(), 8192);
    assert_eq!(Size::Kilobits256.bytes(), 32_768);
    for size in SIZES {
        assert_eq!(usize::from(size.last_address()) + 1, size.bytes());
    }
}

/// Every address can be written and read.
#[test]
fn the_whole_memory() {
    for size in SIZES {
        let mut device = Device::fresh(size);
        let data: Vec<u8> = (0..size.bytes()).map(|place| (place % 251) as u8).collect();
        let acknowledged = host::memory_write(&mut device, 0x0000, &data);
        assert!(acknowledged.iter().all(|one| *one));
        assert!(device.memory == data);
        assert_eq!(device.memory_address, 0);
        assert_eq!(host::memory_read(&mut device, 0x0000, data.len()), data);
    }
}

/// "address bits above it being ignored"
#[test]
fn address_bits_above_the_size() {
    for (size, above) in [(Size::Kilobits64, 0xE000_u16), (Size::Kilobits256, 0x8000)] {
        for address in [0x0000, 0x0123, 0x1FFF] {
            let mut device = filled(size);
            let mut expected = device.memory.clone();
            expected[usize::from(address)] ^= 0xFF;
            let byte = expected[usize::from(address)];
            host::memory_write(&mut device, address | above, &[byte]);
            assert!(device.memory == expected);
        }
    }
    let mut device = filled(Size::Kilobits256);
    host::memory_write(&mut device, 0x2000, &[]);
    assert_eq!(device.memory_address, 0x2000);
}

/// "Memory goes from 1FFFh to 0000h", at 256Kb from 7FFFh.
#[test]
fn rolls() {
    for size in SIZES {
        let mut device = filled(size);
        host::memory_write(&mut device, size.last_address(), &[0xAB]);
        assert_eq!(device.memory_address, 0x0000);
        assert_eq!(device.memory[size.bytes() - 1], 0xAB);
        let first = device.memory[0];
        let read = host::memory_read(&mut device, size.last_address(), 2);
        assert_eq!(read, [0xAB, first]);
        assert_eq!(device.memory_address, 0x0001);
        // "rolls from 18h to 09h (our ruling)"
        host::companion_write(&mut device, 0x18, &[1]);
        assert_eq!(device.companion_address, 0x09);
        host::companion_read(&mut device, 0x17, 2);
        assert_eq!(device.companion_address, 0x09);
    }
    let mut device = filled(Size::Kilobits256);
    host::memory_write(&mut device, 0x1FFF, &[1]);
    assert_eq!(device.memory_address, 0x2000);
}

/// 003: "Bottom 1/4", "Bottom 1/2", "Full array"; a refused byte steps the
/// address too (02, number 3).
#[test]
fn protection_at_every_border() {
    let limits = [
        (Size::Kilobits64, [0, 0x0800, 0x1000, 0x2000_u32]),
        (Size::Kilobits256, [0, 0x2000, 0x4000, 0x8000]),
    ];
    for (size, first_unprotected) in limits {
        for protection in 0..4_u8 {
            let limit = first_unprotected[usize::from(protection)];
            for border in first_unprotected {
                for address in [border.saturating_sub(1), border] {
                    let address = address as u16 & size.last_address();
                    let mut device = filled(size);
                    host::companion_write(&mut device, 0x0B, &[protection << 3]);
                    let refused = u32::from(address) < limit;
                    let mut expected = device.memory.clone();
                    let byte = !expected[usize::from(address)];
                    if !refused {
                        expected[usize::from(address)] = byte;
                    }
                    let acknowledged = host::memory_write(&mut device, address, &[byte]);
                    assert_eq!(acknowledged, [true, true, true, !refused]);
                    assert!(device.memory == expected);
                    let next = (usize::from(address) + 1) % size.bytes();
                    assert_eq!(usize::from(device.memory_address), next);
                }
            }
        }
    }
}

/// "an address byte outside them is not acknowledged"
#[test]
fn companion_addresses() {
    for byte in 0..=255_u8 {
        let mut device = Device::fresh(Size::Kilobits64);
        host::companion_write(&mut device, 0x12, &[]);
        let acknowledged = host::companion_write(&mut device, byte, &[0x01]);
        let legal = (0x09..=0x18).contains(&byte);
        assert_eq!(acknowledged, [true, legal, legal]);
        if !legal {
            assert_eq!(device.companion_address, 0x12);
        }
    }
}

/// "Slave byte 1010 000x is memory, 1101 000x the companion"; "Any other (ruling)
/// is not acknowledged".
#[test]
fn slave_bytes() {
    for byte in 0..=255_u8 {
        let mut device = Device::fresh(Size::Kilobits256);
        let known = [0xA0, 0xA1, 0xD0, 0xD1].contains(&byte);
        assert_eq!(host::begin(&mut device, byte), known, "{byte:02X}h");
    }
}

/// "answer bits 1 to 3 are 0" (and 4 to 7 by 01).
#[test]
fn answers_are_the_line() {
    for size in SIZES {
        for list in generate::family_random(size, 3, 100_000) {
            let mut device = list.device();
            for (event, answer) in list.events.iter().zip(device.run(&list.events)) {
                assert!(answer <= 1);
                if !(2..=3).contains(event) {
                    assert_eq!(answer, 1);
                }
            }
        }
    }
}

/// The exact run of 01 with the family's answer bits.
#[test]
fn the_exact_run() {
    let events = [0, 3, 2, 3, 2, 2, 2, 2, 2, 3, 1];
    let expected = [1, 1, 0, 1, 0, 0, 0, 0, 0, 0, 1];
    for size in SIZES {
        assert_eq!(Device::fresh(size).run(&events), expected);
    }
}

/// "the companion address starts at 09h, also after power loss"; 01: "the
/// transfer ends, both addresses become 0" for the memory.
#[test]
fn addresses_after_a_loss_of_power() {
    for lost in [5, 6] {
        for size in SIZES {
            let mut device = filled(size);
            let memory = device.memory.clone();
            host::companion_write(&mut device, 0x15, &[]);
            host::memory_write(&mut device, 0x0456, &[]);
            host::begin(&mut device, 0xA1);
            device.event(lost);
            assert_eq!(device.memory_address, 0);
            assert_eq!(device.companion_address, 0x09);
            assert!(device.between_transfers());
            assert!(device.memory == memory);
            // "While off, bus events do nothing and a Clock's line is the master's."
            let before = device.clone();
            assert_eq!(device.run(&[0, 2, 3, 1]), [1, 0, 1, 1]);
            assert!(device == before);
        }
    }
}

/// Event 6 on backup is a loss of power too (READINGS 13): from a state handed in
/// with other addresses it leaves 0000h and 09h, and no transfer.
#[test]
fn event_6_on_backup_is_a_loss_of_power() {
    for size in SIZES {
        let mut device = filled(size);
        device.power = Power::Backup;
        device.memory_address = 0x0332;
        device.companion_address = 0x0E;
        device.transfer.phase = Phase::WriteData(LogicalDevice::Memory);
        device.event(6);
        assert_eq!((device.memory_address, device.companion_address), (0, 9));
        assert!(device.between_transfers());
        device.event(7);
        assert_ne!(device.memory[0x0000], device.memory[0x0332]);
        assert_eq!(host::read(&mut device, 0xA1, 1), device.memory[..1]);
    }
}

/// Event 5 while off, event 6 with both supplies gone and event 7 lose nothing.
#[test]
fn power_events_that_lose_nothing_keep_the_addresses() {
    for (power, events) in [(Power::Backup, &[5, 7][..]), (Power::Gone, &[5, 6, 7])] {
        for event in events {
            let mut device = filled(Size::Kilobits64);
            device.power = power;
            device.memory_address = 0x0332;
            device.companion_address = 0x0E;
            device.event(*event);
            let addresses = (device.memory_address, device.companion_address);
            assert_eq!(addresses, (0x0332, 0x0E), "event {event}, {power:?}");
        }
    }
}

/// "eight then power lost: new byte" (K11).
#[test]
fn seven_clocks_and_eight() {
    for size in SIZES {
        for (clocks, stored) in [(7, false), (8, true)] {
            for lost in [5, 6] {
                let mut device = Device::fresh(size);
                let mut script = Script::new();
                script.begin_memory_write(0x0100).first_bits(0xA5, clocks);
                script.event(lost);
                host::run_script(&mut device, &script);
                let expected = if stored { 0xA5 } else { 0x00 };
                assert_eq!(device.memory[0x0100], expected);
            }
        }
    }
}

// ----- limits and refusals -----

#[test]
fn limits() {
    for size in SIZES {
        let fresh = State::fresh();
        assert!(fresh.is_well_formed(size));
        for address in 0..=0xFFFF_u16 {
            let state = State {
                memory_address: address,
                ..fresh
            };
            let within = usize::from(address) < size.bytes();
            assert_eq!(state.is_well_formed(size), within);
        }
        for address in 0..=255_u8 {
            let state = State {
                companion_address: address,
                ..fresh
            };
            let within = (0x09..=0x18).contains(&address);
            assert_eq!(state.is_well_formed(size), within);
        }
        for snapshot in [[0xFF; 4], [0, 1, 2, 3]] {
            assert!(State { snapshot, ..fresh }.is_well_formed(size));
        }
    }
}

/// "bits that the register map fixes at 0 are 0": bit 4 of 09h, bits 6 and 5 of
/// 0Ah and of 0Bh, the upper four of 0Ch.
#[test]
fn fixed_bits() {
    let mut fixed = [0x00; 16];
    fixed[..4].copy_from_slice(&[0x10, 0x60, 0x60, 0xF0]);
    for (place, fixed) in fixed.iter().enumerate() {
        for bit in 0..8 {
            let mut state = State::fresh();
            state.registers[place] |= 1 << bit;
            let is_fixed = fixed >> bit & 1 == 1;
            assert_eq!(state.is_well_formed(Size::Kilobits64), !is_fixed);
        }
    }
}

#[test]
fn what_a_phase_holds() {
    let size = Size::Kilobits64;
    let with = |transfer| State {
        transfer,
        ..State::fresh()
    };
    let clocks = |clocks| Transfer {
        phase: Phase::ReadData(LogicalDevice::Memory),
        clocks,
        ..Transfer::none()
    };
    assert!(with(clocks(8)).is_well_formed(size));
    assert!(!with(clocks(9)).is_well_formed(size));
    let kept = Transfer {
        byte_sent: 1,
        ..Transfer::none()
    };
    assert!(!with(kept).is_well_formed(size));
    let unnamed = Transfer {
        phase: Phase::SlaveByte,
        clocks: 8,
        ..Transfer::none()
    };
    assert!(!with(unnamed).is_well_formed(size));
}

fn whole_byte(phase: Phase, byte: u8) -> Transfer {
    Transfer {
        phase,
        clocks: 8,
        received_bits: std::array::from_fn(|place| byte >> (7 - place) & 1 == 1),
        ..Transfer::none()
    }
}

/// The limits on a phase are the FM3130's (READINGS 50 and 96): a whole slave
/// byte names the part; a whole companion address byte may be any, in both.
#[test]
fn whole_bytes_as_in_the_fm3130() {
    let fm3130 = second::state::State::of(&second::Device::fresh());
    for phase in [Phase::SlaveByte, Phase::CompanionAddressByte] {
        for byte in 0..=255_u8 {
            let transfer = whole_byte(phase, byte);
            let named = matches!(byte, 0xA0 | 0xA1 | 0xD0 | 0xD1);
            let within = named || phase == Phase::CompanionAddressByte;
            for size in SIZES {
                let state = State {
                    transfer,
                    ..State::fresh()
                };
                assert_eq!(state.is_well_formed(size), within);
            }
            let state = second::state::State { transfer, ..fm3130 };
            assert_eq!(state.is_well_formed(), within);
        }
    }
}

/// No event leads out of the limits.
#[test]
fn events_keep_the_limits() {
    for size in SIZES {
        let mut lists = generate::family_structured(size, 5, 300_000);
        lists.extend(generate::family_random(size, 5, 300_000));
        for list in lists {
            assert!(list.state.is_well_formed(size));
            let mut device = list.device();
            for event in &list.events {
                device.event(*event);
                assert!(State::of(&device).is_well_formed(size));
            }
        }
    }
}

/// The numbers 1 to 4 in their order; a refusal is not an answer.
#[test]
fn refusals_of_the_list_run() {
    for size in SIZES {
        for call in generate::family_calls(size) {
            let memory = vec![0; call.memory_bytes];
            let given = family::run(size, Some(call.state), &memory, &call.events, call.room);
            let expected = if call.memory_bytes != size.bytes() {
                Err(1)
            } else if !call.state.is_well_formed(size) {
                Err(2)
            } else if call.events.iter().any(|event| *event >= 10) {
                Err(3)
            } else if call.room < call.events.len() {
                Err(4)
            } else {
                Ok(call.events.len())
            };
            assert_eq!(
                given.map(|run| run.answers.len()),
                expected,
                "{}",
                call.name
            );
        }
        let memory = vec![0; size.bytes()];
        assert_eq!(family::run(size, None, &memory, &[], 0), Err(2));
        assert_eq!(family::run(size, None, &[], &[], 0), Err(1));
        assert!(family::run(size, Some(State::fresh()), &memory, &[], 0).is_ok());
    }
}

/// A list is its events one by one, by the same entry's single events.
#[test]
fn a_list_is_its_events() {
    for size in SIZES {
        for list in generate::family_random(size, 9, 10_000) {
            let run = family::run(
                size,
                Some(list.state),
                &list.memory(),
                &list.events,
                list.events.len(),
            );
            let run = run.expect("nothing to refuse");
            let mut state = list.state;
            let mut memory = list.memory();
            let mut answers = Vec::new();
            for event in &list.events {
                let stepped = family::step(size, state, &memory, *event);
                assert_eq!(stepped.number, 0);
                state = stepped.state;
                memory = stepped.memory;
                answers.push(stepped.answer);
            }
            assert_eq!(
                (run.state, run.memory, run.answers),
                (state, memory, answers)
            );
        }
    }
}

/// "A refused single event returns its state unchanged with answer byte 1."
#[test]
fn a_refused_event() {
    for size in SIZES {
        let memory = vec![7; size.bytes()];
        for event in 10..=255_u8 {
            let stepped = family::step(size, State::fresh(), &memory, event);
            assert_eq!((stepped.number, stepped.answer), (3, 1));
            assert_eq!(stepped.state, State::fresh());
            assert_eq!(stepped.memory, memory);
        }
        let bad = State {
            companion_address: 0,
            ..State::fresh()
        };
        let stepped = family::step(size, bad, &memory, 255);
        assert_eq!((stepped.number, stepped.state), (2, bad));
        let stepped = family::step(size, bad, &memory[1..], 255);
        assert_eq!((stepped.number, stepped.answer), (1, 1));
    }
}

/// The number that a view is due.
fn number_of(view: &FamilyView) -> u8 {
    let chosen = match view.selector {
        0 => view.size.bytes() as u64,
        _ => 16,
    };
    let end = view.start.checked_add(view.length);
    if view.memory_bytes != view.size.bytes() {
        1
    } else if view.image_bytes != 64 {
        2
    } else if view.selector > 1 {
        5
    } else if end.is_none_or(|end| end > chosen) {
        6
    } else {
        0
    }
}

/// The viewer: numbers 1, 2, 5 and 6 in their order, and its parts.
#[test]
fn the_viewer() {
    for view in SIZES.into_iter().flat_map(generate::family_views) {
        let mut image = vec![0; view.image_bytes];
        fill_memory(5, &mut image);
        let memory: Vec<u8> = (0..view.memory_bytes).map(|place| place as u8).collect();
        let (start, length) = (view.start, view.length);
        let (number, part) = family::view(view.size, &image, &memory, view.selector, start, length);
        assert_eq!(number, number_of(&view), "{view:?}");
        if number == 0 {
            let chosen: &[u8] = if view.selector == 0 { &memory } else { &image };
            let start = start as usize;
            assert_eq!(part, &chosen[start..start + length as usize]);
        } else {
            assert!(part.is_empty());
        }
    }
}

/// An edge changes nothing of the transfer, the addresses, the power.
#[test]
fn an_edge_changes_counters_alone() {
    for list in generate::family_random(Size::Kilobits64, 21, 60_000) {
        let mut device = list.device();
        for event in &list.events {
            let before = device.clone();
            device.event(*event);
            if (8..=9).contains(event) {
                let mut expected = before.clone();
                expected.registers[4..8].copy_from_slice(&device.registers[4..8]);
                assert!(device == expected);
                if before.power == Power::Gone {
                    assert!(device == before);
                }
            }
        }
    }
}

/// "Once SNL is 1 no event of any kind changes registers 11h to 18h or SNL".
#[test]
fn once_locked_nothing_changes_the_serial_number() {
    for size in SIZES {
        let mut lists = generate::family_random(size, 22, 300_000);
        lists.extend(generate::family_structured(size, 22, 300_000));
        let mut locked_events = 0;
        for list in lists {
            let mut device = list.device();
            for event in &list.events {
                let before = device.registers;
                device.event(*event);
                if before[2] & 0x80 != 0 {
                    locked_events += 1;
                    assert_eq!(device.registers[8..], before[8..]);
                    assert_eq!(device.registers[2] & 0x80, 0x80);
                }
            }
        }
        assert!(locked_events > 10_000);
    }
}
