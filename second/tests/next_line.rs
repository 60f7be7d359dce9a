// SPDX-License-Identifier: Apache-2.0
//! The next line: what the device will do, told before it does it, and the two
//! laws that make it safe on wires.

use second::generate::{self, fill_memory, List};
use second::host::{self, line_is_high};
use second::next_line::{next_line, next_line_of, NextLine};
use second::{Device, Phase, Power, State};

const NOTHING: NextLine = NextLine {
    next: false,
    after_low: false,
    after_high: false,
};

/// The same by whole copies of the device.
fn by_copies(device: &Device) -> NextLine {
    let pulls = |clocks: &[u8]| {
        let mut copy = device.clone();
        let answers = copy.run(clocks);
        !line_is_high(*answers.last().expect("some clocks"))
    };
    NextLine {
        next: pulls(&[3]),
        after_low: pulls(&[2, 3]),
        after_high: pulls(&[3, 3]),
    }
}

fn sample() -> Vec<List> {
    let mut lists = generate::structured(31, 60_000);
    lists.extend(generate::random(31, 60_000));
    lists
}

#[test]
fn a_fresh_device_pulls_nothing() {
    assert_eq!(next_line_of(&mut Device::fresh()), NOTHING);
}

/// Before the eighth clock of slave byte A0h the one after it is pulled if the
/// eighth is low; A1h is a slave byte too.
#[test]
fn the_acknowledge_is_told_two_clocks_before() {
    let mut device = Device::fresh();
    host::start(&mut device);
    for (place, event) in [3, 2, 3, 2, 2, 2, 2].into_iter().enumerate() {
        assert_eq!(next_line_of(&mut device), NOTHING, "before clock {place}");
        device.event(event);
    }
    let expected = NextLine {
        next: false,
        after_low: true,
        after_high: true,
    };
    assert_eq!(next_line_of(&mut device), expected);
    device.event(2);
    let expected = NextLine {
        next: true,
        after_low: false,
        after_high: false,
    };
    assert_eq!(next_line_of(&mut device), expected);
}

/// Companion address 0Eh is acknowledged, 0Fh is not (K10).
#[test]
fn the_acknowledge_may_hang_on_the_eighth_bit() {
    let mut device = Device::fresh();
    host::begin(&mut device, 0xD0);
    for event in [2, 2, 2, 2, 3, 3, 3] {
        device.event(event);
    }
    let expected = NextLine {
        next: false,
        after_low: true,
        after_high: false,
    };
    assert_eq!(next_line_of(&mut device), expected);
}

/// While the device sends, its bits are told one by one and two by two; the
/// master's low ninth bit continues.
#[test]
fn bits_of_a_byte_sent() {
    let mut device = Device::fresh();
    device.memory[0] = 0b0110_1001;
    device.memory[1] = 0b0111_1111;
    host::begin(&mut device, 0xA1);
    let zeros = [true, false, false, true, false, true, true, false];
    for place in 0..8 {
        let told = next_line_of(&mut device);
        assert_eq!(told.next, zeros[place]);
        if place < 7 {
            assert_eq!(
                (told.after_low, told.after_high),
                (zeros[place + 1], zeros[place + 1])
            );
        } else {
            assert_eq!((told.after_low, told.after_high), (false, false));
        }
        device.event(3);
    }
    let expected = NextLine {
        next: false,
        after_low: true,
        after_high: false,
    };
    assert_eq!(next_line_of(&mut device), expected);
}

#[test]
fn nothing_is_pulled_without_main_power() {
    for lost in [5, 6] {
        let mut device = Device::fresh();
        host::begin(&mut device, 0xA1);
        assert!(next_line_of(&mut device).next);
        device.event(lost);
        assert_eq!(next_line_of(&mut device), NOTHING);
    }
}

/// It changes nothing, and agrees with whole copies, at every prefix.
#[test]
fn it_is_read_only_and_agrees_with_copies() {
    for list in sample() {
        let mut device = list.device();
        for event in &list.events {
            device.event(*event);
            let before = device.clone();
            let told = next_line_of(&mut device);
            assert_eq!(device, before);
            assert_eq!(told, by_copies(&device));
        }
    }
}

/// What was told is what then happens, at every prefix of the lists for it.
#[test]
fn what_is_told_happens() {
    let lists = generate::for_every_prefix();
    assert_eq!(lists.len(), 9_743);
    assert_eq!(generate::count_events(&lists), 1_788_519);
    for list in lists {
        let mut device = list.device();
        let mut told = Vec::new();
        let mut answers = Vec::new();
        for event in &list.events {
            told.push(next_line_of(&mut device));
            answers.push(device.event(*event));
        }
        for (place, events) in list.events.windows(2).enumerate() {
            let expected = match events {
                [2, 3] => told[place].after_low,
                [3, 3] => told[place].after_high,
                _ => continue,
            };
            assert_eq!(!line_is_high(answers[place + 1]), expected);
        }
        for (place, event) in list.events.iter().enumerate() {
            if *event == 3 {
                assert_eq!(!line_is_high(answers[place]), told[place].next);
            }
        }
    }
}

/// Where the device pulls, a Clock low and a Clock high leave the same.
#[test]
fn a_hidden_level_is_harmless() {
    let mut pulled = 0;
    for list in sample() {
        let mut device = list.device();
        for event in &list.events {
            if next_line_of(&mut device).next {
                let (mut low, mut high) = (device.clone(), device.clone());
                low.event(2);
                high.event(3);
                assert_eq!(low, high);
                pulled += 1;
            }
            device.event(*event);
        }
    }
    assert!(pulled > 10_000);
}

/// A Clock that is not a byte's eighth, followed by Start or Stop, leaves what
/// Start or Stop alone leaves.
#[test]
fn a_clock_before_a_start_or_a_stop_is_harmless() {
    for list in sample() {
        let mut device = list.device();
        for event in &list.events {
            let is_eighth = device.transfer.clocks == 7
                && device.power == Power::On
                && device.transfer.phase != Phase::BetweenTransfers;
            if !is_eighth {
                for end in [0, 1] {
                    let mut alone = device.clone();
                    alone.event(end);
                    for clock in [2, 3] {
                        let mut both = device.clone();
                        both.run(&[clock, end]);
                        assert_eq!(both, alone);
                    }
                }
            }
            device.event(*event);
        }
    }
}

/// Refused by 1 and 2 as the others.
#[test]
fn refusals() {
    let mut memory = vec![0; 8192];
    fill_memory(3, &mut memory);
    let state = State::of(&Device::fresh());
    let bad = State {
        companion_address: 0x0F,
        ..state
    };
    for length in [0, 8191, 8193] {
        let wrong = vec![0; length];
        assert_eq!(next_line(Some(bad), &wrong), Err(1));
        assert_eq!(next_line(Some(state), &wrong), Err(1));
    }
    assert_eq!(next_line(Some(bad), &memory), Err(2));
    assert_eq!(next_line(None, &memory), Err(2));
    assert_eq!(next_line(Some(state), &memory), Ok(NOTHING));
}
