// SPDX-License-Identifier: Apache-2.0
//! 02, number 11: "A report is lit exactly if the last whole read of its byte, all
//! of it after the last bus failure, gave 1 and fewer than three tick events ...
//! have passed since the Stop that ended it."

use second::generate::{self, RandomSource, Script};
use second::proving_history::{self, watch};
use second::proving_record::ProvingRecord;
use second::{Device, Power};

const DARK: [bool; 8] = [false; 8];

/// A device whose eight lamps hold these bytes.
fn device_with(bytes: [u8; 8]) -> Device {
    let mut device = Device::fresh();
    device.memory[0x1000..0x1008].copy_from_slice(&bytes);
    device
}

/// The reports after some events, by both forms.
fn reports_after(device: &Device, script: &Script) -> [bool; 8] {
    let mut record = ProvingRecord::new();
    let stepped = record.run(&mut device.clone(), &script.events);
    let history = watch(&mut device.clone(), &script.events);
    let last = stepped.last().copied().unwrap_or(DARK);
    assert_eq!(proving_history::reports(&history), last);
    assert_eq!(record.reports(), last);
    last
}

/// Events written by a builder.
fn script(build: impl FnOnce(&mut Script)) -> Script {
    let mut script = Script::new();
    build(&mut script);
    script
}

/// The reports after a whole read of all eight lamps, which hold 1, and then
/// some more events.
fn after_all_were_lit(build: impl FnOnce(&mut Script)) -> [bool; 8] {
    let mut events = Script::new();
    events.memory_read(0x1000, 8);
    build(&mut events);
    reports_after(&device_with([1; 8]), &events)
}

fn all_lit(build: impl FnOnce(&mut Script)) -> bool {
    let reports = after_all_were_lit(build);
    assert!(reports == DARK || reports == [true; 8]);
    reports[0]
}

// ----- reads -----

#[test]
fn nothing_read_is_dark() {
    assert_eq!(reports_after(&device_with([1; 8]), &Script::new()), DARK);
    assert_eq!(ProvingRecord::new().reports(), DARK);
}

#[test]
fn each_lamp_by_itself() {
    for lamp in 0..8 {
        let read = script(|script| {
            script.memory_read(0x1000 + lamp, 1);
        });
        let mut expected = DARK;
        expected[usize::from(lamp)] = true;
        assert_eq!(reports_after(&device_with([1; 8]), &read), expected);
    }
}

/// Reads that begin before the lamps and end after them.
#[test]
fn every_stretch_of_bytes() {
    let mut device = device_with([1; 8]);
    device.memory[0x0F00..0x1100].fill(1);
    for first in 0x0FFC..0x100C_u16 {
        for count in 1..12_u16 {
            let read = script(|script| {
                script.memory_read(first, usize::from(count));
            });
            let reports = reports_after(&device, &read);
            for (lamp, lit) in (0x1000..).zip(reports) {
                assert_eq!(lit, first <= lamp && lamp < first + count);
            }
        }
    }
}

/// "1 lit, 0 dark": only 1 is lit.
#[test]
fn only_1_is_lit() {
    for byte in 0..=255 {
        let mut bytes = [1; 8];
        bytes[3] = byte;
        let read = script(|script| {
            script.memory_read(0x1000, 8);
        });
        let mut expected = [true; 8];
        expected[3] = byte == 1;
        assert_eq!(reports_after(&device_with(bytes), &read), expected);
    }
}

/// The companion's bytes are no lamps, also with such a memory address.
#[test]
fn the_companion_has_no_lamps() {
    let mut device = device_with([1; 8]);
    device.memory_address = 0x1000;
    let read = script(|script| {
        script.companion_read(0x05, 3);
    });
    assert_eq!(device.registers[0x05..=0x07], [1, 1, 1]);
    assert_eq!(reports_after(&device, &read), DARK);
}

/// "A whole read has all nine clocks and that Stop."
#[test]
fn a_read_is_whole_with_its_stop() {
    let device = device_with([1; 8]);
    let read = script(|script| {
        script.memory_read(0x1002, 1);
    });
    let reports = ProvingRecord::new().run(&mut device.clone(), &read.events);
    for (place, reports) in reports.iter().enumerate() {
        let is_last = place + 1 == read.events.len();
        assert_eq!(reports[2], is_last);
    }
}

/// Cut by a Stop after any number of its clocks.
#[test]
fn a_read_cut_by_a_stop() {
    for clocks in 0..=9 {
        let read = script(|script| {
            script.begin_memory_write(0x1002).begin_memory_read();
            for _ in 0..clocks {
                script.clock(true);
            }
            script.stop();
        });
        let reports = reports_after(&device_with([1; 8]), &read);
        assert_eq!(reports[2], clocks == 9);
    }
}

/// A low ninth bit is a ninth clock too.
#[test]
fn the_ninth_bit_may_be_low() {
    let read = script(|script| {
        script.begin_memory_write(0x1002).begin_memory_read();
        script.read_byte(true).stop();
    });
    assert!(reports_after(&device_with([1; 8]), &read)[2]);
}

/// Clocks after a read that the master's high ninth bit has ended are of no
/// byte.
#[test]
fn clocks_after_the_end_of_a_read() {
    for count in 0..20 {
        for high in [false, true] {
            let read = script(|script| {
                script.begin_memory_write(0x1002).begin_memory_read();
                script.read_byte(false);
                for _ in 0..count {
                    script.clock(high);
                }
                script.stop();
            });
            assert!(reports_after(&device_with([1; 8]), &read)[2]);
        }
    }
}

#[test]
fn reads_from_the_current_address_count() {
    let mut device = device_with([1, 0, 1, 1, 0, 0, 0, 1]);
    device.memory_address = 0x1000;
    let read = script(|script| {
        script.memory_read_current(4).memory_read_current(4);
    });
    let expected = [true, false, true, true, false, false, false, true];
    assert_eq!(reports_after(&device, &read), expected);
}

/// The byte is what the line showed: the master may pull it low.
#[test]
fn the_byte_is_what_the_line_showed() {
    for byte in 0..=255 {
        for held in [0xFF, 0x01, 0xFD, 0x00, 0xFE] {
            let mut bytes = [0; 8];
            bytes[6] = byte;
            let read = script(|script| {
                script.begin_memory_write(0x1006).begin_memory_read();
                script.byte(held).acknowledge_clock(true).stop();
            });
            let reports = reports_after(&device_with(bytes), &read);
            assert_eq!(reports[6], byte & held == 1);
        }
    }
}

/// Further Starts in the transaction; all its reads are whole by its Stop.
#[test]
fn several_reads_in_one_transaction() {
    let device = device_with([1, 1, 0, 1, 1, 1, 1, 1]);
    let read = script(|script| {
        script.begin_memory_write(0x1004).begin_memory_read();
        script.read_bytes(1);
        script.ticks(5);
        script.begin_memory_write(0x1000).begin_memory_read();
        script.read_bytes(3);
        script.start();
    });
    assert_eq!(reports_after(&device, &read), DARK);
    let mut ended = read.clone();
    ended.stop();
    let expected = [true, true, false, false, true, false, false, false];
    assert_eq!(reports_after(&device, &ended), expected);
    ended.ticks(2);
    assert_eq!(reports_after(&device, &ended), expected);
    ended.tick();
    assert_eq!(reports_after(&device, &ended), DARK);
}

/// Of two reads of a byte in one transaction the last decides.
#[test]
fn the_last_read_of_a_byte_decides() {
    for (first, second) in [(0, 1), (1, 0), (1, 1)] {
        let mut bytes = [0; 8];
        bytes[5] = first;
        let read = script(|script| {
            script.begin_memory_write(0x1005).begin_memory_read();
            script.read_bytes(1);
            script.begin_memory_write(0x1005);
            script.byte_and_acknowledge(second);
            script.begin_memory_write(0x1005).begin_memory_read();
            script.read_bytes(1).stop();
        });
        assert_eq!(reports_after(&device_with(bytes), &read)[5], second == 1);
    }
}

/// A read is whole only with its Stop: until then the one before stands.
#[test]
fn the_read_before_stands_until_the_stop() {
    let device = device_with([1; 8]);
    let read = script(|script| {
        script.memory_read(0x1000, 8).memory_write(0x1004, &[0]);
        script.begin_memory_write(0x1004).begin_memory_read();
        script.read_bytes(1);
    });
    assert_eq!(reports_after(&device, &read), [true; 8]);
    let mut ended = read.clone();
    ended.stop();
    let expected = [true, true, true, true, false, true, true, true];
    assert_eq!(reports_after(&device, &ended), expected);
}

/// Writes change no report.
#[test]
fn writes_change_no_report() {
    assert!(all_lit(|script| {
        script.memory_write(0x1000, &[0; 8]);
    }));
    let dark = script(|script| {
        script.memory_read(0x1000, 8).memory_write(0x1000, &[1; 8]);
    });
    assert_eq!(reports_after(&device_with([0; 8]), &dark), DARK);
}

// ----- ticks -----

/// "fewer than three tick events, counted by the device or not"
#[test]
fn the_third_tick_darkens() {
    for oscillator in [0x00, 0x80] {
        for ticks in 0..8 {
            let lit = all_lit(|script| {
                script.companion_write(0x01, &[oscillator]);
                script.ticks(ticks);
            });
            assert_eq!(lit, ticks < 3);
        }
    }
}

/// Ticks count since the Stop, not before it, and each lamp by its own.
#[test]
fn ticks_count_from_the_stop() {
    let device = device_with([1; 8]);
    let read = script(|script| {
        script.memory_read(0x1000, 1).tick();
        script.memory_read(0x1001, 1).tick();
        script.begin_memory_write(0x1002).begin_memory_read();
        script.read_bytes(1).ticks(1).stop();
    });
    let mut expected = [false, true, true, false, false, false, false, false];
    assert_eq!(reports_after(&device, &read), expected);
    let mut more = read.clone();
    more.tick();
    expected[1] = false;
    assert_eq!(reports_after(&device, &more), expected);
}

/// A read renews its lamp.
#[test]
fn a_read_renews_its_lamp() {
    assert!(all_lit(|script| {
        for _ in 0..5 {
            script.ticks(2).memory_read(0x1000, 8);
        }
        script.ticks(2);
    }));
}

// ----- failures -----

/// The beginnings of bytes of every kind.
fn beginnings() -> Vec<Script> {
    vec![
        script(|script| {
            script.start();
        }),
        script(|script| {
            script.start().byte_and_acknowledge(0xA0);
        }),
        script(|script| {
            script.start().byte_and_acknowledge(0xA0);
            script.byte_and_acknowledge(0x12);
        }),
        script(|script| {
            script.begin_memory_write(0x0123);
        }),
        script(|script| {
            script.begin_memory_read();
        }),
        script(|script| {
            script.begin_memory_read().read_byte(true);
        }),
        script(|script| {
            script.start().byte_and_acknowledge(0xD0);
        }),
        script(|script| {
            script.begin_companion_write(0x0E);
        }),
        script(|script| {
            script.begin_companion_read();
        }),
    ]
}

/// "at a Start or Stop with 1 to 8 clocks of a byte done"
#[test]
fn a_start_or_stop_inside_a_byte() {
    for beginning in beginnings() {
        for clocks in 0..=8 {
            for end in [0, 1] {
                // 0 bits: an unknown slave byte, or an address or data byte
                let lit = all_lit(|script| {
                    script.events(&beginning.events);
                    script.first_bits(0x00, clocks).event(end);
                });
                assert_eq!(lit, clocks == 0);
            }
        }
    }
}

/// A hang between bytes that a Start frees is no failure: the lamps stay until
/// the third tick.
#[test]
fn a_hang_between_bytes_is_no_failure() {
    for ticks in 0..4 {
        let lit = all_lit(|script| {
            script.begin_memory_read().read_byte(true).ticks(ticks);
            script.start().start();
        });
        assert_eq!(lit, ticks < 3);
    }
}

/// "at an acknowledge the device does not give": every slave byte.
#[test]
fn every_slave_byte() {
    for byte in 0..=255 {
        let known = matches!(byte, 0xA0 | 0xA1 | 0xD0 | 0xD1);
        for high in [false, true] {
            let lit = all_lit(|script| {
                script.start().byte(byte).acknowledge_clock(high);
            });
            assert_eq!(lit, known);
        }
    }
}

/// A byte refused at its eighth clock fails at its ninth, or at a Start or Stop,
/// not before.
#[test]
fn refused_bytes() {
    let refused = [
        script(|script| {
            script.start().byte(0xA2);
        }),
        script(|script| {
            script.start().byte_and_acknowledge(0xD0).byte(0x0F);
        }),
        script(|script| {
            script.companion_write(0x0E, &[0x08]);
            script.begin_memory_write(0x07FF).byte(0x55);
        }),
        script(|script| {
            // 31 April is not taken
            script.companion_write(0x00, &[0x02]);
            script.companion_write(0x06, &[0x31, 0x04]);
            script.begin_companion_write(0x00).byte(0x00);
        }),
    ];
    for eight_clocks in refused {
        assert!(all_lit(|script| {
            script.events(&eight_clocks.events);
        }));
        assert!(all_lit(|script| {
            script.events(&eight_clocks.events).ticks(2);
        }));
        for next in [0, 1, 2, 3, 5, 6] {
            assert!(!all_lit(|script| {
                script.events(&eight_clocks.events).tick().event(next);
            }));
        }
        // once the ninth clock is done, nothing more fails
        let mut device = device_with([1; 8]);
        let mut record = ProvingRecord::new();
        record.run(&mut device, &eight_clocks.events);
        record.run(&mut device, &[3, 1]);
        let lamps = script(|script| {
            script.memory_read(0x1000, 8);
        });
        let reports = record.run(&mut device, &lamps.events);
        assert_eq!(reports.last(), Some(&[true; 8]));
    }
}

/// The line may be low at the ninth clock because the master pulls it: that is
/// no acknowledge. And one that the device gives counts though the master pulls
/// too.
#[test]
fn the_masters_ninth_bit_is_no_acknowledge() {
    assert!(!all_lit(|script| {
        script.start().byte(0x00).acknowledge_clock(false);
    }));
    assert!(all_lit(|script| {
        script.start().byte(0xA0).acknowledge_clock(false);
        script.byte(0x00).acknowledge_clock(false);
        script.byte(0x00).acknowledge_clock(false);
        script.byte(0x00).acknowledge_clock(false);
    }));
}

/// "and at event 5 or 6", in every power state; event 7 is none.
#[test]
fn power_events() {
    for event in [5, 6] {
        assert!(!all_lit(|script| {
            script.event(event);
        }));
        assert!(!all_lit(|script| {
            script.event(event).power_returned();
        }));
    }
    assert!(all_lit(|script| {
        script.power_returned();
    }));
    for power in [Power::Backup, Power::Gone] {
        // no lamp is lit without power, whatever the master does
        let mut device = device_with([1; 8]);
        device.power = power;
        let read = script(|script| {
            script.memory_read(0x1000, 8).start().clock(true).stop();
        });
        assert_eq!(reports_after(&device, &read), DARK);
    }
}

/// A failure inside a transaction: what was read before it does not count, what
/// is read after it does.
#[test]
fn a_failure_inside_a_transaction() {
    let device = device_with([1; 8]);
    let read = script(|script| {
        script.begin_memory_write(0x1000).begin_memory_read();
        script.read_bytes(2);
        script.start().first_bits(0xA1, 3);
        script.begin_memory_write(0x1004).begin_memory_read();
        script.read_bytes(2).stop();
    });
    let expected = [false, false, false, false, true, true, false, false];
    assert_eq!(reports_after(&device, &read), expected);
}

/// All eight go dark at once, also those that were read long before.
#[test]
fn all_go_dark_and_come_back_by_reads() {
    let device = device_with([1; 8]);
    let read = script(|script| {
        script.memory_read(0x1000, 8);
        script.start().byte_and_acknowledge(0x42).stop();
        script.memory_read(0x1003, 1);
    });
    let mut expected = DARK;
    expected[3] = true;
    assert_eq!(reports_after(&device, &read), expected);
}

/// Clocks outside a transfer are of no byte.
#[test]
fn clocks_outside_a_transfer() {
    for count in 0..20 {
        for end in [0, 1] {
            assert!(all_lit(|script| {
                for _ in 0..count {
                    script.clock(true).clock(false);
                }
                script.event(end);
            }));
        }
    }
}

// ----- stepped against history -----

/// Both forms after each of some events; returns how many reports were lit.
fn compare(device: &Device, events: &[u8], every: usize) -> usize {
    let stepped = ProvingRecord::new().run(&mut device.clone(), events);
    let history = watch(&mut device.clone(), events);
    let mut lit = 0;
    for (place, reports) in stepped.iter().enumerate() {
        if place % every == 0 || place + 1 == events.len() {
            let looked_back = proving_history::reports(&history[..=place]);
            assert_eq!(*reports, looked_back, "place {place} of {events:?}");
            lit += reports.iter().filter(|lamp| **lamp).count();
        }
    }
    lit
}

#[test]
fn lists_of_lamps() {
    let mut lit = 0;
    for list in generate::lamps(11, 30_000) {
        lit += compare(&list.device(), &list.events, 5);
    }
    assert!(lit > 2_000, "{lit}");
}

#[test]
fn lists_of_other_things() {
    for list in generate::handed_in_random(11, 20_000) {
        let mut device = list.device();
        device.memory[0x1000..0x1008].fill(1);
        device.memory_address = 0x1000;
        let events = &list.events[..list.events.len().min(400)];
        compare(&device, events, 7);
    }
}

/// Histories that begin inside a transfer.
#[test]
fn histories_that_begin_inside_a_transfer() {
    let mut source = RandomSource::new(111);
    for list in generate::lamps(12, 40_000) {
        let mut device = list.device();
        let place = source.below(list.events.len());
        device.run(&list.events[..place]);
        compare(&device, &list.events[place..], 11);
    }
}

/// All lists of a read's beginning and four steps out of a few.
#[test]
fn all_short_lists_of_steps() {
    let steps: [&[u8]; 11] = [
        &[0],
        &[1],
        &[4],
        &[3],
        &[2, 2, 2, 2, 2, 2, 2, 2],
        &[3, 2, 3, 2, 2, 2, 2, 3, 3],
        &[3, 2, 3, 2, 2, 2, 2, 2, 2],
        &[3, 3, 3, 3, 3, 3, 3, 3, 3],
        &[3, 3, 3, 3, 3, 3, 3, 3, 2],
        &[2, 2, 2, 2, 2, 2, 2, 3, 2],
        &[5, 7],
    ];
    let mut device = device_with([1; 8]);
    device.memory_address = 0x1000;
    let mut lit = 0;
    for number in 0..11_usize.pow(4) {
        let mut events = script(|script| {
            script.begin_memory_read();
        })
        .events;
        for place in 0..4 {
            events.extend(steps[number / 11_usize.pow(place) % 11]);
        }
        lit += compare(&device, &events, 3);
    }
    assert!(lit > 1_000);
}
