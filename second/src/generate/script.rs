// SPDX-License-Identifier: Apache-2.0
//! A builder of event lists: it says in words what a bus master does.

use crate::calendar::Calendar;
use crate::device::{
    CLOCK_HIGH, CLOCK_LOW, POWER_LOST_WITHOUT_BACKUP, POWER_LOST_WITH_BACKUP, POWER_RETURNED,
    SLAVE_COMPANION_READ, SLAVE_COMPANION_WRITE, SLAVE_MEMORY_READ, SLAVE_MEMORY_WRITE, START,
    STOP, TICK,
};
use crate::family::{EDGE_ON_CNT1, EDGE_ON_CNT2};
use crate::registers::WRITE_CALENDAR;

/// A list of events under construction.
#[derive(Clone, Debug, Default, PartialEq, Eq)]
pub struct Script {
    pub events: Vec<u8>,
}

impl Script {
    /// An empty script.
    pub fn new() -> Script {
        Script { events: Vec::new() }
    }

    /// Any one event.
    pub fn event(&mut self, event: u8) -> &mut Script {
        self.events.push(event);
        self
    }

    /// Several events.
    pub fn events(&mut self, events: &[u8]) -> &mut Script {
        for event in events {
            self.event(*event);
        }
        self
    }

    pub fn start(&mut self) -> &mut Script {
        self.event(START)
    }

    pub fn stop(&mut self) -> &mut Script {
        self.event(STOP)
    }

    /// One clock with the master's line as given.
    pub fn clock(&mut self, master_is_high: bool) -> &mut Script {
        self.event(if master_is_high {
            CLOCK_HIGH
        } else {
            CLOCK_LOW
        })
    }

    pub fn tick(&mut self) -> &mut Script {
        self.event(TICK)
    }

    pub fn ticks(&mut self, count: usize) -> &mut Script {
        for _ in 0..count {
            self.tick();
        }
        self
    }

    pub fn power_lost_with_backup(&mut self) -> &mut Script {
        self.event(POWER_LOST_WITH_BACKUP)
    }

    pub fn power_lost_without_backup(&mut self) -> &mut Script {
        self.event(POWER_LOST_WITHOUT_BACKUP)
    }

    pub fn power_returned(&mut self) -> &mut Script {
        self.event(POWER_RETURNED)
    }

    /// An edge on CNT1 of a part of the family.
    pub fn edge_on_cnt1(&mut self) -> &mut Script {
        self.event(EDGE_ON_CNT1)
    }

    /// An edge on CNT2 of a part of the family.
    pub fn edge_on_cnt2(&mut self) -> &mut Script {
        self.event(EDGE_ON_CNT2)
    }

    // ----- bytes -----

    /// The first bits of a byte, high bit first.
    pub fn first_bits(&mut self, byte: u8, count: u8) -> &mut Script {
        assert!(count <= 8, "a byte has eight bits");
        for place in 0..count {
            self.clock((byte >> (7 - place)) & 1 == 1);
        }
        self
    }

    /// The eight clocks of a byte, without the acknowledge clock.
    pub fn byte(&mut self, byte: u8) -> &mut Script {
        self.first_bits(byte, 8)
    }

    /// The ninth clock with the master's line as given.
    pub fn acknowledge_clock(&mut self, master_is_high: bool) -> &mut Script {
        self.clock(master_is_high)
    }

    /// A byte and its ninth clock, where the master releases the line.
    pub fn byte_and_acknowledge(&mut self, byte: u8) -> &mut Script {
        self.byte(byte).acknowledge_clock(true)
    }

    /// Several bytes, each with its ninth clock.
    pub fn bytes_and_acknowledges(&mut self, bytes: &[u8]) -> &mut Script {
        for byte in bytes {
            self.byte_and_acknowledge(*byte);
        }
        self
    }

    /// The nine clocks of a byte that the device sends. The master's low ninth
    /// bit continues the read.
    pub fn read_byte(&mut self, continues: bool) -> &mut Script {
        self.byte(0xFF).acknowledge_clock(!continues)
    }

    /// Several bytes read; only the last has a high ninth bit.
    pub fn read_bytes(&mut self, count: usize) -> &mut Script {
        for index in 0..count {
            self.read_byte(index + 1 < count);
        }
        self
    }

    // ----- beginnings of transfers, without the Stop -----

    /// Start, slave byte and both address bytes.
    pub fn begin_memory_write(&mut self, address: u16) -> &mut Script {
        self.start()
            .byte_and_acknowledge(SLAVE_MEMORY_WRITE)
            .byte_and_acknowledge((address >> 8) as u8)
            .byte_and_acknowledge((address & 0xFF) as u8)
    }

    /// Start and slave byte.
    pub fn begin_memory_read(&mut self) -> &mut Script {
        self.start().byte_and_acknowledge(SLAVE_MEMORY_READ)
    }

    /// Start, slave byte and address byte.
    pub fn begin_companion_write(&mut self, address: u8) -> &mut Script {
        self.start()
            .byte_and_acknowledge(SLAVE_COMPANION_WRITE)
            .byte_and_acknowledge(address)
    }

    /// Start and slave byte.
    pub fn begin_companion_read(&mut self) -> &mut Script {
        self.start().byte_and_acknowledge(SLAVE_COMPANION_READ)
    }

    // ----- whole transactions -----

    pub fn memory_write(&mut self, address: u16, data: &[u8]) -> &mut Script {
        self.begin_memory_write(address)
            .bytes_and_acknowledges(data)
            .stop()
    }

    pub fn memory_read_current(&mut self, count: usize) -> &mut Script {
        self.begin_memory_read().read_bytes(count).stop()
    }

    /// Sets the address, then a repeated Start and a read.
    pub fn memory_read(&mut self, address: u16, count: usize) -> &mut Script {
        self.begin_memory_write(address).memory_read_current(count)
    }

    pub fn companion_write(&mut self, address: u8, data: &[u8]) -> &mut Script {
        self.begin_companion_write(address)
            .bytes_and_acknowledges(data)
            .stop()
    }

    pub fn companion_read_current(&mut self, count: usize) -> &mut Script {
        self.begin_companion_read().read_bytes(count).stop()
    }

    /// Sets the address, then a repeated Start and a read.
    pub fn companion_read(&mut self, address: u8, count: usize) -> &mut Script {
        self.begin_companion_write(address)
            .companion_read_current(count)
    }

    // ----- things done with several transactions -----

    /// Sets W, starts the oscillator, writes 02h to 08h, and then writes 00h
    /// with W = 0, so that the core takes the calendar if it is a valid one.
    /// `control` is what 00h is given at the end (and before, with W = 1
    /// added); its W must be 0.
    pub fn load_calendar(&mut self, calendar: Calendar, control: u8) -> &mut Script {
        assert!(control & WRITE_CALENDAR == 0, "W has to fall");
        let mut data = vec![control | WRITE_CALENDAR, 0x00];
        data.extend(calendar.to_bytes());
        self.companion_write(0x00, &data)
            .companion_write(0x00, &[control])
    }

    /// Reads all fifteen registers, beginning with 01h, so that 00h comes last.
    pub fn read_all_registers(&mut self) -> &mut Script {
        self.companion_read(0x01, 15)
    }
}
