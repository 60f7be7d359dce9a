// SPDX-License-Identifier: Apache-2.0
//! The bus of every part: transfers, the two addresses, the memory and the
//! supplies, one event at a time. What a part has of its own, its size and its
//! registers, the bus asks of the [`Part`].

use crate::size::Size;

/// "0 Start".
pub const START: u8 = 0;
/// "1 Stop".
pub const STOP: u8 = 1;
/// "2 Clock with the master's data line low".
pub const CLOCK_LOW: u8 = 2;
/// "3 Clock with it high".
pub const CLOCK_HIGH: u8 = 3;
/// "4 one-second tick".
pub const TICK: u8 = 4;
/// "5 main power lost, backup present".
pub const POWER_LOST_WITH_BACKUP: u8 = 5;
/// "6 main power lost, no backup".
pub const POWER_LOST_WITHOUT_BACKUP: u8 = 6;
/// "7 main power returned".
pub const POWER_RETURNED: u8 = 7;

/// "Slave byte 1010 000x is memory ...; x = 1 reads."
pub const SLAVE_MEMORY_WRITE: u8 = 0xA0;
/// "Slave byte 1010 000x is memory ...; x = 1 reads."
pub const SLAVE_MEMORY_READ: u8 = 0xA1;
/// "... 1101 000x the companion; x = 1 reads."
pub const SLAVE_COMPANION_WRITE: u8 = 0xD0;
/// "... 1101 000x the companion; x = 1 reads."
pub const SLAVE_COMPANION_READ: u8 = 0xD1;

/// Which supplies are there.
#[derive(Clone, Copy, Debug, PartialEq, Eq)]
pub enum Power {
    /// Main power is there.
    On,
    /// Main power is lost, the backup is there.
    Backup,
    /// Both supplies are gone.
    Gone,
}

/// One of the two devices that share the bus.
#[derive(Clone, Copy, Debug, PartialEq, Eq)]
pub enum LogicalDevice {
    Memory,
    Companion,
}

/// What the byte now under way is.
#[derive(Clone, Copy, Debug, PartialEq, Eq)]
pub enum Phase {
    /// No transfer, or the transfer has ended.
    BetweenTransfers,
    SlaveByte,
    MemoryAddressHighByte,
    MemoryAddressLowByte,
    CompanionAddressByte,
    WriteData(LogicalDevice),
    ReadData(LogicalDevice),
}

/// Where the transfer stands.
#[derive(Clone, Copy, Debug, PartialEq, Eq)]
pub struct Transfer {
    pub phase: Phase,
    /// Clocks of the byte under way already seen, 0 to 8.
    pub clocks: u8,
    /// The bits of the byte under way already received, the first one first.
    pub received_bits: [bool; 8],
    /// The first of the two memory address bytes, once it is complete.
    pub memory_address_high_byte: u8,
    /// The byte that the device sends, from its first clock on.
    pub byte_sent: u8,
}

impl Transfer {
    /// A transfer that is at the beginning of a byte.
    fn at_beginning_of(phase: Phase) -> Transfer {
        Transfer {
            phase,
            clocks: 0,
            received_bits: [false; 8],
            memory_address_high_byte: 0,
            byte_sent: 0,
        }
    }

    /// "Between transfers nothing of an earlier transfer is kept but the two
    /// addresses."
    pub fn none() -> Transfer {
        Transfer::at_beginning_of(Phase::BetweenTransfers)
    }

    /// "Bits come high bit first".
    pub fn received_byte(&self) -> u8 {
        let mut byte = 0;
        for bit in self.received_bits {
            byte = byte * 2 + u8::from(bit);
        }
        byte
    }
}

/// What the bus asks of a part.
pub trait Part {
    /// The first address of the companion, where it starts and to which it
    /// rolls.
    const FIRST_COMPANION_ADDRESS: u8;
    /// The last address of the companion.
    const LAST_COMPANION_ADDRESS: u8;

    fn size(&self) -> Size;
    fn memory(&self) -> &[u8];
    fn memory_mut(&mut self) -> &mut [u8];
    /// What the part has on the bus.
    fn bus(&self) -> Bus;
    fn set_bus(&mut self, bus: Bus);

    /// WP1 WP0, 0 to 3.
    fn protection(&self) -> u8;
    /// The byte that a read of this register sends.
    fn register_to_send(&self, address: u8) -> u8;
    /// The eighth clock of a read of this register.
    fn finish_reading(&mut self, address: u8, byte_sent: u8);
    /// A data byte for this register is not acknowledged.
    fn refuses(&self, address: u8, byte: u8) -> bool;
    /// A data byte arrives for a register that does not refuse it.
    fn write_register(&mut self, address: u8, byte: u8);
    /// "At the moment both supplies are gone": what the registers become.
    fn registers_lose_last_supply(&mut self);
    /// "Event 7 ... after backup it sets POR."
    fn set_power_on_reset(&mut self);

    /// One of the events of the bus; returns whether the line is high.
    fn bus_event(&mut self, event: u8) -> bool
    where
        Self: Sized,
    {
        let mut bus = self.bus();
        let line_is_high = bus.event(self, event);
        self.set_bus(bus);
        line_is_high
    }
}

/// What a part has on the bus.
#[derive(Clone, Copy, Debug, PartialEq, Eq)]
pub struct Bus {
    /// Bits 2 and 1 of the slave bytes that name the part, 0 to 3.
    pub selects: u8,
    pub power: Power,
    /// "Each of the two devices has its own address."
    pub memory_address: u16,
    /// "Each of the two devices has its own address."
    pub companion_address: u8,
    pub transfer: Transfer,
}

impl Bus {
    /// "power on, no transfer, both addresses 0", or the companion's first.
    pub fn fresh<P: Part>() -> Bus {
        Bus {
            selects: 0,
            power: Power::On,
            memory_address: 0,
            companion_address: P::FIRST_COMPANION_ADDRESS,
            transfer: Transfer::none(),
        }
    }

    /// 01's limits, but for the registers: "memory address at most 8191,
    /// companion address at most 14, clocks within a byte 0 to 8", or what the
    /// part has for these addresses.
    pub fn is_within_limits<P: Part>(&self, size: Size) -> bool {
        let addresses = P::FIRST_COMPANION_ADDRESS..=P::LAST_COMPANION_ADDRESS;
        self.selects <= 3
            && self.memory_address <= size.last_address()
            && addresses.contains(&self.companion_address)
            && self.transfer.clocks <= 8
            && self.phase_holds_what_it_can()
    }

    /// "Limits on what else a phase holds ... shut out no state that events
    /// reach": a complete slave byte under way names a device, since "Any other
    /// ... is not acknowledged"; and "Between transfers nothing of an earlier
    /// transfer is kept but the two addresses."
    fn phase_holds_what_it_can(&self) -> bool {
        match self.transfer.phase {
            Phase::BetweenTransfers => self.transfer == Transfer::none(),
            Phase::SlaveByte if self.transfer.clocks == 8 => {
                self.named_by(self.transfer.received_byte()).is_some()
            }
            _ => true,
        }
    }

    /// One event; returns whether the line is high. "Bit 0 is the line: for a
    /// Clock, low if the master or the device pulls it low; for other events 1."
    fn event<P: Part>(&mut self, part: &mut P, event: u8) -> bool {
        match event {
            START => self.start(),
            STOP => self.stop(),
            CLOCK_LOW => return self.clock(part, false),
            CLOCK_HIGH => return self.clock(part, true),
            POWER_LOST_WITH_BACKUP => self.power_lost_with_backup::<P>(),
            POWER_LOST_WITHOUT_BACKUP => self.power_lost_without_backup(part),
            POWER_RETURNED => self.power_returned(part),
            _ => panic!("no event of the bus"),
        }
        true
    }

    // ----- Start, Stop, Clock -----

    /// "Start at any moment begins a slave byte". "Either drops a part byte."
    /// "While off, bus events do nothing".
    fn start(&mut self) {
        if self.power == Power::On {
            self.begin_byte(Phase::SlaveByte);
        }
    }

    /// "Stop at any moment ends the transfer. Either drops a part byte."
    /// "While off, bus events do nothing".
    fn stop(&mut self) {
        if self.power == Power::On {
            self.end_transfer();
        }
    }

    fn begin_byte(&mut self, phase: Phase) {
        self.transfer = Transfer::at_beginning_of(phase);
    }

    fn end_transfer(&mut self) {
        self.transfer = Transfer::none();
    }

    /// A Clock; returns whether the line is high.
    ///
    /// "A Clock outside a transfer, or after it has ended, changes nothing and
    /// its line is the master's." "While off, bus events do nothing and a
    /// Clock's line is the master's."
    fn clock<P: Part>(&mut self, part: &mut P, master_is_high: bool) -> bool {
        if self.power != Power::On {
            return master_is_high;
        }
        let device_pulls_low = match self.transfer.phase {
            Phase::BetweenTransfers => false,
            Phase::ReadData(source) => self.clock_of_byte_sent(part, source, master_is_high),
            _ => self.clock_of_byte_received(part, master_is_high),
        };
        // "low if the master or the device pulls it low"
        master_is_high && !device_pulls_low
    }

    // ----- bytes received -----

    /// A clock of a byte that the device receives; returns whether the device
    /// pulls the line low.
    fn clock_of_byte_received<P: Part>(&mut self, part: &mut P, master_is_high: bool) -> bool {
        if self.transfer.clocks < 8 {
            self.transfer.received_bits[usize::from(self.transfer.clocks)] = master_is_high;
            self.transfer.clocks += 1;
            if self.transfer.clocks == 8 {
                self.eighth_clock_of_byte_received(part);
            }
            return false;
        }
        // "the ninth clock is the acknowledge". "Acknowledged means that the
        // device itself pulls the ninth clock's line low, whatever the master
        // does there." A byte that is not acknowledged has ended the transfer
        // at its eighth clock and does not come here (READINGS 2).
        self.go_on_after_acknowledge();
        true
    }

    /// The eighth clock: the byte is complete and acts.
    fn eighth_clock_of_byte_received<P: Part>(&mut self, part: &mut P) {
        let byte = self.transfer.received_byte();
        match self.transfer.phase {
            Phase::SlaveByte => self.slave_byte_complete(byte),
            // "The address is taken at the eighth clock of the second byte; cut
            // earlier, the old one stands." So the first byte does nothing yet.
            Phase::MemoryAddressHighByte => {}
            Phase::MemoryAddressLowByte => self.memory_address_complete(part.size(), byte),
            Phase::CompanionAddressByte => self.companion_address_complete::<P>(byte),
            Phase::WriteData(LogicalDevice::Memory) => self.memory_data_complete(part, byte),
            Phase::WriteData(LogicalDevice::Companion) => {
                self.companion_data_complete(part, byte);
            }
            Phase::BetweenTransfers | Phase::ReadData(_) => {
                panic!("no byte is received in this phase")
            }
        }
    }

    /// "Any other (ruling) is not acknowledged, and the device waits for a
    /// Start."
    fn slave_byte_complete(&mut self, byte: u8) {
        if self.named_by(byte).is_none() {
            self.end_transfer();
        }
    }

    /// "Memory write: two address bytes, acknowledged, the upper three bits
    /// ignored (ruling)." 02, number 5: "address bits above it being ignored".
    fn memory_address_complete(&mut self, size: Size, low_byte: u8) {
        let high_byte = self.transfer.memory_address_high_byte;
        let both = u16::from(high_byte) * 256 + u16::from(low_byte);
        self.memory_address = both & size.last_address();
    }

    /// "Companion write: one address byte, taken at its eighth clock. Above
    /// 0Eh: not acknowledged, transfer ended, old address stands." 02, number 5:
    /// "an address byte outside them is not acknowledged".
    fn companion_address_complete<P: Part>(&mut self, byte: u8) {
        if (P::FIRST_COMPANION_ADDRESS..=P::LAST_COMPANION_ADDRESS).contains(&byte) {
            self.companion_address = byte;
        } else {
            self.end_transfer();
        }
    }

    /// "A data byte is stored at its eighth clock, and then the address steps
    /// on." "A data byte to a protected address is not acknowledged, ... and the
    /// transfer ends (ruling)." 02, number 3: "a refused data byte steps the
    /// address too, from 1FFFh to 0000h, and still changes no memory."
    fn memory_data_complete<P: Part>(&mut self, part: &mut P, byte: u8) {
        let size = part.size();
        let refused = size.is_protected(part.protection(), self.memory_address);
        if !refused {
            part.memory_mut()[usize::from(self.memory_address)] = byte;
        }
        self.step_memory_address(size);
        if refused {
            self.end_transfer();
        }
    }

    /// "A data byte is stored at its eighth clock, and then the address steps
    /// on." It steps on also where the register keeps its bits (READINGS 4).
    /// 02, number 6: of a refused byte of 00h "leave 00h and the core alone, and
    /// end the transfer"; "The address steps on as in 3)."
    fn companion_data_complete<P: Part>(&mut self, part: &mut P, byte: u8) {
        let refused = part.refuses(self.companion_address, byte);
        if !refused {
            part.write_register(self.companion_address, byte);
        }
        self.step_companion_address::<P>();
        if refused {
            self.end_transfer();
        }
    }

    /// "Memory goes from 1FFFh to 0000h".
    fn step_memory_address(&mut self, size: Size) {
        self.memory_address = if self.memory_address == size.last_address() {
            0
        } else {
            self.memory_address + 1
        };
    }

    /// "the companion from 0Eh to 00h (ruling)." 02, number 5: "rolls from 18h
    /// to 09h (our ruling)".
    fn step_companion_address<P: Part>(&mut self) {
        self.companion_address = if self.companion_address == P::LAST_COMPANION_ADDRESS {
            P::FIRST_COMPANION_ADDRESS
        } else {
            self.companion_address + 1
        };
    }

    /// The ninth clock of an acknowledged byte: what byte comes next.
    fn go_on_after_acknowledge(&mut self) {
        let byte = self.transfer.received_byte();
        let next_phase = match self.transfer.phase {
            Phase::SlaveByte => self
                .named_by(byte)
                .expect("an unknown slave byte is not acknowledged"),
            Phase::MemoryAddressHighByte => Phase::MemoryAddressLowByte,
            Phase::MemoryAddressLowByte => Phase::WriteData(LogicalDevice::Memory),
            Phase::CompanionAddressByte => Phase::WriteData(LogicalDevice::Companion),
            Phase::WriteData(device) => Phase::WriteData(device),
            Phase::BetweenTransfers | Phase::ReadData(_) => {
                panic!("nothing is acknowledged in this phase")
            }
        };
        self.begin_byte(next_phase);
        if next_phase == Phase::MemoryAddressLowByte {
            self.transfer.memory_address_high_byte = byte;
        }
    }

    /// What follows a slave byte that names the part: "Slave byte 1010 000x is
    /// memory, 1101 000x the companion; x = 1 reads." 02, number 12: "its two
    /// select bits (slave byte bits 2 and 1)".
    fn named_by(&self, slave_byte: u8) -> Option<Phase> {
        match slave_byte ^ (self.selects << 1) {
            SLAVE_MEMORY_WRITE => Some(Phase::MemoryAddressHighByte),
            SLAVE_MEMORY_READ => Some(Phase::ReadData(LogicalDevice::Memory)),
            SLAVE_COMPANION_WRITE => Some(Phase::CompanionAddressByte),
            SLAVE_COMPANION_READ => Some(Phase::ReadData(LogicalDevice::Companion)),
            _ => None,
        }
    }

    // ----- bytes sent -----

    /// A clock of a byte that the device sends; returns whether the device
    /// pulls the line low.
    fn clock_of_byte_sent<P: Part>(
        &mut self,
        part: &mut P,
        source: LogicalDevice,
        master_is_high: bool,
    ) -> bool {
        if self.transfer.clocks == 8 {
            self.ninth_clock_of_byte_sent(source, master_is_high);
            return false;
        }
        // "The byte is fixed at its first clock"
        if self.transfer.clocks == 0 {
            self.transfer.byte_sent = self.byte_at_current_address(part, source);
        }
        // "Bits come high bit first"
        let bit_is_high = (self.transfer.byte_sent >> (7 - self.transfer.clocks)) & 1 == 1;
        self.transfer.clocks += 1;
        if self.transfer.clocks == 8 {
            self.eighth_clock_of_byte_sent(part, source);
        }
        !bit_is_high
    }

    /// "A read uses the current address."
    fn byte_at_current_address<P: Part>(&self, part: &P, source: LogicalDevice) -> u8 {
        match source {
            LogicalDevice::Memory => part.memory()[usize::from(self.memory_address)],
            LogicalDevice::Companion => part.register_to_send(self.companion_address),
        }
    }

    /// "the address steps on at the eighth"; what else a read of a register
    /// does, it does there.
    fn eighth_clock_of_byte_sent<P: Part>(&mut self, part: &mut P, source: LogicalDevice) {
        match source {
            LogicalDevice::Memory => self.step_memory_address(part.size()),
            LogicalDevice::Companion => {
                part.finish_reading(self.companion_address, self.transfer.byte_sent);
                self.step_companion_address::<P>();
            }
        }
    }

    /// "The master's low ninth bit continues, high ends."
    fn ninth_clock_of_byte_sent(&mut self, source: LogicalDevice, master_is_high: bool) {
        if master_is_high {
            self.end_transfer();
        } else {
            self.begin_byte(Phase::ReadData(source));
        }
    }

    // ----- power -----

    /// "event 5 while off ... changes nothing"
    fn power_lost_with_backup<P: Part>(&mut self) {
        if self.power == Power::On {
            self.lose_power::<P>();
            self.power = Power::Backup;
        }
    }

    /// "Event 6 while off with backup takes the backup away", and is a loss of
    /// power like any other (READINGS 13); "6 when both supplies are already
    /// gone, changes nothing"
    fn power_lost_without_backup<P: Part>(&mut self, part: &mut P) {
        if self.power != Power::Gone {
            self.lose_power::<P>();
            self.lose_last_supply(part);
        }
    }

    /// "Power lost: the transfer ends, both addresses become 0." 02, number 5:
    /// "the companion address starts at 09h, also after power loss".
    fn lose_power<P: Part>(&mut self) {
        self.end_transfer();
        self.memory_address = 0;
        self.companion_address = P::FIRST_COMPANION_ADDRESS;
    }

    /// "At the moment both supplies are gone". "FRAM is always kept."
    fn lose_last_supply<P: Part>(&mut self, part: &mut P) {
        self.power = Power::Gone;
        part.registers_lose_last_supply();
    }

    /// "Event 7 while on changes nothing; after backup it sets POR." After both
    /// supplies were gone "event 7 then changes only the power".
    fn power_returned<P: Part>(&mut self, part: &mut P) {
        if self.power == Power::Backup {
            part.set_power_on_reset();
        }
        self.power = Power::On;
    }
}
