// SPDX-License-Identifier: Apache-2.0
//! The 16 registers 09h to 18h: bit places, what a write stores, what a read
//! sends, the counters and the lock of the serial number.

/// "16 special function registers".
pub const REGISTER_COUNT: usize = 16;

/// The registers 09h to 18h; the first is 09h.
pub type Registers = [u8; REGISTER_COUNT];

/// The four counter bytes 0Dh to 10h as they were when RC was set.
pub type Snapshot = [u8; 4];

/// "Addresses 09h to 18h correspond to special function registers."
pub const FIRST_ADDRESS: u8 = 0x09;
/// "Addresses 09h to 18h correspond to special function registers."
pub const LAST_ADDRESS: u8 = 0x18;

/// Register 09h, Watchdog Restart/Flags: WTR POR LB - WR3 WR2 WR1 WR0.
pub const FLAGS: u8 = 0x09;
/// Register 0Ah, Watchdog Control: WDE - - WDT4 WDT3 WDT2 WDT1 WDT0.
pub const WATCHDOG: u8 = 0x0A;
/// Register 0Bh, Companion Control: SNL - - WP1 WP0 VBC VTP1 VTP0 (003's map;
/// 001's differs in bits that drive nothing, READINGS 81).
pub const CONTROL: u8 = 0x0B;
/// Register 0Ch, Event Count Control: - - - - RC CC C2P C1P.
pub const COUNT_CONTROL: u8 = 0x0C;
/// Register 0Dh, Event Counter 1 LSB: the first of the four counter bytes.
pub const FIRST_COUNTER_BYTE: u8 = 0x0D;
/// Register 10h, Event Counter 2 MSB: the last of the four counter bytes.
pub const LAST_COUNTER_BYTE: u8 = 0x10;
/// Register 11h, the first byte of the serial number.
pub const FIRST_SERIAL_BYTE: u8 = 0x11;

/// WTR, POR and LB of 09h: "internally set, user can only clear this bit".
pub const ONLY_CLEARED: u8 = 0xE0;
/// POR of 09h.
pub const POWER_ON_RESET: u8 = 0x40;
/// LB of 09h.
pub const LOW_BATTERY: u8 = 0x20;
/// SNL of 0Bh: "the SNL bit cannot be cleared."
pub const SERIAL_LOCK: u8 = 0x80;
/// WP1 of 0Bh.
pub const PROTECT_HIGH: u8 = 0x10;
/// WP0 of 0Bh.
pub const PROTECT_LOW: u8 = 0x08;
/// RC of 0Ch.
pub const READ_COUNTERS: u8 = 0x08;
/// CC of 0Ch.
pub const CASCADE: u8 = 0x04;

/// The bits that each register can hold; those that the map shows as a dash are
/// fixed at 0.
pub const STORED_BITS: Registers = [
    0xEF, // 09h WTR POR LB - WR3 WR2 WR1 WR0
    0x9F, // 0Ah WDE - - WDT4 to WDT0
    0x9F, // 0Bh SNL - - WP1 WP0 VBC VTP1 VTP0
    0x0F, // 0Ch - - - - RC CC C2P C1P
    0xFF, 0xFF, 0xFF, 0xFF, // 0Dh to 10h counters
    0xFF, 0xFF, 0xFF, 0xFF, 0xFF, 0xFF, 0xFF, 0xFF, // 11h to 18h serial number
];

/// Where the byte of an address lies.
pub fn place(address: u8) -> usize {
    assert!(
        (FIRST_ADDRESS..=LAST_ADDRESS).contains(&address),
        "there are registers 09h to 18h only"
    );
    usize::from(address - FIRST_ADDRESS)
}

/// True when the bit of the register is 1.
pub fn is_set(registers: &Registers, address: u8, bit: u8) -> bool {
    registers[place(address)] & bit != 0
}

/// "leaves 09h with POR and LB alone"; "a fresh device has 0 elsewhere".
pub fn fresh_registers() -> Registers {
    let mut registers = [0; REGISTER_COUNT];
    registers[place(FLAGS)] = POWER_ON_RESET | LOW_BATTERY;
    registers
}

/// WP1 WP0 of 0Bh, 0 to 3.
pub fn protection(registers: &Registers) -> u8 {
    let high = is_set(registers, CONTROL, PROTECT_HIGH);
    let low = is_set(registers, CONTROL, PROTECT_LOW);
    2 * u8::from(high) + u8::from(low)
}

/// The four counter bytes, low byte first.
pub fn counter_bytes(registers: &Registers) -> Snapshot {
    let mut bytes = [0; 4];
    bytes.copy_from_slice(&registers[place(FIRST_COUNTER_BYTE)..=place(LAST_COUNTER_BYTE)]);
    bytes
}

// ----- writes -----

/// A data byte arrives for a register. None is refused.
pub fn write_register(registers: &mut Registers, snapshot: &mut Snapshot, address: u8, byte: u8) {
    let old = registers[place(address)];
    let locked = is_set(registers, CONTROL, SERIAL_LOCK);
    let new = match address {
        FLAGS => flags_after_write(old, byte),
        CONTROL => control_after_write(old, byte),
        FIRST_SERIAL_BYTE..=LAST_ADDRESS if locked => old,
        _ => byte & STORED_BITS[place(address)],
    };
    registers[place(address)] = new;
    // 003: "Setting this bit to 1 takes a snapshot of the four counter bytes"
    if address == COUNT_CONTROL && is_set(registers, COUNT_CONTROL, READ_COUNTERS) {
        *snapshot = counter_bytes(registers);
    }
}

/// "user can only clear this bit": WTR, POR and LB. WR3 to WR0 are stored
/// (READINGS 83).
fn flags_after_write(old: u8, byte: u8) -> u8 {
    let flags = old & byte & ONLY_CLEARED;
    let others = byte & STORED_BITS[place(FLAGS)] & !ONLY_CLEARED;
    flags | others
}

/// "Setting to a 1 makes registers 11h to 18h and SNL permanently read-only."
/// The other bits stay writable.
fn control_after_write(old: u8, byte: u8) -> u8 {
    let lock = (old | byte) & SERIAL_LOCK;
    let others = byte & STORED_BITS[place(CONTROL)] & !SERIAL_LOCK;
    lock | others
}

// ----- reads -----

/// The byte that a read sends: while RC is 1 the counter bytes are frozen.
pub fn register_to_send(registers: &Registers, snapshot: &Snapshot, address: u8) -> u8 {
    let frozen = is_set(registers, COUNT_CONTROL, READ_COUNTERS);
    match address {
        FIRST_COUNTER_BYTE..=LAST_COUNTER_BYTE if frozen => {
            snapshot[usize::from(address - FIRST_COUNTER_BYTE)]
        }
        _ => registers[place(address)],
    }
}

/// The eighth clock of a read. 003: "The RC bit will be automatically cleared":
/// when the last of the four bytes, 10h, was read (READINGS 82).
pub fn finish_reading(registers: &mut Registers, address: u8) {
    if address == LAST_COUNTER_BYTE {
        registers[place(COUNT_CONTROL)] &= !READ_COUNTERS;
    }
}

// ----- counters -----

/// An edge on CNT1 that counts: counter 1, or with CC set the pair.
pub fn count_on_cnt1(registers: &mut Registers) {
    let last = if is_set(registers, COUNT_CONTROL, CASCADE) {
        LAST_COUNTER_BYTE
    } else {
        FIRST_COUNTER_BYTE + 1
    };
    add_one(&mut registers[place(FIRST_COUNTER_BYTE)..=place(last)]);
}

/// An edge on CNT2 that counts: counter 2, but with CC set "CNT2 is not used in
/// this mode."
pub fn count_on_cnt2(registers: &mut Registers) {
    if !is_set(registers, COUNT_CONTROL, CASCADE) {
        let first = FIRST_COUNTER_BYTE + 2;
        add_one(&mut registers[place(first)..=place(LAST_COUNTER_BYTE)]);
    }
}

/// "low byte first": each byte "Increments on overflows" from the one before;
/// from the top the counter "rolls ... to 0000h" or to zero.
fn add_one(counter: &mut [u8]) {
    for byte in counter {
        *byte = byte.wrapping_add(1);
        let overflows = *byte == 0;
        if !overflows {
            return;
        }
    }
}

// ----- supplies -----

/// "That loss clears 0Ch to 10h and leaves 09h with POR and LB alone". 0Ah, 0Bh
/// and 11h to 18h are nonvolatile. The snapshot, a battery-backed copy of the
/// counters, is cleared with them (READINGS 90).
pub fn lose_last_supply(registers: &mut Registers, snapshot: &mut Snapshot) {
    registers[place(FLAGS)] = POWER_ON_RESET | LOW_BATTERY;
    registers[place(COUNT_CONTROL)..=place(LAST_COUNTER_BYTE)].fill(0);
    snapshot.fill(0);
}
