// SPDX-License-Identifier: Apache-2.0
/** Names of the family's registers and bits in the data sheet's spelling, and what a register holds in words. */

/** The first register's address, and the last one's. */
export const FIRST = 0x09;
export const LAST = 0x18;

const FLAGS = 0x09;
const WATCHDOG = 0x0A;
/** 0Bh, Companion Control. */
export const COMPANION_CONTROL = 0x0B;
/** 0Ch, Event Count Control. */
export const COUNTING = 0x0C;
/** 0Dh, Event Counter 1 LSB: the first of the four counter bytes, and the last of them. */
export const COUNTER_FIRST = 0x0D;
export const COUNTER_LAST = 0x10;
/** 11h, Serial Number 0: the first of its eight bytes. */
export const SERIAL = 0x11;

/** 0Bh: Serial Number Lock. */
export const SNL = 0x80;
const WP = 0x18;
const VBC = 0x04;
const VTP = 0x03;

/** 0Ch: Read Counter; reads show the snapshot that it took. */
export const RC = 0x08;
/** 0Ch: Counter Cascade; both are one counter of 32 bits. */
export const CC = 0x04;

const NAMES = [
  'Watchdog Restart/Flags',
  'Watchdog Control',
  'Companion Control',
  'Event Count Control',
  'Event Counter 1 LSB',
  'Event Counter 1 MSB',
  'Event Counter 2 LSB',
  'Event Counter 2 MSB',
  ...Array.from({ length: 8 }, (_, byte) => `Serial Number ${byte}`),
];

const COUNTER_BYTES = ['counter 1, low byte', 'counter 1, high byte', 'counter 2, low byte', 'counter 2, high byte'];
const TRIPS = ['2.6', '2.9', '3.9', '4.4'];

const bits = (byte, width) => byte.toString(2).padStart(width, '0');

/** The name of the register at an address; undefined where there is none. */
export function familyRegisterName(address) {
  return NAMES[address - FIRST];
}

/** What a byte means in the register at an address, in a part with so many memory bytes. */
export function familyRegisterWords(memoryBytes, address, byte) {
  if (address === FLAGS) {
    return `WTR=${byte >> 7} POR=${(byte >> 6) & 1} LB=${(byte >> 5) & 1} WR=${bits(byte & 0x0F, 4)}`;
  }
  if (address === WATCHDOG) {
    return `WDE=${byte >> 7} WDT=${bits(byte & 0x1F, 5)}, drives nothing`;
  }
  if (address === COMPANION_CONTROL) {
    return controlWords(memoryBytes, byte);
  }
  if (address === COUNTING) {
    return countingWords(byte);
  }
  if (address < SERIAL) {
    return COUNTER_BYTES[address - COUNTER_FIRST] ?? '';
  }
  return address <= LAST ? `serial number, byte ${address - SERIAL}` : '';
}

/** The lock, the protection and the rest of 0Bh. */
function controlWords(memoryBytes, byte) {
  const lock = byte & SNL ? 'locked' : 'open';
  const charger = byte & VBC ? ', VBC' : '';
  return `serial number ${lock}, ${protection(memoryBytes, byte)}, VTP ${TRIPS[byte & VTP]} V${charger}`;
}

/** What WP1 and WP0 of 0Bh protect. */
function protection(memoryBytes, byte) {
  const code = (byte & WP) >> 3;
  if (code === 0 || code === 3) {
    return code === 0 ? 'writes allowed everywhere' : 'writes refused everywhere';
  }
  const last = memoryBytes / (code === 1 ? 4 : 2) - 1;
  return `writes refused at 0000h to ${last.toString(16).toUpperCase().padStart(4, '0')}h`;
}

/** How the counters count and are read, by 0Ch. */
function countingWords(byte) {
  const counters = byte & CC ? 'one counter of 32 bits' : 'two counters of 16 bits';
  return `${counters}, reads ${byte & RC ? 'frozen' : 'live'}, C2P=${(byte >> 1) & 1} C1P=${byte & 1}`;
}
