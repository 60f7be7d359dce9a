// SPDX-License-Identifier: Apache-2.0
/**
 * What a byte on the bus means to the device that hears it, in words and in a few letters for a drawing. What came
 * of it is asked of the device's states, so nothing of the device's rules is repeated here.
 */
import { COUNTER_FIRST, COUNTER_LAST, COUNTING, SERIAL } from './family-registers.mjs';
import {
  calendarRegisters, calendarWords, countsOf, isFrozen, isLocked, phase, phaseWords, power, registerOf,
} from './state.mjs';
import { addressWords, byteWords, plural } from './text.mjs';

const NAMED = new Map([
  [0xA0, 'memory, write'],
  [0xA1, 'memory, read'],
  [0xD0, 'companion, write'],
  [0xD1, 'companion, read'],
]);

/** What a slave byte names. */
export function namedBy(slaveByte) {
  return NAMED.get(slaveByte) ?? 'another part';
}

/** The meaning of clocks that follow no Start. */
export function ofStrayClocks() {
  return { words: 'outside a transfer', label: 'outside' };
}

/** The meaning of a byte that ended before its eighth clock. */
export function ofPartByte(first, clocks) {
  if (first.phase === phase.IDLE) {
    return unheard(first);
  }
  return { words: `${phaseWords(first)}, cut after ${clocks} clock${plural(clocks)}: dropped`, label: 'cut' };
}

/**
 * The meaning of a byte whose eight bits are through: the state before its first clock says what it is, the state
 * after its eighth what came of it.
 */
export function ofWholeByte(first, eighth, byte) {
  switch (first.phase) {
    case phase.IDLE: return unheard(first);
    case phase.SLAVE_BYTE: return first.select === null ? slaveByte(byte) : slaveByteOfSet(eighth, byte);
    case phase.FIRST_ADDRESS_BYTE: return { words: 'memory address, first byte', label: 'address' };
    case phase.SECOND_ADDRESS_BYTE: return secondAddress(eighth);
    case phase.COMPANION_ADDRESS_BYTE: return companionAddress(first.part, byte);
    case phase.WRITE_MEMORY: return memoryWrite(first, eighth);
    case phase.WRITE_COMPANION: return companionWrite(first, eighth, byte);
    case phase.READ_MEMORY: return memoryRead(first);
    default: return companionRead(first, eighth, byte);
  }
}

function slaveByte(byte) {
  return { words: `slave byte: ${namedBy(byte)}`, label: namedBy(byte) };
}

/** The select bits of a slave byte. */
const SELECT_BITS = 0x06;

/**
 * What a slave byte names on the line of a set. Select bits that no device has have ended the transfer by the eighth
 * clock.
 */
function slaveByteOfSet(eighth, byte) {
  const named = slaveByte(byte & ~SELECT_BITS);
  if (!NAMED.has(byte & ~SELECT_BITS) || eighth.phase !== phase.IDLE) {
    return named;
  }
  return { ...named, words: `${named.words}, select bits ${(byte & SELECT_BITS) >> 1}: nobody has them` };
}

/**
 * The select bits of the device of a set that hears a byte; null where none does, or where there is no set. All hear a
 * slave byte; it is for the one that stays in the transfer.
 */
export function hearerOf(first, eighth) {
  const hearing = first.phase === phase.SLAVE_BYTE ? eighth : first;
  return hearing === null || hearing.phase === phase.IDLE ? null : hearing.select;
}

/** Both counters by themselves, in decimal and hexadecimal. */
export function countsWords(bytes) {
  const { one, two } = countsOf(bytes);
  return `1: ${one} (${addressWords(one)}h), 2: ${two} (${addressWords(two)}h)`;
}

function unheard(first) {
  if (first.power === power.ON) {
    return { words: 'nobody listens', label: 'nobody listens' };
  }
  return { words: 'the power is off', label: 'power off' };
}

function secondAddress(eighth) {
  const address = addressWords(eighth.memoryAddress);
  return { words: `memory address ${address}h`, label: `address ${address}h` };
}

function companionAddress(part, byte) {
  const name = part.registerName(byte);
  const words = `register address ${byteWords(byte)}h`;
  return name === undefined
    ? { words: `${words}: there is none`, label: 'no register' }
    : { words: `${words}, ${name}`, label: name };
}

/** A refused byte has ended the transfer by its eighth clock; the address steps on all the same. */
function memoryWrite(first, eighth) {
  const address = `${addressWords(first.memoryAddress)}h`;
  if (eighth.phase !== phase.IDLE) {
    return { words: `memory ${address}: stored`, label: `to ${address}` };
  }
  const next = `${addressWords(eighth.memoryAddress)}h`;
  return {
    words: `memory ${address}: protected, not stored; the address goes on to ${next}`,
    label: `${address} protected`,
  };
}

function memoryRead(first) {
  const address = addressWords(first.memoryAddress);
  return { words: `memory ${address}h`, label: `from ${address}h` };
}

function companionWrite(first, eighth, byte) {
  if (first.part.hasCounters) {
    return countersWrite(first, eighth, byte);
  }
  return eighth.phase === phase.IDLE ? noDate(first) : registerWrite(first, eighth, byte);
}

/** A refused byte has ended the transfer by its eighth clock: it would have loaded a date that does not exist. */
function noDate(first) {
  const written = calendarWords(calendarRegisters(first));
  return {
    words: `${byteWords(first.companionAddress)}h refused: ${written} is no date, not loaded; the clock keeps its own`,
    label: 'no date: refused',
  };
}

/** A byte that a register takes; what it does not take of it is said. */
function registerWrite(first, eighth, byte) {
  const address = first.companionAddress;
  const held = registerOf(eighth, address);
  const kept = held === byte ? '' : `; the register holds ${byteWords(held)}h`;
  return namedRegister(first, byte, kept);
}

/**
 * A byte for a locked serial number is acknowledged and not stored; a byte that freezes the counters takes their
 * snapshot.
 */
function countersWrite(first, eighth, byte) {
  const address = first.companionAddress;
  if (isLocked(first) && address >= SERIAL) {
    return namedRegister(first, byte, '; locked, not stored');
  }
  const { words, label } = registerWrite(first, eighth, byte);
  const isTaken = address === COUNTING && isFrozen(eighth);
  return { words: isTaken ? `${words}; snapshot taken, ${countsWords(eighth.snapshot)}` : words, label };
}

/** A byte that a register gives; a counter's may be that of the snapshot, and the last of these ends the freezing. */
function companionRead(first, eighth, byte) {
  const address = first.companionAddress;
  const isCounter = address >= COUNTER_FIRST && address <= COUNTER_LAST;
  if (!isCounter || !isFrozen(first)) {
    return namedRegister(first, byte, '');
  }
  return namedRegister(first, byte, isFrozen(eighth) ? ', frozen' : ', frozen; RC is 0 again');
}

/** The register at a state's address by its name, what a byte means in it, and what else is to be said. */
function namedRegister({ part, companionAddress: address }, byte, more) {
  const name = part.registerName(address);
  return { words: `${byteWords(address)}h ${name}: ${part.registerWords(address, byte)}${more}`, label: name };
}
