// SPDX-License-Identifier: Apache-2.0
/**
 * A device in words, as the command prints it: registers, calendar and pin or counters and serial number, addresses,
 * power, bus, memory.
 */
import { countsWords } from './meaning.mjs';
import { squareWaveFrequency, CALIBRATION, OSCEN, SETUP } from './registers.mjs';
import {
  busWords, calendarWords, countersOf, countsOf, isFrozen, isJoined, isLocked, isValidCalendar, pinFunction, pinOf,
  pinWords, power, powerWords, serialOf,
} from './state.mjs';
import { addressWords, byteWords, longWords } from './text.mjs';

/** Memory bytes on a line. */
export const BYTES_OF_A_LINE = 16;

/** All that a reader may want to know of a state, a line each. */
export function wordsOfState(state) {
  return [
    'Registers',
    ...wordsOfRegisters(state.part, state.part.firstRegister, state.registers),
    ...factsOf(state).map(([name, words]) => `${name.padEnd(11)}${words}`),
  ];
}

/** What is known of a state beside its registers: names and words. */
export function factsOf(state) {
  return [
    ...(state.part.hasCounters ? countersFacts(state) : clockFacts(state)),
    ['Addresses', addressesWords(state)],
    ['Power', powerWords(state)],
    ['Bus', busWords(state)],
  ];
}

function clockFacts(state) {
  return [['Calendar', coreWords(state)], ['ACS pin', wholePinWords(state)]];
}

/** The counters, their snapshot while reads are frozen, and the serial number. */
function countersFacts(state) {
  const wordsOf = (bytes) => {
    const { pair } = countsOf(bytes);
    return isJoined(state) ? `both as one: ${pair} (${longWords(pair)}h)` : countsWords(bytes);
  };
  const serial = [...serialOf(state)].map(byteWords).join(' ');
  return [
    ['Counters', wordsOf(countersOf(state))],
    ...(isFrozen(state) ? [['Reads give', `${wordsOf(state.snapshot)}, frozen`]] : []),
    ['Serial', `${serial}, ${isLocked(state) ? 'locked' : 'open'}`],
  ];
}

/** Some registers of a part, the first of which has an address. */
export function wordsOfRegisters(part, first, bytes) {
  return [...bytes].map((byte, index) => {
    const address = first + index;
    const name = part.registerName(address).padEnd(part.longestName);
    return `  ${byteWords(address)}h  ${name}  ${byteWords(byte)}h  ${part.registerWords(address, byte)}`;
  });
}

/** The core, and why it does not run if it does not. */
export function coreWords(state) {
  return calendarWords(state.core) + standstill(state);
}

function standstill(state) {
  if (state.power === power.NONE) {
    return ' (stands still: no supply)';
  }
  if (state.registers[CALIBRATION] & OSCEN) {
    return ' (stands still: the oscillator is halted)';
  }
  return isValidCalendar(state.core) ? '' : ' (stands still: not valid)';
}

/** The pin, and the frequency of its square wave. */
export function wholePinWords(state) {
  const pin = pinOf(state);
  const isWave = pin.function === pinFunction.SQUARE_WAVE;
  return isWave ? `${pinWords(pin)}, ${squareWaveFrequency(state.registers[SETUP])}` : pinWords(pin);
}

/** The two addresses. */
export function addressesWords(state) {
  return `memory ${addressWords(state.memoryAddress)}h, companion ${byteWords(state.companionAddress)}h`;
}

/**
 * The lines of some memory bytes that are shown: [{ address, bytes }], null for lines like the one before, which are
 * left out but for the last. `mustShow` may ask for a line all the same.
 */
export function memoryRows(start, part, mustShow = () => false) {
  const rows = [];
  let before = null;
  for (let at = 0; at < part.length; at += BYTES_OF_A_LINE) {
    const bytes = part.subarray(at, at + BYTES_OF_A_LINE);
    const isLast = at + BYTES_OF_A_LINE >= part.length;
    const isLikeBefore = before !== null && bytes.every((byte, index) => byte === before[index]);
    if (isLikeBefore && !isLast && !mustShow(start + at)) {
      if (rows.at(-1) !== null) {
        rows.push(null);
      }
    } else {
      rows.push({ address: start + at, bytes });
    }
    before = bytes;
  }
  return rows;
}

/** A byte as a sign, or a dot. */
export function signOf(byte) {
  return byte >= 0x20 && byte <= 0x7E ? String.fromCharCode(byte) : '.';
}

/** Some memory bytes as lines of text. */
export function memoryLines(start, part) {
  return memoryRows(start, part).map((row) => (row === null ? '*' : memoryLine(row)));
}

function memoryLine({ address, bytes }) {
  const digits = [...bytes].map(byteWords).join(' ').padEnd(BYTES_OF_A_LINE * 3 - 1);
  return `${addressWords(address)}h  ${digits}  |${[...bytes].map(signOf).join('')}|`;
}
