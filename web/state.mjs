// SPDX-License-Identifier: Apache-2.0
/**
 * What an image holds, taken apart (docs/IMAGE.md, docs/FAMILY.md): calendar and pin, or counters; power, and where the
 * bus stands. It is a copy to look at; the image stays the truth.
 */
import { COMPANION_CONTROL, COUNTER_FIRST, COUNTING, CC, RC, SERIAL, SNL } from './family-registers.mjs';
import { FM3130 } from './parts.mjs';
import { byteWords } from './text.mjs';
import { AEN, AF, AL_SW, CAL, CONTROL, SETUP } from './registers.mjs';

// The places in the image after the registers: the core of a clock, or the snapshot of counters; then the bus.
const CORE = 15;
const SNAPSHOT = 16;
const COUNTER_BYTES = 4;
const COMPANION_ADDRESS = 22;
const MEMORY_ADDRESS = 23;
const POWER = 25;
const PHASE = 26;
const CLOCKS = 27;
const BYTE = 28;

/** The supplies, as byte 25 of the image has them. */
export const power = Object.freeze({ ON: 0, BACKUP: 1, NONE: 2 });

/** The bytes that can be under way, as byte 26 of the image has them. */
export const phase = Object.freeze({
  IDLE: 0,
  SLAVE_BYTE: 1,
  FIRST_ADDRESS_BYTE: 2,
  SECOND_ADDRESS_BYTE: 3,
  COMPANION_ADDRESS_BYTE: 4,
  WRITE_MEMORY: 5,
  WRITE_COMPANION: 6,
  READ_MEMORY: 7,
  READ_COMPANION: 8,
});

/** The ACS pin's functions, as answer bytes have them. */
export const pinFunction = Object.freeze({ RELEASED: 0, ALARM: 1, SQUARE_WAVE: 2, CALIBRATION: 3 });

const POWER_WORDS = ['on', 'lost, on backup', 'lost, no backup'];

const PHASE_WORDS = [
  'between transfers',
  'slave byte',
  'first memory address byte',
  'second memory address byte',
  'companion address byte',
  'data byte to the memory',
  'data byte to the companion',
  'data byte from the memory',
  'data byte from the companion',
];

/** The state that a well-formed image of a part holds; `select` is the device's select bits, if it is one of a set. */
export function stateOf(image, part = FM3130, select = null) {
  return {
    part,
    select,
    registers: image.slice(0, part.registerCount),
    core: part.hasCounters ? null : image.slice(CORE, COMPANION_ADDRESS),
    snapshot: part.hasCounters ? image.slice(SNAPSHOT, SNAPSHOT + COUNTER_BYTES) : null,
    companionAddress: image[COMPANION_ADDRESS],
    memoryAddress: image[MEMORY_ADDRESS] * 256 + image[MEMORY_ADDRESS + 1],
    power: image[POWER],
    phase: image[PHASE],
    clocks: image[CLOCKS],
    byte: image[BYTE],
  };
}

/** The byte of the register at an address; 0 where there is none. */
export function registerOf(state, address) {
  return state.registers[address - state.part.firstRegister] ?? 0;
}

/** The four counter bytes as they run, whether or not reads are frozen. */
export function countersOf(state) {
  const first = COUNTER_FIRST - state.part.firstRegister;
  return state.registers.subarray(first, first + COUNTER_BYTES);
}

/** The serial number, 11h first. */
export function serialOf(state) {
  return state.registers.subarray(SERIAL - state.part.firstRegister);
}

const has = (state, address, bit) => state.part.hasCounters && (registerOf(state, address) & bit) !== 0;

/** Whether SNL is 1: nothing changes the serial number any more. */
export const isLocked = (state) => has(state, COMPANION_CONTROL, SNL);
/** Whether RC is 1: reads of the counters show the snapshot. */
export const isFrozen = (state) => has(state, COUNTING, RC);
/** Whether CC is 1: the two counters are one of 32 bits on CNT1. */
export const isJoined = (state) => has(state, COUNTING, CC);

/** Both counters of four bytes, the low byte of each first, and the two as one. */
export function countsOf([low1, high1, low2, high2]) {
  const [one, two] = [high1 * 256 + low1, high2 * 256 + low2];
  return { one, two, pair: two * 65536 + one };
}

/** Registers 02h to 08h: what a host reads and writes. The core counts behind them. */
export function calendarRegisters(state) {
  return state.registers.slice(2, 9);
}

/** Seven calendar bytes in 01's notation; digits that are not decimal show as A to F. */
export function calendarWords(bytes) {
  const [seconds, minutes, hours, day, date, month, year] = [...bytes].map(byteWords);
  return `${hours}:${minutes}:${seconds}, ${date}/${month}/${year}, day ${Number.parseInt(day, 16)}`;
}

/** True for seven bytes that a tick moves on. */
export function isValidCalendar([seconds, minutes, hours, day, date, month, year]) {
  const isBetween = (byte, least, greatest) => {
    const number = numberOfBcd(byte);
    return number !== null && number >= least && number <= greatest;
  };
  return isBetween(seconds, 0, 59) && isBetween(minutes, 0, 59) && isBetween(hours, 0, 23)
    && day >= 1 && day <= 7 && isBetween(month, 1, 12) && isBetween(year, 0, 99)
    && isBetween(date, 1, lengthOfMonth(numberOfBcd(month), numberOfBcd(year)));
}

/** The number that a byte of two decimal digits stands for; null for another byte. */
function numberOfBcd(byte) {
  const [tens, units] = [byte >> 4, byte & 0x0F];
  return tens <= 9 && units <= 9 ? tens * 10 + units : null;
}

function lengthOfMonth(month, year) {
  if (month === 2) {
    return year % 4 === 0 ? 29 : 28;
  }
  return [4, 6, 9, 11].includes(month) ? 30 : 31;
}

/** The ACS pin of a state: released when both supplies are gone, and left alone by a part that has none. */
export function pinOf(state) {
  if (state.power === power.NONE || state.part.hasCounters) {
    return { function: pinFunction.RELEASED, alarm: false };
  }
  const control = state.registers[CONTROL];
  const chosen = functionByRegisters(control, state.registers[SETUP]);
  return { function: chosen, alarm: chosen === pinFunction.ALARM && (control & AF) !== 0 };
}

function functionByRegisters(control, setup) {
  if (control & CAL) {
    return pinFunction.CALIBRATION;
  }
  if (!(setup & AL_SW)) {
    return pinFunction.SQUARE_WAVE;
  }
  return control & AEN ? pinFunction.ALARM : pinFunction.RELEASED;
}

/** The ACS pin that an answer byte tells of. */
export function pinOfAnswer(answer) {
  return { function: (answer >> 1) & 3, alarm: (answer & 8) !== 0 };
}

/** True for two pins that do the same. */
export function isSamePin(one, other) {
  return one.function === other.function && one.alarm === other.alarm;
}

/** The pin in words. */
export function pinWords(pin) {
  const alarm = pin.alarm ? 'alarm, pulled low' : 'alarm, not raised';
  return ['released', alarm, 'square wave', 'calibration, 512 Hz'][pin.function];
}

/** The supplies in words. */
export function powerWords(state) {
  return POWER_WORDS[state.power];
}

/** What byte is under way, in words. */
export function phaseWords(state) {
  return PHASE_WORDS[state.phase];
}

/** True for a byte that the device sends. */
export function isRead(state) {
  return state.phase === phase.READ_MEMORY || state.phase === phase.READ_COMPANION;
}

/** Where the transfer stands, in words. */
export function busWords(state) {
  if (state.phase === phase.IDLE) {
    return phaseWords(state);
  }
  return `${phaseWords(state)}, ${state.clocks} ${state.clocks === 1 ? 'clock' : 'clocks'} done`;
}
