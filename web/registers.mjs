// SPDX-License-Identifier: Apache-2.0
/** Names of registers and bits in the data sheet's spelling, and what a register holds in words. */
import { byteWords } from './text.mjs';

/** 00h, RTC/Alarm Control. */
export const CONTROL = 0x00;
/** 01h, CAL/Control. */
export const CALIBRATION = 0x01;
/** 0Eh, Alarm & WP Control. */
export const SETUP = 0x0E;

// Bits of 00h.
export const AF = 0x40;
export const CF = 0x20;
export const AEN = 0x08;
export const CAL = 0x04;

/** 01h: Oscillator Enable, active low: 1 halts the oscillator. */
export const OSCEN = 0x80;
const CALS = 0x20;
const CALIBRATION_CODE = 0x1F;

/** 09h to 0Dh: Match, active low: 1 leaves the field out of the comparison. */
const MATCH = 0x80;

// Bits of 0Eh.
export const AL_SW = 0x80;
const F = 0x60;
const WP = 0x18;
const OTHER_BITS = [[0x04, 'VBC'], [0x02, 'FC'], [0x01, 'TST']];

const NAMES = [
  'RTC/Alarm Control',
  'CAL/Control',
  'RTC Seconds',
  'RTC Minutes',
  'RTC Hours',
  'RTC Day',
  'RTC Date',
  'RTC Month',
  'RTC Years',
  'Alarm Seconds',
  'Alarm Minutes',
  'Alarm Hours',
  'Alarm Date',
  'Alarm Month',
  'Alarm & WP Control',
];

/** The bits of 00h, high bit first. */
const CONTROL_BITS = ['LB', 'AF', 'CF', 'POR', 'AEN', 'CAL', 'W', 'R'];
const CALENDAR_FIELDS = ['seconds', 'minutes', 'hours', 'day', 'date', 'month', 'year'];
const ALARM_FIELDS = ['seconds', 'minutes', 'hours', 'date', 'month'];
const FREQUENCIES = ['1 Hz', '512 Hz', '4096 Hz', '32768 Hz'];
const PROTECTIONS = [
  'writes allowed everywhere',
  'writes refused at 0000h to 07FFh',
  'writes refused at 0000h to 0FFFh',
  'writes refused everywhere',
];

/** The name of the register at an address; undefined where there is none. */
export function registerName(address) {
  return NAMES[address];
}

/** What a byte means in the register at an address; empty if there is no such register. */
export function registerWords(address, byte) {
  if (address === CONTROL) {
    return CONTROL_BITS.map((name, place) => `${name}=${(byte >> (7 - place)) & 1}`).join(' ');
  }
  if (address === CALIBRATION) {
    return calibrationWords(byte);
  }
  if (address <= 0x08) {
    return `${CALENDAR_FIELDS[address - 0x02]} ${byteWords(byte)}`;
  }
  if (address <= 0x0D) {
    return alarmWords(ALARM_FIELDS[address - 0x09], byte);
  }
  return address === SETUP ? setupWords(byte) : '';
}

function calibrationWords(byte) {
  const oscillator = byte & OSCEN ? 'halted' : 'runs';
  const code = byte & CALIBRATION_CODE;
  const calibration = code === 0 ? 'no calibration' : `calibration ${byte & CALS ? '+' : '-'}${code}`;
  return `oscillator ${oscillator}, ${calibration}`;
}

function alarmWords(field, byte) {
  return byte & MATCH ? `alarm at any ${field}` : `alarm at ${field} ${byteWords(byte)}`;
}

/** The square wave's frequency by F1 and F0 of 0Eh. */
export function squareWaveFrequency(setup) {
  return FREQUENCIES[(setup & F) >> 5];
}

function setupWords(byte) {
  const pin = byte & AL_SW ? 'alarm on the pin' : `square wave ${squareWaveFrequency(byte)}`;
  const others = OTHER_BITS.filter(([bit]) => byte & bit).map(([, name]) => `, ${name}`);
  return `${pin}, ${PROTECTIONS[(byte & WP) >> 3]}${others.join('')}`;
}
