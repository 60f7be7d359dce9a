// SPDX-License-Identifier: Apache-2.0
/**
 * The parts that a script can be played on. Every part has the same bus; what differs is its companion: a clock, or
 * counters and a serial number.
 */
import { FAMILY_REGISTER_BYTES, familyMemoryBytes } from './family.mjs';
import { familyRegisterName, familyRegisterWords, FIRST } from './family-registers.mjs';
import { MEMORY_BYTES, REGISTER_BYTES } from './fm3130.mjs';
import { registerName, registerWords } from './registers.mjs';

function partOfFamily(name) {
  const memoryBytes = familyMemoryBytes(name);
  return Object.freeze({
    name,
    hasCounters: true,
    memoryBytes,
    firstRegister: FIRST,
    registerCount: FAMILY_REGISTER_BYTES,
    longestName: 22,
    registerName: familyRegisterName,
    registerWords: (address, byte) => familyRegisterWords(memoryBytes, address, byte),
  });
}

export const FM3130 = Object.freeze({
  name: 'FM3130',
  hasCounters: false,
  memoryBytes: MEMORY_BYTES,
  firstRegister: 0,
  registerCount: REGISTER_BYTES,
  longestName: 18,
  registerName,
  registerWords,
});
export const FM3164 = partOfFamily('FM3164');
export const FM31256 = partOfFamily('FM31256');

/** All of them. */
export const PARTS = Object.freeze([FM3130, FM3164, FM31256]);

/** The part that has a name, in letters of any size; undefined where none has. */
export function partOf(name) {
  return PARTS.find((part) => part.name === name.toUpperCase());
}
