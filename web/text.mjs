// SPDX-License-Identifier: Apache-2.0
/** Small helpers for texts, as the command writes them. */

/** A byte in two hexadecimal digits. */
export function byteWords(byte) {
  return byte.toString(16).toUpperCase().padStart(2, '0');
}

/** An address, or a counter, in four hexadecimal digits. */
export function addressWords(address) {
  return address.toString(16).toUpperCase().padStart(4, '0');
}

/** A counter of 32 bits in eight hexadecimal digits. */
export function longWords(number) {
  return number.toString(16).toUpperCase().padStart(8, '0');
}

/** An s for all numbers but 1. */
export function plural(number) {
  return number === 1 ? '' : 's';
}

/** A number with one decimal; a tie goes to the even digit. Only odd quarters are ties. */
export function oneDecimal(number) {
  const isTie = Number.isInteger(number * 4) && !Number.isInteger(number * 2);
  if (!isTie) {
    return number.toFixed(1);
  }
  const below = Math.floor(number * 10);
  return ((below % 2 === 0 ? below : below + 1) / 10).toFixed(1);
}
