// SPDX-License-Identifier: Apache-2.0
/**
 * How entries of the proved module are called: bytes go into its memory and come back, and a number becomes an outcome.
 */

/** An answer before it is written, and that of a refused event: the line high, which acknowledges nothing. */
export const UNANSWERED = 1;

/** A whole number as the 64 bits that an entry takes. */
export function word(number) {
  return BigInt.asUintN(64, BigInt(number));
}

/**
 * An outcome: a number, its words by a table, and what else the call gives. A number that the table has not is none of
 * the module's; its words say so, since 0 alone may have none.
 */
export function outcome(table, number, rest) {
  const otherwise = number === 0 ? '' : 'a number that is none';
  return { number, words: table[number] ?? otherwise, ...rest };
}

/** Room for the answers to a list of events. */
export function roomForAnswers(events) {
  return new Uint8Array(events.length).fill(UNANSWERED);
}

/** Numbers as bytes; null if one of them is none, which no event is. */
export function bytesOfNumbers(numbers) {
  if (numbers instanceof Uint8Array) {
    return numbers;
  }
  const isByte = (number) => Number.isInteger(number) && number >= 0 && number <= 255;
  return numbers.every(isByte) ? Uint8Array.from(numbers) : null;
}

/** A buffer that an entry writes; one that it only reads is given as plain bytes. */
export class Written {
  constructor(bytes) {
    this.bytes = bytes;
  }
}

/**
 * Calls the entries of the proved module. A slice is an address and a length of 64 bits, so lengths are BigInt;
 * a struct of two words comes back in memory, at an address that is given in front.
 *
 * Buffers are copied into the module's memory, each in a place of its own as the module's contract asks, and
 * those that are written are copied back.
 */
export class Entries {
  constructor(exports) {
    this.exports = exports;
    this.base = exports.__heap_base.value;
  }

  /** Calls an entry that returns one word. */
  word(name, ...given) {
    const placed = this.#place(given);
    const returned = this.exports[name](...placed.words);
    this.#takeBack(placed);
    return Number(returned);
  }

  /** Calls an entry that returns a struct of two words. Before they are written they are no number of a table. */
  pair(name, ...given) {
    const placed = this.#place(given);
    new BigInt64Array(this.exports.memory.buffer, this.base, 2).set([-1n, 0n]);
    this.exports[name](this.base, ...placed.words);
    this.#takeBack(placed);
    const words = new BigUint64Array(this.exports.memory.buffer, this.base, 2);
    return [Number(words[0]), Number(words[1])];
  }

  /** Puts all buffers into the module's memory; the first 16 bytes are for a struct that comes back. */
  #place(given) {
    const buffers = [];
    const words = [];
    let address = this.base + 16;
    for (const one of given) {
      const bytes = one instanceof Written ? one.bytes : one;
      if (bytes instanceof Uint8Array) {
        buffers.push({ address, bytes, isWritten: one instanceof Written });
        words.push(address, BigInt(bytes.length));
        address += Math.max(16, Math.ceil(bytes.length / 16) * 16);
      } else {
        words.push(bytes);
      }
    }
    this.#makeRoom(address);
    const memory = new Uint8Array(this.exports.memory.buffer);
    buffers.forEach(({ address: place, bytes }) => memory.set(bytes, place));
    return { words, buffers };
  }

  #makeRoom(end) {
    const { memory } = this.exports;
    const page = 65536;
    const missing = Math.ceil((end - memory.buffer.byteLength) / page);
    if (missing > 0) {
      memory.grow(missing);
    }
  }

  #takeBack({ buffers }) {
    for (const { address, bytes, isWritten } of buffers) {
      if (isWritten) {
        bytes.set(new Uint8Array(this.exports.memory.buffer, address, bytes.length));
      }
    }
  }
}
