// SPDX-License-Identifier: Apache-2.0
/**
 * The larger family, with two event counters and a serial number: the FM3164 and the FM31256, one alone or up to four
 * on one line. The devices are made by a StandIn (fm3130.mjs); their rules are in docs/FAMILY.md.
 */
import { bytesOfNumbers, outcome, roomForAnswers, UNANSWERED, word, Written } from './entries.mjs';

/** The registers, 09h to 18h: the front of the image. */
export const FAMILY_REGISTER_BYTES = 16;
/** The most devices of a set. */
export const SET_MOST = 4;

/** The event bytes that the family has beside those of the FM3130. In a set an edge names its device, by edgeOf. */
export const edge = Object.freeze({ CNT1: 8, CNT2: 9 });

/** The event byte of an edge on the pin of a device of a set, which is at a place, 0 to 3. */
export function edgeOf(place, pin) {
  return pin + 2 * place;
}

/** The parts of the family: the bytes of their memories, their bits in a plan, and their entries. */
const SIZES = Object.freeze({
  FM3164: { memoryBytes: 8192, planBit: 0, run: 'fm3164_run', step: 'fm3164_step', view: 'fm3164_view_number' },
  FM31256: { memoryBytes: 32768, planBit: 4, run: 'fm31256_run', step: 'fm31256_step', view: 'fm31256_view_number' },
});

/** The words of the refusals of a device of the family, at their numbers. */
export const FAMILY_REFUSALS = Object.freeze({
  1: 'memory has the wrong length for the chosen size',
  2: 'image is not 64 bytes, or no well-formed state of the chosen size writes it',
  3: 'some event byte is above 9',
  4: 'answers shorter than events',
  5: 'selector neither 0 (memory) nor 1 (registers)',
  6: 'start + length (exact sum) passes the end of the chosen bytes',
});

/** The words of the refusals of a set, at their numbers. */
export const SET_REFUSALS = Object.freeze({
  1: 'a memory has the wrong length for the size of its device',
  2: 'no well-formed state of its device\'s size and select bits writes an image',
  3: 'some event byte names no device of the set',
  4: 'answers shorter than events',
  9: 'a set has one to four devices',
  10: 'two devices have the same select bits',
  11: 'a device is not between transfers',
});

/** Whether a name is that of a part of the family. */
export function isOfFamily(part) {
  return Object.hasOwn(SIZES, part);
}

/** The bytes of the memory of a part of the family. */
export function familyMemoryBytes(part) {
  return SIZES[part].memoryBytes;
}

/** One part of the family: a state image and its memory. */
export class FamilyDevice {
  #entries;

  constructor(entries, part, image, memory) {
    this.#entries = entries;
    /** The part's name. */
    this.part = part;
    /** The state image. Save it, compare it; to change it, make a device of another. */
    this.image = image;
    /** The memory. It may be preset from outside the bus: FRAM may hold any bytes. */
    this.memory = memory;
  }

  /** Registers 09h to 18h: the front of the image, not a copy. */
  get registers() {
    return this.image.subarray(0, FAMILY_REGISTER_BYTES);
  }

  /** A device in the same state that goes its own way. */
  clone() {
    return new FamilyDevice(this.#entries, this.part, this.image.slice(), this.memory.slice());
  }

  /**
   * Does a list of events, bytes 0 to 9.
   * Returns { number, words, answers }, an answer for each event; under a refusal, 1 to 3, there are none.
   */
  run(events) {
    const list = bytesOfNumbers(events);
    if (list === null) {
      return outcome(FAMILY_REFUSALS, 3, { answers: new Uint8Array() });
    }
    const answers = roomForAnswers(list);
    const number = this.#entries.word(SIZES[this.part].run, new Written(this.image), new Written(this.memory), list,
      new Written(answers));
    return outcome(FAMILY_REFUSALS, number, { answers: number === 0 ? answers : new Uint8Array() });
  }

  /** Does one event. Returns { number, words, answer }; under a refusal answer is 1. */
  step(one) {
    const told = new Uint8Array([UNANSWERED]);
    const number = this.#entries.word(SIZES[this.part].step, new Written(this.image), new Written(this.memory),
      word(one), new Written(told));
    return outcome(FAMILY_REFUSALS, number, { answer: told[0] });
  }

  /** A part of the memory (0) or of the registers (1). Returns { number, words, part }: never a copy. */
  view(which, start, length) {
    const number = this.#entries.word(
      SIZES[this.part].view, this.image, this.memory, word(which), word(start), word(length));
    const chosen = which === 1 ? this.image : this.memory;
    const part = number === 0 ? chosen.subarray(start, start + length) : this.memory.subarray(0, 0);
    return outcome(FAMILY_REFUSALS, number, { part });
  }
}

/** One to four devices of the family on one line. Its members are { part, select, image, memory }. */
export class FamilySet {
  #entries;
  #images; // one after the other; those of the members lie in it

  constructor(entries, members) {
    this.#entries = entries;
    this.#images = new Uint8Array(members.reduce((sum, { image }) => sum + image.length, 0));
    let end = 0;
    this.members = members.map(({ part, select, image, memory }) => {
      const begin = end;
      end += image.length;
      this.#images.set(image, begin);
      return { part, select, image: this.#images.subarray(begin, end), memory: Uint8Array.from(memory) };
    });
  }

  /** The plan: a byte for each device. Select bits that are none give one above 7, which the module refuses. */
  get #plan() {
    const bitsOf = (select) => ([0, 1, 2, 3].includes(select) ? select : 8);
    return Uint8Array.from(this.members, ({ part, select }) => SIZES[part].planBit | bitsOf(select));
  }

  /** The memories of four places; a place past the plan has none. */
  #memories(lend) {
    return Array.from({ length: SET_MOST }, (_, place) => lend(this.members[place]?.memory ?? new Uint8Array()));
  }

  /** A set in the same state that goes its own way. */
  clone() {
    return new FamilySet(this.#entries, this.members);
  }

  /** Whether the set can be made: { number, words }. */
  check() {
    const number = this.#entries.word('fm31_set_check', this.#plan, this.#images, ...this.#memories((one) => one));
    return outcome(SET_REFUSALS, number);
  }

  /**
   * Does a list of events; an edge names its device.
   * Returns { number, words, answers }: one byte for each event, the line.
   */
  run(events) {
    const list = bytesOfNumbers(events);
    if (list === null) {
      return outcome(SET_REFUSALS, 3, { answers: new Uint8Array() });
    }
    const answers = roomForAnswers(list);
    const number = this.#entries.word('fm31_set_run', this.#plan, new Written(this.#images),
      ...this.#memories((one) => new Written(one)), list, new Written(answers));
    return outcome(SET_REFUSALS, number, { answers: number === 0 ? answers : new Uint8Array() });
  }

  /** Does one event. Returns { number, words, answer }; under a refusal answer is 1. */
  step(one) {
    const { number, words, answers } = this.run([one]);
    return { number, words, answer: number === 0 ? answers[0] : UNANSWERED };
  }
}
