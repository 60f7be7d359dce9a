// SPDX-License-Identifier: Apache-2.0
/**
 * fm3130.mjs: the verified stand-in for the FM3130, for browsers and for Node.
 *
 * It stands over fm3130.wasm, which is compiled from the same proved modules as the library for C; the proofs
 * speak of those modules, this file is tested. It needs entries.mjs and family.mjs beside it, and nothing else.
 *
 *     import { load, event, writtenByte } from './fm3130.mjs';
 *
 *     const standIn = await load();
 *     const device = standIn.fresh();
 *     const { number, words, answers } = device.run([event.START, ...writtenByte(0xA0), event.STOP]);
 *
 * Nothing throws because of what a device is given. Every call returns an outcome with a `number` and its `words`:
 * number 0 is done and has no words, every other is a refusal, under which nothing was changed.
 */
import { bytesOfNumbers, Entries, outcome, roomForAnswers, UNANSWERED, word, Written } from './entries.mjs';
import { FAMILY_REFUSALS, FamilyDevice, familyMemoryBytes, FamilySet, isOfFamily, SET_REFUSALS } from './family.mjs';

/** The bytes of a state image; the first REGISTER_BYTES of them are registers 00h to 0Eh (docs/IMAGE.md). */
export const IMAGE_BYTES = 64;
/** The bytes of the memory. */
export const MEMORY_BYTES = 8192;
/** The registers, 00h to 0Eh. */
export const REGISTER_BYTES = 15;
/** The bytes of a proving record; zeros are the record before any event. */
export const RECORD_BYTES = 20;
/** The most ticks that are caught up with in one call, those of a leap year. */
export const MOST_TICKS = 31622400;

/** The event bytes. */
export const event = Object.freeze({
  START: 0,
  STOP: 1,
  CLOCK_LOW: 2, // a Clock with the master's data line low
  CLOCK_HIGH: 3, // a Clock with it high, that is, released
  TICK: 4,
  POWER_LOST_WITH_BACKUP: 5,
  POWER_LOST_WITHOUT_BACKUP: 6,
  POWER_RETURNED: 7,
});

/** The viewer's selectors. */
export const selector = Object.freeze({ MEMORY: 0, REGISTERS: 1 });

/** The two masters of one bus. The bus byte beside a device is the number of the one that holds it, or NOBODY. */
export const master = Object.freeze({ NOBODY: 0, RIG: 1, HANDHELD: 2 });

/** The words of a device's refusals, at their numbers. */
export const REFUSALS = Object.freeze({
  1: 'memory is not 8,192 bytes',
  2: 'image is not 64 bytes, or no well-formed state writes it',
  3: 'some event byte is above 7',
  4: 'answers shorter than events',
  5: 'selector neither 0 (memory) nor 1 (registers)',
  6: 'start + length passes the end of the chosen bytes',
  7: 'this master does not hold the bus',
  8: 'more than 31,622,400 ticks',
});

/** The words of the verdicts on a trim setting, at their numbers. */
export const TRIM_VERDICTS = Object.freeze({
  1: 'some setting leaves a smaller distance from zero',
  2: 'sign is neither 0 (minus) nor 1 (plus)',
  3: 'error is not from -20,000 to 20,000',
  4: 'code is above 31',
});

/** The words of the master's refusals, at their numbers. */
export const MASTER_REFUSALS = Object.freeze({
  1: 'more than 256 data bytes',
  2: 'a read of no data byte',
  3: 'the address is above 1FFFh',
  4: 'too little room',
  5: 'answers are not as many as the events',
});

/** The events of the longest transaction of a master: a read of 256 bytes. */
const MOST_MASTER_EVENTS = 39 + 9 * 256;
/** The most data bytes of a master's transaction. */
const MOST_MASTER_BYTES = 256;

/** The words of the verdicts on a capture, at their numbers. */
export const CAPTURE_VERDICTS = Object.freeze({
  0: 'all agree',
  1: 'an answer differs',
  2: 'an entry is faulty',
  3: 'too long: more than 61,440 bytes',
});

/** What mending lists of a register: its number, the old byte, the new byte; and the most registers that it lists. */
const CHANGE_BYTES = 3;
const MOST_CHANGES = 7;

/** The number by which the proposer of trim settings refuses. */
const TRIM_REFUSED = 64;

/** The Clock with the master's line at a level. */
export function clock(isHigh) {
  return isHigh ? event.CLOCK_HIGH : event.CLOCK_LOW;
}

/** The nine clocks of a byte that the master writes: high bit first, released at the ninth. */
export function writtenByte(byte) {
  const bits = Array.from({ length: 8 }, (_, place) => clock((byte & (0x80 >> place)) !== 0));
  return [...bits, event.CLOCK_HIGH];
}

/** The nine clocks of a byte that the master reads: released for eight, low at the ninth to acknowledge. */
export function readByte(acknowledges) {
  return [...Array(8).fill(event.CLOCK_HIGH), clock(!acknowledges)];
}

/**
 * Loads the stand-in. `source` is the module's bytes, a response that gives them, or a URL; without it
 * fm3130.wasm is taken from beside this file.
 */
export async function load(source = new URL('fm3130.wasm', import.meta.url)) {
  const { instance } = await WebAssembly.instantiate(await bytesOf(source), {});
  return new StandIn(new Entries(instance.exports));
}

/** The bytes of a module, from wherever they are. */
async function bytesOf(source) {
  if (source instanceof Uint8Array || source instanceof ArrayBuffer) {
    return source;
  }
  if (typeof Response !== 'undefined' && source instanceof Response) {
    return source.arrayBuffer();
  }
  const url = new URL(source, import.meta.url);
  if (url.protocol === 'file:' && typeof process !== 'undefined') {
    const { readFile } = await import('node:fs/promises'); // Node fetches no files
    return readFile(url);
  }
  return (await fetch(url)).arrayBuffer();
}

/** The loaded stand-in: makes devices, and has what needs no device. */
export class StandIn {
  #entries;

  constructor(entries) {
    this.#entries = entries;
  }

  /** A fresh device of a part, FM3130, FM3164 or FM31256; its memory is all 0. */
  fresh(part = 'FM3130') {
    const image = new Uint8Array(IMAGE_BYTES);
    const number = isOfFamily(part) // 0 for every image of 64 bytes
      ? this.#entries.word('fm31_fresh', new Written(image))
      : this.#entries.word('fm3130_fresh', new Written(image));
    if (number !== 0) {
      throw new Error(`the module refuses a fresh image by number ${number}`);
    }
    const bytes = isOfFamily(part) ? familyMemoryBytes(part) : MEMORY_BYTES;
    return this.#device(part, image, new Uint8Array(bytes));
  }

  /**
   * A device of an image and a memory, as another device or a C host left them.
   * Returns { number, words, device }; under a refusal, 1 or 2, device is null.
   */
  fromParts(image, memory, part = 'FM3130') {
    const device = this.#device(part, Uint8Array.from(image), Uint8Array.from(memory));
    const { number } = device.run([]); // an empty list changes nothing and tests both
    return outcome(isOfFamily(part) ? FAMILY_REFUSALS : REFUSALS, number, { device: number === 0 ? device : null });
  }

  #device(part, image, memory) {
    if (isOfFamily(part)) {
      return new FamilyDevice(this.#entries, part, image, memory);
    }
    if (part !== 'FM3130') {
      throw new TypeError(`${part} is no part`);
    }
    return new Device(this.#entries, image, memory);
  }

  /**
   * A set of one to four devices of the family on one line, each { part, select }: a name, FM3164 or FM31256, and its
   * select bits, 0 to 3. It is fresh, or has an `image` and a `memory`.
   * Returns { number, words, set }; under a refusal, 1, 2 or 9 to 11, set is null.
   */
  set(members) {
    const whole = members.map((one) => ({ ...this.fresh(one.part), ...one }));
    const set = new FamilySet(this.#entries, whole);
    const { number } = set.check();
    return outcome(SET_REFUSALS, number, { set: number === 0 ? set : null });
  }

  /**
   * A master asks for the bus. `bus` is one byte of the caller's, 0 at first, which is written.
   * Returns { number, words }; number 7 where the other holds it.
   */
  ask(bus, one) {
    return outcome(REFUSALS, this.#entries.word('fm3130_ask', new Written(bus), word(one)));
  }

  /** The events of a master's whole write to the memory. Returns { number, words, events }. */
  writeEvents(address, bytes) {
    return this.#filled('events', MOST_MASTER_EVENTS, 'fm3130_write_events', word(address), Uint8Array.from(bytes));
  }

  /** What the answers to a write tell. Returns { number, words, flags }: 1 for each byte that was acknowledged. */
  writeTold(count, answers) {
    return this.#filled('flags', MOST_MASTER_BYTES, 'fm3130_write_told', word(count), Uint8Array.from(answers));
  }

  /** The events of a master's whole read from the memory. Returns { number, words, events }. */
  readEvents(address, count) {
    return this.#filled('events', MOST_MASTER_EVENTS, 'fm3130_read_events', word(address), word(count));
  }

  /**
   * What the answers to a read tell. Returns { number, words, bytes }; none if a slave or address byte went
   * unacknowledged.
   */
  readTold(count, answers) {
    return this.#filled('bytes', MOST_MASTER_BYTES, 'fm3130_read_told', word(count), Uint8Array.from(answers));
  }

  /** Calls an entry of the master's side, which fills the front of a buffer with enough room. */
  #filled(name, room, entry, ...given) {
    const buffer = new Uint8Array(room);
    const [number, count] = this.#entries.pair(entry, ...given, new Written(buffer));
    return outcome(MASTER_REFUSALS, number, { [name]: buffer.subarray(0, count) });
  }

  /**
   * Judges a capture, a recorded run in one file (docs/CAPTURE.md).
   * Returns { number, words, place }: how many answers agree (0), the first wrong one, counted from 0 (1), or the first
   * faulty entry, 1 to 4 (2).
   */
  judge(file) {
    const [number, place] = this.#entries.pair('fm3130_judge', Uint8Array.from(file));
    return outcome(CAPTURE_VERDICTS, number, { place });
  }

  /** Judges a trim setting of the other maker's clock. Returns { number, words, residue }. */
  trimCheck(error, sign, code) {
    const given = [error, word(sign), word(code)];
    const number = this.#entries.word('fm3130_trim_check', ...given);
    return outcome(TRIM_VERDICTS, number, { residue: this.#entries.word('fm3130_trim_residue', ...given) });
  }

  /** Proposes a trim setting. Returns { number, words, sign, code }; number 3 refuses the error. */
  trimPropose(error) {
    const setting = this.#entries.word('fm3130_trim_propose', error);
    if (setting === TRIM_REFUSED) {
      return outcome(TRIM_VERDICTS, 3, { sign: 0, code: 0 });
    }
    return outcome(TRIM_VERDICTS, 0, { sign: setting >> 5, code: setting & 31 });
  }
}

/** One FM3130: a state image and 8,192 bytes of memory. Made by a StandIn. */
export class Device {
  #entries;

  constructor(entries, image, memory) {
    this.#entries = entries;
    /** The state image. Save it, compare it; to change it, make a device of another. */
    this.image = image;
    /** The memory. It may be preset from outside the bus: FRAM may hold any bytes. */
    this.memory = memory;
  }

  /** The part's name. */
  get part() {
    return 'FM3130';
  }

  /** Registers 00h to 0Eh: the front of the image, not a copy. */
  get registers() {
    return this.image.subarray(0, REGISTER_BYTES);
  }

  /** A device in the same state that goes its own way. */
  clone() {
    return new Device(this.#entries, this.image.slice(), this.memory.slice());
  }

  /**
   * Does a list of events, bytes 0 to 7.
   * Returns { number, words, answers }, an answer for each event; under a refusal, 1 to 3, there are none.
   */
  run(events) {
    const list = bytesOfNumbers(events);
    if (list === null) {
      return outcome(REFUSALS, 3, { answers: new Uint8Array() });
    }
    const answers = roomForAnswers(list);
    const [number, count] = this.#entries.pair(
      'fm3130_run', new Written(this.image), new Written(this.memory), list, new Written(answers));
    return outcome(REFUSALS, number, { answers: answers.subarray(0, count) });
  }

  /**
   * Does one event.
   * Returns { number, words, answer, rolled }: the answer byte and the highest field of the calendar that the event
   * changed: 0 nothing, 1 seconds, 2 minutes, 3 hours, 4 date, 5 month, 6 year. Under a refusal answer is 1.
   */
  step(one) {
    const told = new Uint8Array([UNANSWERED, 0]);
    const number = this.#entries.word('fm3130_step', new Written(this.image), new Written(this.memory),
      word(one), new Written(told));
    return outcome(REFUSALS, number, { answer: told[0], rolled: told[1] });
  }

  /**
   * Does many ticks at once, for a host that slept; the device is left as by so many events TICK.
   * Returns { number, words }; number 8 refuses more than MOST_TICKS.
   */
  catchUp(ticks) {
    return outcome(REFUSALS, this.#entries.word('fm3130_catch_up', new Written(this.image), word(ticks)));
  }

  /**
   * A master's call of `run`; the bus byte is written where the call frees the bus.
   * Returns { number, words, answers }; number 7 where the master does not hold the bus and some event is 0 to 3.
   */
  call(bus, one, events) {
    const list = bytesOfNumbers(events);
    if (list === null) {
      return outcome(REFUSALS, 3, { answers: new Uint8Array() });
    }
    const answers = roomForAnswers(list);
    const [number, count] = this.#entries.pair('fm3130_call', new Written(bus), word(one), new Written(this.image),
      new Written(this.memory), list, new Written(answers));
    return outcome(REFUSALS, number, { answers: answers.subarray(0, count) });
  }

  /**
   * Does a list of events as `run` does, and keeps the proving record, 20 bytes of the caller's, which are written.
   * Returns { number, words, answers, report }: bit k of the report is 1 where lamp k, the byte at 1000h + k, is lit.
   */
  lamps(record, events) {
    const list = bytesOfNumbers(events);
    if (list === null) {
      return outcome(REFUSALS, 3, { answers: new Uint8Array(), report: 0 });
    }
    const answers = roomForAnswers(list);
    const [number, report] = this.#entries.pair('fm3130_lamps', new Written(this.image), new Written(this.memory),
      list, new Written(answers), new Written(record));
    return outcome(REFUSALS, number, { answers: number === 0 ? answers : new Uint8Array(), report });
  }

  /**
   * Puts an impossible date or time right, in registers 02h to 08h and in the core.
   * Returns { number, words, changes }: [{ register, before, after }] for each register changed, in register order.
   */
  mend() {
    const list = new Uint8Array(MOST_CHANGES * CHANGE_BYTES);
    const [number, count] = this.#entries.pair('fm3130_mend', new Written(this.image), new Written(list));
    const changes = Array.from({ length: count }, (_, index) => {
      const [register, before, after] = list.subarray(index * CHANGE_BYTES);
      return { register, before, after };
    });
    return outcome(REFUSALS, number, { changes });
  }

  /**
   * A part of the memory or of the registers.
   * Returns { number, words, part }: the part itself, never a copy; empty under a refusal, 1, 2, 5 or 6.
   */
  view(which, start, length) {
    const number = this.#entries.word(
      'fm3130_view_number', this.image, this.memory, word(which), word(start), word(length));
    const chosen = which === selector.REGISTERS ? this.image : this.memory;
    const part = number === 0 ? chosen.subarray(start, start + length) : this.memory.subarray(0, 0);
    return outcome(REFUSALS, number, { part });
  }
}
