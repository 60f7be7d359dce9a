// SPDX-License-Identifier: Apache-2.0
/**
 * Bus scripts (docs/SCRIPTS.md): from text to items, and from items to a plan of events. What is wrong in a text is
 * a problem with its place, shown as the command shows it.
 *
 * A script is for a target: { part } for one device, or { selects } for a set, whose devices have these select bits by
 * their places.
 */
import { edge, edgeOf } from './family.mjs';
import { clock, event, readByte, writtenByte } from './fm3130.mjs';
import { nearest } from './nearest.mjs';
import { FM3130 } from './parts.mjs';
import { pinFunction } from './state.mjs';

/** What a script is for, if nothing else is said. */
const FOR_FM3130 = Object.freeze({ part: FM3130 });

/** The greatest repeat: a century has 3,155,760,000 seconds. */
const MOST_TIMES = 4294967295;

/** What words there are for a target, for whoever wrote another. */
function knownWords(target) {
  const edges = target.selects ? 'c1@0 c2@0 ' : target.part.hasCounters ? 'c1 c2 ' : '';
  const pin = hasPin(target) ? ' pin=low' : '';
  return `known: [ ] r r+ R r- t ${edges}lost gone power, bytes as A0 or 0xA0, clocks as {0110}, `
    + `expectations as r=5A A0+ A0-${pin}`;
}

/** Whether there is an ACS pin to look at. */
const hasPin = ({ part }) => part !== undefined && !part.hasCounters;

/** Words of more than a letter, one of which a typo may have been. */
const LONG_WORDS = ['lost', 'gone', 'power'];

/** The states of the ACS pin that a script can expect: their words, and the function and the alarm of state.mjs. */
const PINS = new Map([
  ['low', { function: pinFunction.ALARM, alarm: true }],
  ['high', { function: pinFunction.ALARM, alarm: false }],
  ['released', { function: pinFunction.RELEASED, alarm: false }],
  ['square', { function: pinFunction.SQUARE_WAVE, alarm: false }],
  ['calibration', { function: pinFunction.CALIBRATION, alarm: false }],
]);

/** The words for edges on the pins of counters; as bytes they would be read by accident. */
const EDGES = new Map([['c1', edge.CNT1], ['c2', edge.CNT2]]);

/** What the master does at the ninth clock of a byte that it reads. */
const ninth = Object.freeze({ BY_WHAT_FOLLOWS: 0, ACKNOWLEDGE: 1, RELEASE: 2 });

/** What single words ask for. */
const ACTIONS = new Map([
  ['r', { kind: 'read', ninth: ninth.BY_WHAT_FOLLOWS }],
  ['r+', { kind: 'read', ninth: ninth.ACKNOWLEDGE }],
  ['R', { kind: 'read', ninth: ninth.RELEASE }],
  ['r-', { kind: 'read', ninth: ninth.RELEASE }],
  ['t', { kind: 'aside', events: [event.TICK] }],
  ['lost', { kind: 'aside', events: [event.POWER_LOST_WITH_BACKUP] }],
  ['gone', { kind: 'aside', events: [event.POWER_LOST_WITHOUT_BACKUP] }],
  ['power', { kind: 'aside', events: [event.POWER_RETURNED] }],
]);

const isBlank = (sign) => /\p{White_Space}/u.test(sign) || sign === ',';

/** What is wrong in a text: where, what, and what to write instead. */
export class Problem extends Error {
  constructor(place, message, advice = '') {
    super(message);
    this.place = place;
    this.advice = advice;
  }

  /** The problem with the line it is in and a mark below its place. */
  shownIn(name, text) {
    const { line, column, width } = this.place;
    const signs = [...(linesOf(text)[line - 1] ?? '')];
    const printable = signs.map((sign) => (sign !== '\t' && /\p{Cc}/u.test(sign) ? '\uFFFD' : sign)).join('');
    const blanks = signs.slice(0, column - 1).map((sign) => (sign === '\t' ? '\t' : ' ')).join('');
    const margin = ' '.repeat(String(line).length);
    const advice = this.advice === '' ? '' : `\n ${this.advice}`;
    const message = this.message.replace(/(?![\t\n])\p{Cc}/gu, '\uFFFD');
    return `${name}:${line}:${column}: ${message}\n ${line} | ${printable}\n ${margin} | `
      + `${blanks}${'^'.repeat(width)}${advice}`;
  }
}

/** The lines of a text, without their ends. */
export function linesOf(text) {
  const pieces = text.split('\n');
  const last = pieces.pop();
  const lines = pieces.map((line) => line.replace(/\r$/, ''));
  return last === '' ? lines : [...lines, last];
}

/** The items of a text, each with its place; throws the first Problem. */
export function parse(text, target = FOR_FM3130) {
  return linesOf(text).flatMap((content, index) => new Line(index + 1, content, target).items());
}

/**
 * The turns of a text of two masters, each { letter, items, words, place }; throws the first Problem. Two masters share
 * an FM3130.
 */
export function parseTurns(text) {
  const turns = [];
  linesOf(text).forEach((content, index) => new Line(index + 1, content, FOR_FM3130).addTo(turns));
  return turns;
}

/** One line, read from left to right. */
class Line {
  constructor(number, content, target) {
    this.number = number;
    this.signs = [...content];
    this.next = 0;
    this.target = target;
  }

  items() {
    const items = [];
    while (this.#skipToItem()) {
      this.#mustBeOfOneMaster();
      items.push(this.#item());
    }
    return items;
  }

  /** Adds items to the last of some turns, and turns that begin here. */
  addTo(turns) {
    while (this.#skipToItem()) {
      const begin = this.next;
      const letter = this.#master();
      if (letter !== null) {
        turns.push({ letter, items: [], words: '', place: this.#since(begin) });
      } else {
        const item = this.#item();
        if (turns.length === 0) {
          throw new Problem(this.#since(begin), 'no master plays this', 'write a: or b: before it');
        }
        const turn = turns.at(-1);
        turn.items.push(item);
        turn.words += (turn.words === '' ? '' : ' ') + this.signs.slice(begin, this.next).join('');
      }
    }
  }

  /** The master whose turn begins here, a or b; null where none does. With a number after it, it would be a repeat. */
  #master() {
    const [letter, colon, digit] = this.signs.slice(this.next, this.next + 3);
    if ((letter !== 'a' && letter !== 'b') || colon !== ':' || /^[0-9]$/.test(digit ?? '')) {
      return null;
    }
    this.next += 2;
    return letter;
  }

  /** Refuses a turn of two masters where there is one. */
  #mustBeOfOneMaster() {
    const begin = this.next;
    if (this.#master() !== null) {
      throw new Problem(this.#since(begin), 'this begins a turn of two masters',
        '`fm3130 share` plays a script of two masters');
    }
  }

  #peek() {
    return this.signs[this.next];
  }

  /** The place from a sign to the next one to be read. */
  #since(begin) {
    return { line: this.number, column: begin + 1, width: Math.max(this.next - begin, 1) };
  }

  #isAtComment() {
    return this.#peek() === '#' || (this.#peek() === '/' && this.signs[this.next + 1] === '/');
  }

  /** Goes to the next item; false at the end of the line. A byte order mark counts as a blank. */
  #skipToItem() {
    while (this.#peek() !== undefined && !this.#isAtComment()) {
      if (!isBlank(this.#peek()) && this.#peek() !== '\uFEFF') {
        return true;
      }
      this.next += 1;
    }
    return false;
  }

  #item() {
    const begin = this.next;
    const action = this.#action();
    const end = this.next;
    const times = this.#times();
    if (action.kind === 'look' && this.next !== end) {
      throw new Problem(this.#since(begin), 'the pin is looked at once');
    }
    return { ...action, times, place: this.#since(begin) };
  }

  #action() {
    switch (this.#peek()) {
      case '[': return this.#single({ kind: 'edge', events: [event.START] });
      case ']': return this.#single({ kind: 'edge', events: [event.STOP] });
      case '{': return this.#clocks();
      case '}': throw this.#stray('there is no { before this }');
      case ':':
      case '*': throw this.#stray('a repeat stands right after what it repeats');
      default: return this.#word();
    }
  }

  #single(action) {
    this.next += 1;
    return action;
  }

  /** A problem with the one sign here. */
  #stray(message) {
    this.next += 1;
    return new Problem(this.#since(this.next - 1), message);
  }

  /** Clocks in braces; blanks between them do not count. */
  #clocks() {
    const begin = this.next;
    const events = [];
    this.next += 1;
    while (this.#peek() !== '}') {
      const sign = this.#peek();
      if (sign === undefined || this.#isAtComment()) {
        throw new Problem(this.#since(begin), 'a { without a } on its line', 'write clocks as {0110}');
      }
      if (sign === '0' || sign === '1') {
        events.push(clock(sign === '1'));
      } else if (!isBlank(sign)) {
        throw this.#stray('a clock is 0 or 1');
      }
      this.next += 1;
    }
    this.next += 1;
    if (events.length === 0) {
      throw new Problem(this.#since(begin), 'no clocks in braces', 'write each clock as 0 or 1, such as {0110}');
    }
    return { kind: 'clocks', events };
  }

  /** A word: up to a blank, a bracket, a brace, a repeat or a comment. */
  #word() {
    const begin = this.next;
    const ends = (sign) => sign === undefined || isBlank(sign) || '[]{}:*'.includes(sign) || this.#isAtComment();
    while (!ends(this.#peek())) {
      this.next += 1;
    }
    const word = this.signs.slice(begin, this.next).join('');
    const wrong = (message, advice) => new Problem(this.#since(begin), message, advice);
    if (word.includes('=')) {
      return expectation(word, this.target, wrong);
    }
    // `r+` and `r-` say what the master does, and `A0+` and `A0-` what the device is to do.
    const [, byte, sign] = /^(.*)([+-])$/s.exec(word) ?? [];
    if (byte !== undefined && isByte(byte) && !EDGES.has(byte)) {
      return { ...actionOf(byte, this.target, wrong), expected: { acknowledge: sign === '+' } };
    }
    return actionOf(word, this.target, wrong);
  }

  /** The repeat right after an action, or 1. */
  #times() {
    if (this.#peek() !== ':' && this.#peek() !== '*') {
      return 1;
    }
    const begin = this.next;
    this.next += 1;
    while (this.#peek() !== undefined && /[\p{Alphabetic}\p{N}_]/u.test(this.#peek())) {
      this.next += 1;
    }
    const digits = this.signs.slice(begin + 1, this.next).join('').replaceAll('_', '');
    const times = /^[0-9]+$/.test(digits) ? Number(digits) : 0;
    if (times < 1 || times > MOST_TIMES) {
      throw new Problem(this.#since(begin), `a repeat is a decimal number from 1 to ${MOST_TIMES}`,
        'write r:8 or t*60, without blanks');
    }
    return times;
  }
}

/** What a word asks for; throws what is wrong with it. */
function actionOf(word, target, wrong) {
  const [pin, ...select] = word.split('@');
  if (EDGES.has(pin)) {
    const one = select.length === 0 ? edgeOfPart(word, target, wrong) : edgeOfDevice(word, pin, target, wrong);
    return { kind: 'aside', events: [one] };
  }
  return ACTIONS.get(word) ?? { kind: 'write', events: writtenByte(byteOf(word, target, wrong)) };
}

/** An edge that names no device: that of the one part of a script. */
function edgeOfPart(word, { part, selects }, wrong) {
  if (selects) {
    throw wrong(`${word} does not say which device of the set`, `write ${listOf(selects, word)}`);
  }
  if (!part.hasCounters) {
    const [pin, byte] = [word.replace('c', 'CNT'), word.toUpperCase()];
    throw wrong(`${word} is an edge on ${pin}, and the ${part.name} has no counters`,
      `write ${byte} or 0x${byte} for the byte; fm3130 run --part fm3164 has counters`);
  }
  return EDGES.get(word);
}

/** An edge that names a device of a set by its select bits. */
function edgeOfDevice(word, pin, { selects }, wrong) {
  if (!selects) {
    throw wrong(`${word} names a device of a set, and there is one part`,
      `write ${pin}, or make a set of parts such as --part fm3164@0`);
  }
  const place = selects.findIndex((one) => `${pin}@${one}` === word);
  if (place < 0) {
    throw wrong(`${word} names no device of the set`, `write ${listOf(selects, pin)}`);
  }
  return edgeOf(place, EDGES.get(pin));
}

/** A word for each device of a set, for whoever wrote another. */
function listOf(selects, pin) {
  return selects.map((one) => `${pin}@${one}`).join(' or ');
}

/** `r=5A` and `pin=low`; throws what is wrong with it. */
function expectation(word, target, wrong) {
  const [left, right] = [word.slice(0, word.indexOf('=')), word.slice(word.indexOf('=') + 1)];
  const action = ACTIONS.get(left);
  if (left === 'pin') {
    if (!hasPin(target)) {
      throw wrong(`${word}: there is no ACS pin`, '');
    }
    if (!PINS.has(right)) {
      throw wrong(`${word} is no state of the pin`,
        'write pin=low, pin=high, pin=released, pin=square or pin=calibration');
    }
    return { kind: 'look', events: [], expected: { pin: PINS.get(right) } };
  }
  if (action?.kind !== 'read') {
    throw wrong(`${word}: of this no value is expected`,
      'write r=5A for a byte that is read, A0+ or A0- for one that is written, or pin=low');
  }
  if (!isByte(right)) {
    throw wrong(`${word} expects no byte`, 'write r=5A, with two hexadecimal digits');
  }
  return { ...action, expected: { byte: byteOf(right, target, wrong) } };
}

const isByte = (word) => /^(0[xX][0-9A-Fa-f]{1,2}|[0-9A-Fa-f]{2})$/.test(word);

/** The byte that a word writes; throws what is wrong with it. */
function byteOf(word, target, wrong) {
  const isPrefixed = /^0[xX]/.test(word);
  const digits = isPrefixed ? word.slice(2) : word;
  const isNumber = /^[0-9A-Fa-f]+$/.test(digits);
  if (!isNumber && isPrefixed) {
    throw wrong(`${word} is no byte`, 'write 0x and two hexadecimal digits');
  }
  if (!isNumber) {
    const near = nearest(word, LONG_WORDS);
    const known = knownWords(target);
    throw wrong(`unknown word ${word}`, near === undefined ? known : `perhaps ${near}; ${known}`);
  }
  if (digits.length !== 2 && !(digits.length === 1 && isPrefixed)) {
    throw wrong(`${word} is not one byte`, 'a byte has two hexadecimal digits, and a blank stands between bytes');
  }
  return Number.parseInt(digits, 16);
}

/**
 * The steps of some items: events, how many times, the place in the text, and what is expected each time, with how many
 * times before it and in all. A repeat stays a number. A step without events looks at the pin.
 */
export function planOf(items) {
  return items.flatMap((item, index) => {
    const { place, times } = item;
    const step = (events, some, before) => ({
      events, times: some, place, ...(item.expected && { expected: { ...item.expected, before, of: times } }),
    });
    if (item.kind !== 'read') {
      return [step(item.events, times, 0)];
    }
    const acknowledgesLast = acknowledgesLastOf(item.ninth, items, index);
    if (item.ninth !== ninth.BY_WHAT_FOLLOWS || acknowledgesLast) {
      return [step(readByte(acknowledgesLast), times, 0)];
    }
    const last = step(readByte(false), 1, times - 1);
    return times === 1 ? [last] : [step(readByte(true), times - 1, 0), last];
  });
}

/** What the master does after the last byte of a read, by the items that follow it. */
function acknowledgesLastOf(chosen, items, index) {
  if (chosen !== ninth.BY_WHAT_FOLLOWS) {
    return chosen === ninth.ACKNOWLEDGE;
  }
  let next = index + 1;
  while (items[next]?.kind === 'aside' || items[next]?.kind === 'look') {
    next += 1;
  }
  return items[next]?.kind !== 'edge';
}

/** The plan of a text; throws the first Problem in it. */
export function planOfText(text, target = FOR_FM3130) {
  return planOf(parse(text, target));
}

/** The number of events of a plan. */
export function totalOf(plan) {
  return plan.reduce((sum, step) => sum + step.events.length * step.times, 0);
}

/** The events of a plan one by one. */
export function* eventsOf(plan) {
  for (const { events, times } of plan) {
    for (let time = 0; time < times; time += 1) {
      yield* events;
    }
  }
}
