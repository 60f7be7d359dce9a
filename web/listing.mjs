// SPDX-License-Identifier: Apache-2.0
/**
 * Event bytes back to a script, with a comment on every line, as `fm3130 events --list` prints it. The lines are a
 * script of exactly the same events. No device is asked: what is said is what the master does, and a byte counts as
 * read if the slave byte before it asks for reading.
 */
import { edge } from './family.mjs';
import { event } from './fm3130.mjs';
import { namedBy } from './meaning.mjs';
import { byteWords, plural } from './text.mjs';

const CLOCKS_OF_A_BYTE = 9;

/** What the next byte is, as far as the master's side tells. */
const expected = Object.freeze({ NOTHING: 0, SLAVE_BYTE: 1, WRITTEN: 2, READ: 3 });

const SINGLES = new Map([
  [event.START, ['[', 'Start']],
  [event.STOP, [']', 'Stop']],
  [event.POWER_LOST_WITH_BACKUP, ['lost', 'main power lost, backup present']],
  [event.POWER_LOST_WITHOUT_BACKUP, ['gone', 'main power lost, no backup']],
  [event.POWER_RETURNED, ['power', 'main power returned']],
]);

/** Events of which those one after the other stand on one line. */
const REPEATED = new Map([
  [event.TICK, ['t', 'tick', 'ticks']],
  [edge.CNT1, ['c1', 'edge on CNT1', 'edges on CNT1']],
  [edge.CNT2, ['c2', 'edge on CNT2', 'edges on CNT2']],
]);

/** The lines of some events. */
export function listingOf(events) {
  const listing = new Listing();
  for (const one of events) {
    listing.take(one);
  }
  listing.finish();
  return listing.lines;
}

/** Puts events together to lines. */
class Listing {
  lines = [];
  #taken = 0;
  #levels = []; // of the clocks not yet listed
  #listed = []; // of those clocks of the byte under way that are listed already, since something came between
  #run = { one: null, count: 0 }; // ticks or edges not yet listed
  #expected = expected.NOTHING;

  take(one) {
    if (one === event.CLOCK_LOW || one === event.CLOCK_HIGH) {
      this.#takeClock(one === event.CLOCK_HIGH);
    } else if (REPEATED.has(one)) {
      this.#takeRepeated(one);
    } else {
      this.finish();
      this.#taken += 1;
      this.#single(one);
    }
  }

  /** Lists what is not yet listed. */
  finish() {
    this.#listClocks();
    this.#listRun();
  }

  /** A tick or an edge; those of one kind stand on one line. */
  #takeRepeated(one) {
    this.#listClocks();
    if (this.#run.one !== one) {
      this.#listRun();
    }
    this.#run = { one, count: this.#run.count + 1 };
    this.#taken += 1;
  }

  /** A clock; the ninth completes a byte. */
  #takeClock(level) {
    this.#listRun();
    this.#levels.push(level);
    this.#taken += 1;
    if (this.#listed.length + this.#levels.length === CLOCKS_OF_A_BYTE) {
      this.#listClocks();
      this.#byteIsOver();
    }
  }

  /** A line; the comment says at which event it begins. */
  #line(events, notation, words) {
    this.lines.push(`${notation.padEnd(12)} # ${String(this.#taken - events).padStart(8)}  ${words}`);
  }

  #listRun() {
    const { one, count } = this.#run;
    this.#run = { one: null, count: 0 };
    if (count > 0) {
      const [notation, single, many] = REPEATED.get(one);
      this.#line(count, count === 1 ? notation : `${notation}*${count}`, count === 1 ? single : many);
    }
  }

  /** An event that stands alone; Start and Stop begin a new count of clocks. */
  #single(one) {
    if (one === event.START || one === event.STOP) {
      this.#byteIsOver();
      this.#expected = one === event.START ? expected.SLAVE_BYTE : expected.NOTHING;
    }
    this.#line(1, ...SINGLES.get(one));
  }

  /** The next clock is the first of a byte. */
  #byteIsOver() {
    if (this.#expected === expected.SLAVE_BYTE && this.#listed.length === CLOCKS_OF_A_BYTE) {
      this.#expected = this.#listed[7] ? expected.READ : expected.WRITTEN; // the eighth bit asks for reading
    }
    this.#listed = [];
  }

  /** The clocks so far as one line: a byte if they are whole and the script has a word for it. */
  #listClocks() {
    const levels = this.#levels;
    this.#levels = [];
    if (levels.length > 0) {
      const [notation, words] = this.#notation(levels);
      this.#line(levels.length, notation, words);
      this.#listed.push(...levels);
    }
  }

  #notation(levels) {
    const isWhole = levels.length === CLOCKS_OF_A_BYTE;
    const byte = levels.slice(0, 8).reduce((sum, level) => sum * 2 + (level ? 1 : 0), 0);
    const ninthIsHigh = levels.at(-1);
    if (isWhole && this.#expected === expected.READ && byte === 0xFF) {
      return ninthIsHigh ? ['R', 'read, not acknowledged'] : ['r+', 'read, acknowledged'];
    }
    if (isWhole && this.#expected === expected.SLAVE_BYTE && ninthIsHigh) {
      return [byteWords(byte), `slave byte: ${namedBy(byte)}`];
    }
    if (isWhole && this.#expected === expected.WRITTEN && ninthIsHigh) {
      return [byteWords(byte), 'byte written'];
    }
    return [`{${levels.map((level) => (level ? '1' : '0')).join('')}}`, this.#clockWords(levels.length)];
  }

  #clockWords(count) {
    const place = this.#expected === expected.NOTHING ? 'outside a transfer' : 'of a byte';
    return `${count} clock${plural(count)} ${place}`;
  }
}
