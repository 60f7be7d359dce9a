// SPDX-License-Identifier: Apache-2.0
/**
 * A recording of the two wires, read from a waveform file (VCD) of any length, as events and levels; as the command
 * reads it (docs/CAPTURE.md). A recording begins once the file has given a level of each wire: the first levels are no
 * edges.
 *
 * A waveform shows the level of SDA and not who pulls it. Where the line is low, the master is taken to pull it, but
 * where the protocol says that it has let go (roles.mjs). Ticks, power and the ACS pin are taken from wires that are
 * called as our own waveforms call them, where there are any.
 */
import { event } from './fm3130.mjs';
import { giver } from './roles.mjs';
import { changeOf, wire, Wires, WIRES } from './recorded-wires.mjs';

/** The most wires that are named where one is not there. */
const MOST_NAMES = 12;

/** The longest word that is read: a file without blanks is no waveform. */
const MOST_SIGNS = 65536;

/** The number of ticks that a pulse stands for, in our own waveforms. */
const NUMBER = 'TICKS';

/** The wires beside the bus, as our own waveforms name them. */
const BESIDE = [
  ['TICK', wire.TICK],
  ['VDD', wire.MAIN_POWER],
  ['SUPPLIED', wire.SUPPLIED],
  ['ACS', wire.PIN],
  ['ACS_F1', wire.FUNCTION_HIGH],
  ['ACS_F0', wire.FUNCTION_LOW],
];

/** What is wrong with a waveform. */
export class BadWaveform extends Error {}

/** So many Clocks, in words. */
export function clocksWords(count) {
  return count === 1 ? '1 Clock' : `${count} Clocks`;
}

const isBlank = (byte) => byte === 32 || byte === 10 || byte === 13 || byte === 9 || byte === 12;

/** The words of a file, one after the other. */
class Words {
  #at = 0;
  #decoder = new TextDecoder();

  constructor(file) {
    this.file = file;
  }

  /** The next word; null at the end. */
  next() {
    const { file } = this;
    while (this.#at < file.length && isBlank(file[this.#at])) {
      this.#at += 1;
    }
    const begin = this.#at;
    while (this.#at < file.length && !isBlank(file[this.#at])) {
      this.#at += 1;
    }
    if (this.#at - begin > MOST_SIGNS) {
      throw new BadWaveform('it is no waveform file: it has a word of more than 65,536 signs');
    }
    return begin === this.#at ? null : this.#decoder.decode(file.subarray(begin, this.#at));
  }

  /** The words up to `$end`. */
  upToEnd() {
    const words = [];
    for (let word = this.next(); word !== null && word !== '$end'; word = this.next()) {
      words.push(word);
    }
    return words;
  }
}

/** Mark and name of every wire of a head, which must end. */
function wiresOfHead(words) {
  const wires = [];
  for (let word = words.next(); word !== null; word = words.next()) {
    if (word === '$enddefinitions') {
      return wires;
    }
    if (['$comment', '$date', '$version'].includes(word)) {
      words.upToEnd();
    } else if (word === '$var') {
      const [, , mark, name] = words.upToEnd(); // kind, width, mark, name; more may follow
      if (name !== undefined) {
        wires.push([mark, name]);
      }
    }
  }
  throw new BadWaveform('it is no waveform file, or is cut: its head has no $enddefinitions');
}

/** The mark that stands for a name in the file; undefined where none does. */
function markOf(wires, wanted) {
  return wires.find(([, name]) => name.toLowerCase() === wanted.toLowerCase())?.[0];
}

/** The marks that stand for the wires in the file: the two of the bus must be there. */
function marksOf(wires, names) {
  const [clock, data] = names.map((name) => markOf(wires, name));
  for (const [mark, name] of [[clock, names[0]], [data, names[1]]]) {
    if (mark === undefined) {
      throw new BadWaveform(notThere(name, wires));
    }
  }
  if (clock === data) {
    throw new BadWaveform(`${names[0]} and ${names[1]} are one wire`);
  }
  const marks = new Map([[clock, wire.CLOCK], [data, wire.DATA]]);
  for (const [name, one] of BESIDE) {
    const mark = markOf(wires, name);
    if (mark !== undefined && !marks.has(mark)) {
      marks.set(mark, one);
    }
  }
  return marks;
}

/** Says that a wire is not there, and which are. */
function notThere(name, wires) {
  const names = wires.map(([, one]) => one);
  const more = names.length > MOST_NAMES ? ` and ${names.length - MOST_NAMES} more` : '';
  return names.length === 0 ? `it has no wire ${name}, and no other`
    : `it has no wire ${name}; its wires: ${names.slice(0, MOST_NAMES).join(', ')}${more}`;
}

/** A waveform file that is read piece by piece. */
export class Recording {
  #words;
  #marks;
  #number; // the mark of the number of ticks
  #ticks = 1; // of the next pulse
  #changes = Array(WIRES).fill(null); // at the moment under way
  #isOver = false;
  #swapped; // what would be seen if the two wires of the bus were swapped
  #counts = { events: 0, answers: 0, others: 0, anybody: 0 };

  /**
   * Opens a waveform file, for a device that is in a state before its first event; `names` are those of clock and data.
   */
  constructor(file, names, state) {
    this.names = names;
    this.#words = new Words(file);
    const wires = wiresOfHead(this.#words);
    this.#marks = marksOf(wires, names);
    this.#number = markOf(wires, NUMBER);
    this.wires = new Wires(state);
    this.#swapped = new Wires(state);
  }

  /** The names of the wires beside the bus that there are. */
  get beside() {
    const there = [...this.#marks.values()];
    return BESIDE.filter(([, one]) => there.includes(one)).map(([name]) => name);
  }

  /** The next events, at most so many; none at the end. */
  piece(most) {
    while (!this.#isOver && this.wires.seen.length < most) {
      this.#takeWord();
    }
    if (this.wires.lacksClock) {
      throw new BadWaveform(this.#lacksClock());
    }
    const piece = [];
    let taken = 0;
    while (taken < this.wires.seen.length && piece.length < most) {
      const front = this.wires.seen[taken];
      const some = Math.min(front.times, most - piece.length);
      for (let time = 0; time < some; time += 1) {
        piece.push({ ...front, times: 1 });
      }
      front.times -= some;
      taken += Number(front.times === 0);
    }
    this.wires.seen.splice(0, taken);
    piece.forEach((seen) => this.#count(seen));
    return piece;
  }

  #count({ event: one, giver: who }) {
    const isClock = one === event.CLOCK_LOW || one === event.CLOCK_HIGH;
    this.#counts.events += 1;
    this.#counts.answers += Number(who === giver.PART);
    this.#counts.others += Number(who === giver.OTHERS);
    this.#counts.anybody += Number(isClock && who === giver.ANYBODY);
  }

  #takeWord() {
    const word = this.#words.next();
    if (word === null) {
      this.#step();
      this.wires.finish();
      this.#isOver = true;
    } else if (word.startsWith('#')) {
      this.#step();
    } else if (word === '$comment') {
      this.#words.upToEnd();
    } else if (word.startsWith('r') || word.startsWith('R')) {
      this.#takeNumber(word.slice(1), this.#words.next() ?? '');
    } else if (!word.startsWith('$')) {
      this.#takeChange(word);
    }
  }

  /** A value and its mark; a vector's mark is the next word. */
  #takeChange(word) {
    const isVector = /^[bB]./s.test(word);
    const [value, mark] = isVector ? [word.at(-1), this.#words.next() ?? ''] : [word[0], word.slice(1)];
    const one = this.#marks.get(mark);
    if (one !== undefined) {
      this.#changes[one] = changeOf(value) ?? this.#changes[one];
    }
  }

  /** Our own waveforms have a number of the ticks that one long pulse stands for. */
  #takeNumber(number, mark) {
    if (mark === this.#number && /^\+?[0-9]+$/.test(number) && Number(number) > 0) {
      this.#ticks = Number(number);
    }
  }

  #step() {
    const changes = this.#changes;
    this.#changes = Array(WIRES).fill(null);
    // The number is that of a pulse that begins, and not of the end of the one before.
    const begins = changes[wire.TICK] === true;
    const ticks = begins ? this.#ticks : 1;
    this.#ticks = begins ? 1 : this.#ticks;
    this.wires.step(changes, ticks);
    const [clock, data, ...rest] = changes;
    this.#swapped.step([data, clock, ...rest], 1);
    this.#swapped.seen.length = 0;
  }

  /** Says that the two wires seem to be swapped, if they do: then more slave bytes would name the part. */
  get seemsSwapped() {
    const [named, otherwise] = [this.wires.named, this.#swapped.named];
    const [clock, data] = this.names;
    return otherwise > named ? `nothing to judge: with the wires swapped it names the part, ${otherwise} times, and as `
      + `they are ${named} times; try --scl ${data} --sda ${clock}` : null;
  }

  #lacksClock() {
    return `the image is inside a byte, and a Clock of it may be missing: ${this.names[0]} was high, or moved, before `
      + 'a level of each wire was recorded; begin while it is low';
  }

  /** What was seen in all, after the last piece; throws why nothing was judged by it. */
  finish() {
    const levels = [wire.CLOCK, wire.DATA].map((one) => this.wires.levels[one]);
    const lacking = levels.indexOf(null);
    if (lacking >= 0) {
      throw new BadWaveform(`nothing to judge: it has no level of ${this.names[lacking]}`);
    }
    const words = this.seemsSwapped ?? this.#nothingSeen(levels);
    if (words !== null) {
      throw new BadWaveform(words);
    }
    return { ...this.#counts, named: this.wires.named };
  }

  #nothingSeen(levels) {
    const { events, answers, anybody } = this.#counts;
    const [scl, sda] = levels.map((isHigh) => (isHigh ? 'high' : 'low'));
    const [clock, data] = this.names;
    if (events === 0) {
      return `nothing to judge: it has no Start, no Stop and no whole pulse of ${clock}; at its end ${clock} is ${scl} `
        + `and ${data} is ${sda}`;
    }
    if (answers > 0) {
      return null;
    }
    return anybody === 0 ? 'nothing to judge: no slave byte of the part has its acknowledge clock'
      : `nothing to judge: ${clocksWords(anybody)} outside any transfer, and nothing that names the part`;
  }
}
