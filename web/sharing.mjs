// SPDX-License-Identifier: Apache-2.0
/**
 * Two masters play a script in turns on one FM3130, as `fm3130 share` does: each turn asks for the bus and is one call.
 * Who holds the bus, and what is refused, is the proved module's word. What is told of an answered turn is what the
 * same events do on a copy of the device, which must end as the shared one does.
 */
import { event, master } from './fm3130.mjs';
import { Player } from './player.mjs';
import { eventsOf, parseTurns, planOf, Problem, totalOf } from './script.mjs';
import { stateOf } from './state.mjs';

/** The most events of a turn: it is one call, so all of them are in memory at once. */
const MOST_EVENTS = 1000000;

/** The masters by their letters in a script. */
const MASTERS = Object.freeze({
  a: { number: master.RIG, name: 'rig' },
  b: { number: master.HANDHELD, name: 'handheld' },
});

/** The letter of whoever holds the bus by its byte; null where nobody does. */
function letterOf([byte]) {
  return Object.keys(MASTERS).find((letter) => MASTERS[letter].number === byte) ?? null;
}

/** Who holds the bus, in words. */
export function heldBy(letter) {
  return letter === null ? 'nobody' : `${letter} (${MASTERS[letter].name})`;
}

/** The turns of a text, each { letter, words, place, plan }; throws the first Problem. */
export function turnsOfText(text) {
  return parseTurns(text).map(({ letter, items, words, place }) => {
    const plan = planOf(items);
    const total = totalOf(plan);
    if (total > MOST_EVENTS) {
      throw new Problem(place, `a turn has ${total} events; it may have ${MOST_EVENTS}`);
    }
    return { letter, words, place, plan };
  });
}

/** Two masters, a device that they share, and a script that they play. It is used as a Player is. */
export class SharedPlayer {
  #standIn;
  #bus; // the byte that says who holds the bus
  #telling = null; // an answered turn that is not yet told: { turn, teller }

  constructor(standIn, device) {
    this.#standIn = standIn;
    this.origin = device;
    this.plan = [];
    this.startOver();
  }

  /** The device as it was at first, the bus free, and the script at its beginning. */
  startOver() {
    this.device = this.origin.clone();
    this.#bus = Uint8Array.of(master.NOBODY);
    this.first = stateOf(this.device.image);
    this.firsts = [this.first];
    this.happenings = [];
    /** The turns played: { letter, words, refusal, during, after }, where a refusal is null or a number. */
    this.played = [];
    this.done = 0;
    this.rewind();
  }

  use(turns) {
    this.plan = turns;
    this.rewind();
  }

  rewind() {
    this.step = 0;
    this.unmet = [];
    this.#telling = null;
  }

  get isAtStart() {
    return this.step === 0;
  }

  get isAtEnd() {
    return this.step >= this.plan.length && this.#telling === null;
  }

  /** The place in the text of the turn that is being told, or of the next; undefined at the end. */
  get place() {
    return (this.#telling?.turn ?? this.plan[this.step])?.place;
  }

  get states() {
    return [stateOf(this.device.image)];
  }

  get lamps() {
    return 0; // no proving record is kept of two masters
  }

  /** Who holds the bus: a, b or null. */
  get holder() {
    return letterOf(this.#bus);
  }

  /** What happened; nothing of a turn is left under way. */
  get pending() {
    return [];
  }

  /** Plays the next turn, or tells the rest of the last; false at the end. */
  nextByte() {
    while (this.someEvents() && this.#telling !== null);
    return !this.isAtEnd;
  }

  nextEvent() {
    return this.nextByte();
  }

  /**
   * Plays the next turn, which is one call, or tells some of it; false at the end. So a long turn can be told by and
   * by.
   */
  someEvents() {
    if (this.#telling !== null) {
      this.#tell();
    } else if (!this.isAtEnd) {
      this.#play(this.plan[this.step]);
    }
    return !this.isAtEnd;
  }

  #play(turn) {
    const before = this.device.clone();
    const { refusal, during } = this.#call(turn);
    this.step += 1;
    const after = this.holder;
    this.played.push({ letter: turn.letter, words: turn.words, refusal: refusal?.number ?? null, during, after });
    if (refusal !== null) {
      this.#tellRefused(turn, refusal);
      return;
    }
    const teller = new Player(before);
    teller.use(turn.plan);
    this.#telling = { turn, teller };
  }

  /** Asks for the bus, where the turn has Starts, Stops or Clocks, and calls. */
  #call({ letter, plan }) {
    const { number } = MASTERS[letter];
    const events = Uint8Array.from(eventsOf(plan));
    const needsBus = events.some((one) => one <= event.CLOCK_HIGH);
    const asked = needsBus ? this.#standIn.ask(this.#bus, number) : { number: 0 };
    const during = this.holder;
    const outcome = asked.number === 0 ? this.device.call(this.#bus, number, events) : asked;
    this.done += outcome.number === 0 ? events.length : 0;
    return { refusal: outcome.number === 0 ? null : outcome, during };
  }

  #say(words, tone) {
    this.happenings.push({ kind: 'said', words, tone, lamps: 0 });
  }

  #who({ letter }) {
    return `${letter}: ${MASTERS[letter].name}`;
  }

  #tell() {
    const { turn, teller } = this.#telling;
    if (teller.someEvents()) {
      return;
    }
    this.#telling = null;
    teller.grouping.finish();
    if (teller.device.image.some((byte, place) => byte !== this.device.image[place])) {
      throw new Error('the copy that tells of a turn ended otherwise than the shared device');
    }
    this.#say(this.#who(turn), 'turn');
    teller.happenings.forEach((happening) => this.happenings.push(happening));
    this.#say(`        bus: ${heldBy(this.holder)}`, 'aside');
    this.unmet.push(...teller.unmet);
  }

  /** A refused turn did nothing, so that nothing that it expects came about. */
  #tellRefused(turn, { number, words }) {
    const refused = `${words} (number ${number})`;
    this.#say(`${this.#who(turn)}, refused: ${refused}; held by ${heldBy(this.holder)}`, 'refused');
    const expecting = turn.plan.filter(({ expected }) => expected !== undefined);
    const places = new Set(expecting.map(({ place }) => place));
    this.unmet.push(...[...places].map((place) =>
      new Problem(place, `expected something, and the turn is refused: ${refused}`)));
  }
}
