// SPDX-License-Identifier: Apache-2.0
/**
 * The drawing of a run that goes on. Where each row begins is kept, and a row is drawn when it is asked for: so a long
 * run costs no more to look at than a short one.
 */
import { beginOf, Cells } from './drawing.mjs';

/** More cells are not drawn: a window is no higher than some millions of points. */
const MOST_CELLS = 200000;

export class Strip {
  #starts; // where the rows begin; the last one is not full
  #cells;
  #taken = 0;

  /** A drawing of a run that begins in a state. */
  constructor(state) {
    this.#starts = [beginOf(state)];
    this.#cells = new Cells(this.#starts[0], false, (row, next) => this.#starts.push(next), MOST_CELLS);
    /** Whether a lamp was lit; then lamps are drawn. */
    this.hasLamps = false;
  }

  /** Follows what has happened since it was last called, as far as it is drawn. */
  follow(happenings) {
    for (; this.#taken < happenings.length && !this.isCut; this.#taken += 1) {
      this.#cells.take(happenings[this.#taken], this.#taken);
      this.hasLamps ||= happenings[this.#taken].lamps !== 0;
    }
  }

  /** Whether it stops before the end of the run. */
  get isCut() {
    return this.#cells.isCut;
  }

  /**
   * The rows of what has happened, with what is under way: { count, full, hasLamps, textOf }, where the full ones
   * change no more and textOf draws one of them. It holds until more happens.
   */
  rows(happenings, pending) {
    this.follow(happenings);
    const underWay = this.isCut ? [] : pending;
    const hasLamps = this.hasLamps || underWay.some(({ lamps }) => lamps !== 0);
    const start = this.#starts.at(-1);
    const last = this.#rowsFrom(start, [...happenings.slice(start.from, this.#taken), ...underWay], hasLamps);
    const full = this.#starts.length - 1;
    const textOf = (index) => (index < full ? this.#fullRow(index, happenings, hasLamps) : last[index - full]);
    return { count: full + last.length, full, hasLamps, textOf };
  }

  /** The text of a row that is full. */
  #fullRow(index, happenings, hasLamps) {
    const shown = happenings.slice(this.#starts[index].from, this.#starts[index + 1].until + 1);
    return this.#rowsFrom(this.#starts[index], shown, hasLamps)[0];
  }

  /** The texts of the rows of some happenings, from where a row begins. */
  #rowsFrom(start, happenings, hasLamps) {
    const texts = [];
    const cells = new Cells(start, hasLamps, (row) => texts.push(row.text()), MOST_CELLS);
    happenings.forEach((happening, index) => cells.take(happening, start.from + index));
    cells.finish();
    return texts;
  }
}
