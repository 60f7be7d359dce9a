// SPDX-License-Identifier: Apache-2.0
/**
 * A drawing (SVG) of the bus, as `fm3130 run --svg` makes it: the two wires, who pulls them, the bytes and what they
 * mean. Happenings become cells, and cells are put into rows as wide as a page.
 */
import { event } from './fm3130.mjs';
import { BOX, pageOf } from './drawing-page.mjs';
import { ASIDE, BYTE, EDGE, heightOfRow, Row, widthOfByte } from './drawing-row.mjs';
import { phase, pinOf } from './state.mjs';
import { byteWords } from './text.mjs';
import { edgesLabel, edgesNotation } from './transcript.mjs';

/** A drawing with more cells would be no drawing any more: it stops and says so. */
export const MOST_CELLS = 4000;

/**
 * The drawing of some happenings, of a run that begins in a state: with or without the lamps below the wires, with the
 * select bits of the devices if it is of a set, and with an arrow at a clock, counted from 0: { clock, name, pin },
 * where the ACS pin is the one before it.
 */
export function drawingOf(title, state, happenings, { hasLamps = false, set = [], pointed = null } = {}) {
  const rows = [];
  const cells = new Cells(beginOf(state), hasLamps, (row) => rows.push(row.text()));
  cells.pointed = pointed;
  happenings.forEach((happening, index) => cells.take(happening, index));
  cells.finish();
  return pageOf(title, rows, heightOfRow(hasLamps), cells.isCut, set);
}

/** Where a drawing begins: the first happening, the cells before it, and the wires of a run that begins in a state. */
export function beginOf(state) {
  const hasPin = !state.part.hasCounters;
  const wires = { clockIsHigh: state.phase === phase.IDLE, puller: 'nobody', pin: pinOf(state), hasPin, lamps: 0 };
  return { from: 0, cells: 0, wires };
}

/** Makes cells of happenings, and puts them into rows. */
export class Cells {
  #row;
  #tell; // takes each row that is full, and where the next begins: `until` is the happening that had no room
  #cells;
  #most;
  #marks = []; // what happened inside the byte under way; it is drawn with the byte
  #marksFrom = 0; // the happening of the first of them
  #clocks = 0; // the clocks drawn
  #at = 0; // the happening under way

  constructor({ cells, wires }, hasLamps, tell, most = MOST_CELLS) {
    this.hasLamps = hasLamps;
    /** A clock to point at. */
    this.pointed = null;
    this.#row = new Row(wires, hasLamps);
    this.#cells = cells;
    this.#tell = tell;
    this.#most = most;
  }

  /** Whether there were more cells than a drawing has. */
  get isCut() {
    return this.#cells > this.#most;
  }

  /** Takes a happening that has a place among all. */
  take(happening, index) {
    this.#at = index;
    switch (happening.kind) {
      case 'start':
        this.#cell(EDGE + BYTE + EDGE, (row) => row.start(happening.isRepeated)); // stays with its slave byte
        break;
      case 'stop':
        this.#cell(EDGE, (row) => row.stop());
        break;
      case 'byte':
        this.#byte(happening);
        break;
      case 'ticks':
        this.#aside(happening, boxOfTicks(happening));
        break;
      case 'edges':
        this.#aside(happening, boxOfEdges(happening));
        break;
      default:
        if (happening.event !== event.POWER_RETURNED) {
          this.#row.release();
        }
        this.#aside(happening, boxOfPower(happening));
    }
    // What is inside a byte is drawn with the byte, and so are the pin and the lamps after it.
    if (!(happening.inside > 0)) {
      this.#row.after(happening);
    }
  }

  /** No happening follows: the last row is told. */
  finish() {
    if (!this.isCut) {
      this.#row.rest();
    }
    this.#tell(this.#row, null);
  }

  #byte(byte) {
    this.#markPointed(byte.clocks.length);
    const marks = this.#marks;
    this.#marks = [];
    this.#cell(widthOfByte(byte) + EDGE, (row) => row.byte(byte, marks), marks); // leaves room for a Stop
  }

  /** Makes a mark of what is pointed at, if it is in a byte of so many clocks. */
  #markPointed(clocks) {
    if (this.pointed !== null && this.pointed.clock < this.#clocks + clocks) {
      const { clock, name, pin } = this.pointed;
      this.#marks.push({ clocks: Math.max(clock - this.#clocks, 0), name, pin, lamps: this.#row.wires.lamps });
      this.pointed = null;
    }
    this.#clocks += clocks;
  }

  /** Draws a cell where there is room for it, if the drawing is not full. */
  #cell(width, draw, marks = []) {
    this.#cells += 1;
    if (this.isCut) {
      return;
    }
    if (!this.#row.hasRoom(width)) {
      const { wires } = this.#row;
      const from = marks.length > 0 ? this.#marksFrom : this.#at;
      const full = this.#row;
      this.#row = new Row(wires, this.hasLamps);
      this.#tell(full, { from, until: this.#at, cells: this.#cells - 1, wires: { ...wires } });
    }
    draw(this.#row);
  }

  /** A box between bytes, or a mark inside one. */
  #aside({ inside, pin, lamps }, box) {
    if (!(inside > 0)) {
      this.#cell(ASIDE, (row) => row.aside(box));
    } else if (this.#marks.length >= this.#most) {
      this.#cells = this.#most + 1; // more marks in one byte than there may be cells: the drawing is full
    } else {
      this.#marksFrom = this.#marks.length === 0 ? this.#at : this.#marksFrom;
      this.#marks.push({ clocks: inside, name: box.name, pin, lamps });
    }
  }
}

/** The box of a run of ticks: how many, and the time after them. */
function boxOfTicks({ count, after }) {
  const [seconds, minutes, hours] = [...(after.core ?? [])].map(byteWords);
  const words = after.core === null ? 'no clock' : `${hours}:${minutes}:${seconds}`;
  return { name: count === 1 ? 'tick' : `t*${count}`, words, color: BOX.TICK };
}

/** The box of edges on a counter's pin: how many, and the count after them. */
function boxOfEdges(report) {
  return { name: edgesNotation(report), words: edgesLabel(report), color: BOX.COUNT };
}

/** The box of a power event. */
function boxOfPower({ event: one }) {
  const [name, words] = {
    [event.POWER_LOST_WITH_BACKUP]: ['lost', 'on backup'],
    [event.POWER_LOST_WITHOUT_BACKUP]: ['gone', 'no supply'],
  }[one] ?? ['power', 'power on'];
  return { name, words, color: BOX.POWER };
}
