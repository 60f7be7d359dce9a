// SPDX-License-Identifier: Apache-2.0
/** One row of a drawing: cells from left to right above the wires SCL, SDA and ACS, and the lamps. */
import { BOX, DARK, FAINT, fitted, INK, LEFT, LIT, PULLERS, sentBy, text, WIDTH } from './drawing-page.mjs';
import { digitsOf, direction, isAcknowledged, valueOf } from './happenings.mjs';
import { isSamePin, pinFunction, pinWords } from './state.mjs';
import { byteWords, oneDecimal } from './text.mjs';

/** Where the wires end at most. */
const RIGHT = WIDTH - 18;
/** How far the wires go on after the last cell. */
const REST = 12;
/** The width of a clock that carries data. */
const CLOCK = 13;
/** The width of the ninth clock, which has words in it. */
const NINTH = 32;
/** The width of a Start or a Stop. */
export const EDGE = 30;
/** The width of ticks and power events. */
export const ASIDE = 66;
/** The width of a whole byte. */
export const BYTE = 8 * CLOCK + NINTH;

// Heights inside a row, from the top.
const LABEL = 14;
const BOX_TOP = 19;
const BOX_HEIGHT = 20;
const BOX_TEXT = 33;
const CLOCK_HIGH = 52;
const CLOCK_LOW = 68;
const DATA_HIGH = 80;
const DATA_LOW = 98;
const DIGITS = 109;
const PIN_HIGH = 120;
const PIN_LOW = 132;
const LAMP = 156; // the first lamp's line, and how far the next is below it
const NEXT_LAMP = 6;
const LAMPS = [0, 1, 2, 3, 4, 5, 6, 7];

/** The number of a lamp, before its line. */
const lampNumber = (lamp) => text(LEFT - 4, LAMP + NEXT_LAMP * lamp + 3, 8, 'end', FAINT, `${lamp}`);

/** The name of the lamps, and the numbers of the first and the last. */
const LAMP_NAMES = text(20, LAMP + NEXT_LAMP * 3.5 + 3, 10, 'start', FAINT, 'lamps')
  + [LAMPS.at(0), LAMPS.at(-1)].map(lampNumber).join('');

/** The height of a row, with or without the eight lamps. */
export function heightOfRow(hasLamps) {
  return 150 + (hasLamps ? NEXT_LAMP * LAMPS.length + 14 : 0);
}

/** The width of a byte, whole or cut. */
export function widthOfByte(byte) {
  const data = Math.min(byte.clocks.length, 8) * CLOCK;
  return byte.clocks.length === 9 ? data + NINTH : Math.max(data, NINTH);
}

/** The colours of a byte's sender and taker. */
function sidesOf({ direction: way, device }) {
  switch (way) {
    case direction.WRITE: return [BOX.SENT_BY_MASTER, sentBy(device)];
    case direction.READ: return [sentBy(device), BOX.SENT_BY_MASTER];
    default: return [BOX.UNHEARD, BOX.UNHEARD];
  }
}

const clockHeight = (isHigh) => (isHigh ? CLOCK_HIGH : CLOCK_LOW);
const dataHeight = (puller) => (puller === 'nobody' ? DATA_HIGH : DATA_LOW);

/** True when the pin gives a frequency. */
const toggles = (pin) => pin.function === pinFunction.SQUARE_WAVE || pin.function === pinFunction.CALIBRATION;

/** High, low, or between them while it toggles. */
function pinHeight(pin) {
  if (toggles(pin)) {
    return (PIN_HIGH + PIN_LOW) / 2;
  }
  return pin.alarm ? PIN_LOW : PIN_HIGH;
}

/** What the pin does, below its line. */
const pinLabel = (x, pin) => text(x + 2, PIN_LOW + 10, 8, 'start', FAINT, pinWords(pin));

/** Who pulls at a clock of a byte that a device of a set hears or sends, or the one device. */
function pullerAt({ masterIsHigh, devicePulls }, device) {
  if (masterIsHigh) {
    return devicePulls ? `device${device ?? ''}` : 'nobody';
  }
  return devicePulls ? 'both' : 'master';
}

/** A line of one colour; nothing if it has no points. */
function path(points, color, width) {
  return points === '' ? ''
    : `<path d="${points}" fill="none" stroke="${color}" stroke-width="${width}" stroke-linecap="round"/>\n`;
}

/** One row, on which the wires go on from the row before. */
export class Row {
  #x = LEFT; // where the next cell begins
  #dataFrom = LEFT; // where SDA was changed last
  #pinFrom = LEFT;
  #lampsFrom = LEFT;
  #shapes; // boxes and texts
  #clock; // the path of SCL
  #data = Object.fromEntries(Object.keys(PULLERS).map((puller) => [puller, ''])); // the paths of SDA, by who pulls

  /** A row; the lamps are drawn below its wires or not. */
  constructor(wires, hasLamps) {
    this.wires = { ...wires };
    this.hasLamps = hasLamps;
    const names = [['SCL', CLOCK_LOW], ['SDA', DATA_LOW], ...(wires.hasPin ? [['ACS', PIN_LOW]] : [])];
    this.#shapes = names.map(([name, y]) => text(20, y - 4, 10, 'start', FAINT, name)).join('')
      + (hasLamps ? LAMP_NAMES : '')
      + (wires.hasPin ? pinLabel(LEFT, wires.pin) : '');
    this.#clock = `M${LEFT} ${clockHeight(wires.clockIsHigh)}`;
  }

  /** True when a cell of some width fits; a first cell always does. */
  hasRoom(width) {
    return this.#x === LEFT || this.#x + width <= RIGHT;
  }

  /** SCL changes at a place. */
  #clockTo(x, isHigh) {
    if (this.wires.clockIsHigh !== isHigh) {
      this.#clock += `H${oneDecimal(x)}V${clockHeight(isHigh)}`;
      this.wires.clockIsHigh = isHigh;
    }
  }

  /** SDA changes at a place: what it was is drawn up to there. */
  #dataTo(x, puller) {
    const before = this.wires.puller;
    if (before === puller) {
      return;
    }
    const [from, to] = [dataHeight(before), dataHeight(puller)];
    this.#data[before] += `M${oneDecimal(this.#dataFrom)} ${from}H${oneDecimal(x)}`;
    if (from !== to) {
      this.#data[puller] += `M${oneDecimal(x)} ${from}V${to}`;
    }
    this.#dataFrom = x;
    this.wires.puller = puller;
  }

  /** A Start: SDA falls while SCL is high. */
  start(isRepeated) {
    const x = this.#x;
    this.#dataTo(x + 4, 'nobody');
    this.#clockTo(x + 10, true);
    this.#dataTo(x + 17, 'master');
    this.#clockTo(x + 25, false);
    this.#boundaryAt(x);
    this.#boxed(EDGE, BOX.EDGE, isRepeated ? 'Sr' : 'S', false);
    this.#x += EDGE;
  }

  /** A Stop: SDA rises while SCL is high. */
  stop() {
    const x = this.#x;
    this.#clockTo(x + 2, false);
    this.#dataTo(x + 4, 'master');
    this.#clockTo(x + 10, true);
    this.#dataTo(x + 17, 'nobody');
    this.#boundaryAt(x);
    this.#boxed(EDGE, BOX.EDGE, 'P', false);
    this.#x += EDGE;
  }

  /** Ticks or a power event between bytes; the wires rest. */
  aside({ name, words, color }) {
    this.#boundaryAt(this.#x);
    this.#label(ASIDE, ASIDE, words);
    this.#boxed(ASIDE, color, name, false);
    this.#x += ASIDE;
  }

  /** A byte: its meaning, its value, its acknowledge, its clocks. */
  byte(byte, marks) {
    const begin = this.#x;
    const width = widthOfByte(byte);
    this.#boundaryAt(begin);
    this.#label(8 * CLOCK, width, byte.device === null ? byte.label : `@${byte.device} ${byte.label}`);
    this.#boxesOfByte(byte, width);
    byte.clocks.forEach((clock, index) => {
      this.#marksAt(index, marks);
      this.#oneClock(clock, pullerAt(clock, byte.device), index === 8 ? NINTH : CLOCK);
    });
    this.#marksAt(byte.clocks.length, marks);
    this.#x = begin + width;
  }

  /** The device lets go of SDA, since its power is lost. */
  release() {
    const isMaster = this.wires.puller === 'master' || this.wires.puller === 'both';
    this.#dataTo(this.#x + 2, isMaster ? 'master' : 'nobody');
  }

  /** The pin and the lamps after a cell. */
  after({ pin, lamps }) {
    this.#pin(pin);
    if (lamps !== this.wires.lamps) {
      this.#drawLamps();
      this.#lampsFrom = this.#x;
      this.wires.lamps = lamps;
    }
  }

  #pin(pin) {
    if (isSamePin(pin, this.wires.pin)) {
      return;
    }
    this.#drawPin();
    this.#pinPath(`M${oneDecimal(this.#x)} ${pinHeight(this.wires.pin)}V${pinHeight(pin)}`, pin);
    this.#pinFrom = this.#x;
    this.wires.pin = pin;
    this.#shapes += pinLabel(this.#x, pin);
  }

  /** The wires go on a little, so that what the last event left is seen. */
  rest() {
    this.#x += REST;
  }

  /** The row as text, with all wires drawn to its end. */
  text() {
    this.#drawPin();
    this.#drawLamps();
    const end = oneDecimal(this.#x);
    const { puller } = this.wires;
    const data = { ...this.#data };
    data[puller] += `M${oneDecimal(this.#dataFrom)} ${dataHeight(puller)}H${end}`;
    const wires = Object.keys(data).map((one) => path(data[one], PULLERS[one], one === 'nobody' ? 1.4 : 2.2));
    return this.#shapes + path(`${this.#clock}H${end}`, INK, 1.3) + wires.join('');
  }

  /** The value in the sender's colour, and the acknowledge in its giver's. */
  #boxesOfByte(byte, width) {
    const [sender, taker] = sidesOf(byte);
    const isCut = byte.clocks.length < 9;
    if (byte.isStray || byte.clocks.length < 8) {
      this.#boxed(width, sender, digitsOf(byte), isCut);
      return;
    }
    const value = `${byteWords(valueOf(byte))}h`;
    if (isCut) {
      this.#boxed(width, sender, value, isCut);
      return;
    }
    this.#boxed(width - NINTH, sender, value, isCut);
    this.#x += width - NINTH;
    const [color, name] = isAcknowledged(byte) ? [taker, 'ACK'] : [BOX.NOT_ACKNOWLEDGED, 'NACK'];
    this.#boxed(NINTH, color, name, false);
    this.#x -= width - NINTH;
  }

  /** A whole pulse of SCL with SDA steady. */
  #oneClock(clock, puller, width) {
    const x = this.#x;
    const middle = x + width / 2;
    this.#clockTo(x + 1, false);
    this.#dataTo(x + 2, puller);
    this.#clockTo(middle - CLOCK * 0.2, true);
    this.#clockTo(middle + CLOCK * 0.25, false);
    this.#shapes += text(middle, DIGITS, 8, 'middle', FAINT, clock.lineIsHigh ? '1' : '0');
    this.#x += width;
  }

  /** What happened after so many clocks of the byte: a small arrow with a name. */
  #marksAt(clocks, marks) {
    for (const mark of marks.filter((one) => one.clocks === clocks)) {
      const x = this.#x;
      this.#shapes += `<path d="M${oneDecimal(x - 3)} ${BOX_TOP + BOX_HEIGHT + 2}h6l-3 6z" fill="${PULLERS.both}"/>\n`
        + text(x, CLOCK_LOW + 8, 8, 'middle', PULLERS.both, mark.name);
      this.after(mark);
    }
  }

  /** The lamps up to here: a broad line where one is lit, the first lamp's above. */
  #drawLamps() {
    const { lamps } = this.wires;
    if (this.hasLamps) {
      this.#shapes += LAMPS.map((lamp) => {
        const points = `M${oneDecimal(this.#lampsFrom)} ${LAMP + NEXT_LAMP * lamp}H${oneDecimal(this.#x)}`;
        return (lamps >> lamp) & 1 ? path(points, LIT, 4) : path(points, DARK, 1);
      }).join('');
    }
  }

  /** The pin up to here. */
  #drawPin() {
    const { pin, hasPin } = this.wires;
    if (!hasPin) {
      return;
    }
    this.#pinPath(`M${oneDecimal(this.#pinFrom)} ${pinHeight(pin)}H${oneDecimal(this.#x)}`, pin);
  }

  /** A line in the colour of the pin; dotted while it toggles. */
  #pinPath(points, pin) {
    this.#shapes += `<path d="${points}" fill="none" stroke="${pin.alarm ? PULLERS.device : FAINT}" `
      + `stroke-width="1.3" stroke-dasharray="${toggles(pin) ? '2 2' : 'none'}"/>\n`;
  }

  /** A faint line where a cell begins, so that boxes and wires are seen to belong together. */
  #boundaryAt(x) {
    this.#shapes += `<path d="M${oneDecimal(x)} ${BOX_TOP + BOX_HEIGHT}V${DIGITS}" stroke="#e1e5ea" `
      + 'stroke-width="0.8"/>\n';
  }

  /** Words above the box that a cell begins with; they may use the width of the whole cell. */
  #label(widthOfBox, width, words) {
    const middle = this.#x + Math.min(widthOfBox, width) / 2;
    this.#shapes += text(middle, LABEL, 9, 'middle', INK, fitted(words, width, 9));
  }

  /** A box with a name in it; dashed if the byte was cut. */
  #boxed(width, color, name, isCut) {
    this.#shapes += `<rect x="${oneDecimal(this.#x + 1)}" y="${BOX_TOP}" width="${oneDecimal(width - 2)}" `
      + `height="${BOX_HEIGHT}" rx="3" fill="${color}" stroke="${FAINT}" stroke-width="0.6" `
      + `stroke-dasharray="${isCut ? '3 2' : 'none'}"/>\n`
      + text(this.#x + width / 2, BOX_TEXT, name.length > 3 ? 9 : 11, 'middle', INK, name);
  }
}
