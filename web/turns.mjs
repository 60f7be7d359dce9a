// SPDX-License-Identifier: Apache-2.0
/** A picture (SVG) of turns, as `fm3130 share --svg` makes it: a line for each master, and who holds the bus. */
import { BOX, FAINT, fitted, INK, sentBy, svgOf, text } from './drawing-page.mjs';
import { oneDecimal } from './text.mjs';

/** The width of a turn, and of the names before the first. */
const TURN = 150;
const LEFT = 110;

/** The height of the head, of a lane, and of a box in it. */
const HEAD = 62;
const LANE = 46;
const BOX_HEIGHT = 34;

/** Turns that stand side by side; then a new row begins. */
export const A_ROW = 7;

/** A picture with more turns would be none any more: it stops and says so. */
const MOST_TURNS = 4000;

/** The three lanes of a row, from the top, and the height of a row. */
const LANES = ['a: rig', 'bus held by', 'b: handheld'];
export const TURNS_ROW = LANE * LANES.length + 24;
/** The width of a picture. */
export const TURNS_WIDTH = LEFT + TURN * A_ROW + 20;

/** The edge of what was refused: a strong red, so that it is seen in the row. */
const REFUSED = '#c02020';

const colorOf = (letter) => (letter === 'a' ? BOX.SENT_BY_MASTER : sentBy(0));

/** The whole picture. */
export function pictureOf(title, played) {
  const all = played.slice(0, MOST_TURNS);
  const rows = Array.from({ length: Math.ceil(all.length / A_ROW) }, (_, index) => turnsRow(all, index));
  const stops = played.length > MOST_TURNS
    ? text(LEFT, 58, 10, 'start', REFUSED, `the picture stops after ${MOST_TURNS} turns`) : '';
  const placed = rows.map((row, index) => `<g transform="translate(0,${HEAD + TURNS_ROW * index})">\n${row}</g>\n`);
  const height = HEAD + TURNS_ROW * Math.max(rows.length, 1) + 10;
  return svgOf(TURNS_WIDTH, height, turnsHead(title) + stops + placed.join(''));
}

/** All of a picture that is above the first row. */
export function turnsHead(title) {
  const words = 'A box is a turn. Dashed: refused by number 7. Between the masters: who holds the bus, '
    + 'during the turn and after it.';
  return text(20, 26, 15, 'start', INK, title) + text(20, 46, 10, 'start', FAINT, words);
}

/** One row of turns. */
export function turnsRow(played, index) {
  const names = LANES.map((name, lane) => text(20, LANE * lane + 22, 11, 'start', INK, name));
  const turns = played.slice(index * A_ROW, (index + 1) * A_ROW).map((turn, place) => {
    const x = LEFT + TURN * place;
    return turnAt(x, turn) + holderAt(x, TURN * 0.7, turn.during) + holderAt(x + TURN * 0.7, TURN * 0.3, turn.after);
  });
  return [...names, ...turns].join('');
}

/** The box of a turn in its master's lane. */
function turnAt(x, { letter, words, refusal }) {
  const top = letter === 'a' ? 0 : LANE * 2;
  const [color, dashes] = refusal === null ? [colorOf(letter), 'none'] : ['#ffffff', '4 3'];
  const outcome = refusal === null ? 'answered' : `refused, number ${refusal}`;
  const middle = x + TURN / 2;
  return boxed(x + 2, top, TURN - 4, color, dashes)
    + text(middle, top + 14, 9, 'middle', INK, fitted(words, TURN - 12, 9))
    + text(middle, top + 28, 9, 'middle', FAINT, outcome);
}

/** Who holds the bus over a stretch. */
function holderAt(x, width, letter) {
  const [color, name] = letter === null ? [BOX.UNHEARD, 'free'] : [colorOf(letter), letter];
  return boxed(x, LANE, width, color, 'none') + text(x + width / 2, LANE + 21, 10, 'middle', INK, name);
}

function boxed(x, y, width, color, dashes) {
  const edge = dashes === 'none' ? FAINT : REFUSED;
  return `<rect x="${oneDecimal(x)}" y="${oneDecimal(y)}" width="${oneDecimal(width)}" height="${BOX_HEIGHT}" rx="3" `
    + `fill="${color}" stroke="${edge}" stroke-width="0.8" stroke-dasharray="${dashes}"/>\n`;
}
