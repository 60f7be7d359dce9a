// SPDX-License-Identifier: Apache-2.0
/** All of a drawing that is not a row: head, legend, colours, texts. */
import { oneDecimal } from './text.mjs';

/** The width of a page. */
export const WIDTH = 1180;
/** Where the wires begin. */
export const LEFT = 52;
/** The height of title and legend. */
export const HEAD = 62;

/** The colours of boxes. */
export const BOX = Object.freeze({
  TICK: '#fbf0c4',
  COUNT: '#e7defa',
  POWER: '#f9d2d2',
  SENT_BY_MASTER: '#dbe9f8',
  UNHEARD: '#eceff3',
  NOT_ACKNOWLEDGED: '#ffffff',
  EDGE: '#dff0df',
});

/** The colour of text. */
export const INK = '#1f2937';
/** The colour of text that is less important. */
export const FAINT = '#6b7280';

/**
 * The colours of the devices of a set, by their select bits: of the line, and of a byte. Every byte has the select bits
 * in words too, for whoever cannot tell four colours apart. A device that is alone has the first ones.
 */
const DEVICES = Object.freeze([
  ['#d2600a', '#fde3cc'],
  ['#0f7b5f', '#d3efe4'],
  ['#a3195b', '#f6d3e6'],
  ['#6b5200', '#e9dfc3'],
]);

/** The colour of a byte that a device sends. */
export function sentBy(device) {
  return DEVICES[device ?? 0][1];
}

/** The colours of SDA by who pulls it, which can be told apart by all eyes and in print, those of a set's left out. */
export const PULLERS = Object.freeze({
  nobody: '#8a94a3',
  master: '#1f5fa8',
  device: DEVICES[0][0],
  both: '#7b3fa0',
  device0: DEVICES[0][0],
  device1: DEVICES[1][0],
  device2: DEVICES[2][0],
  device3: DEVICES[3][0],
});

/** The colours of a lamp that is lit, and of one that is dark. */
export const LIT = '#e0a100';
export const DARK = '#d5dae1';

/** The whole drawing, of rows of some height; of a set, with the select bits of its devices. */
export function pageOf(title, rows, rowHeight, isCut, set) {
  const height = HEAD + rowHeight * rows.length + (isCut ? 30 : 10);
  const placed = rows.map((row, index) => `<g transform="translate(0,${HEAD + rowHeight * index})">\n${row}</g>\n`);
  const foot = isCut ? text(LEFT, height - 12, 11, 'start', INK, 'The drawing stops here; the run goes on.') : '';
  return svgOf(WIDTH, height, `${headOf(title, set)}${placed.join('')}${foot}`);
}

/** A file of some shapes. */
export function svgOf(width, height, shapes) {
  return '<?xml version="1.0" encoding="UTF-8"?>\n'
    + `<svg xmlns="http://www.w3.org/2000/svg" width="${width}" height="${height}" `
    + `viewBox="0 0 ${width} ${height}" font-family="DejaVu Sans, Verdana, sans-serif">\n`
    + `<rect width="100%" height="100%" fill="#ffffff"/>\n${shapes}</svg>\n`;
}

/** Title and legend. */
export function headOf(title, set) {
  const words = 'S Start, Sr repeated Start, P Stop. A box has the colour of whoever sends it.';
  const [legend, left, step] = set.length === 0 ? [LEGEND_OF_ONE, 620, 140] : [legendOfSet(set), 560, 84];
  const entries = legend.map(([puller, name], index) => {
    const x = left + step * index;
    return `<rect x="${x}" y="38" width="18" height="4" fill="${PULLERS[puller]}"/>\n`
      + text(x + 24, 46, 10, 'start', INK, name);
  });
  return text(20, 26, 15, 'start', INK, title) + text(20, 46, 10, 'start', FAINT, words) + entries.join('');
}

const LEGEND_OF_ONE = [
  ['master', 'master pulls SDA'],
  ['device', 'device pulls SDA'],
  ['both', 'both pull'],
  ['nobody', 'released'],
];

/** Who pulls SDA in a set, in few letters: there may be four devices. */
function legendOfSet(set) {
  const devices = set.map((select) => [`device${select}`, `@${select}`]);
  return [['master', 'master'], ...devices, ['both', 'both'], ['nobody', 'released']];
}

/** A text; `anchor` is start, middle or end. */
export function text(x, y, size, anchor, color, words) {
  return `<text x="${oneDecimal(x)}" y="${oneDecimal(y)}" font-size="${size}" text-anchor="${anchor}" `
    + `fill="${color}">${escaped(words)}</text>\n`;
}

/** A text that fits a width, cut if it must be. */
export function fitted(words, width, size) {
  const most = Math.trunc(width / (size * 0.6));
  const signs = [...words];
  return signs.length <= most ? words : `${signs.slice(0, Math.max(most - 1, 0)).join('')}…`;
}

/** A text without signs that mean something in XML, or that XML does not allow at all. */
export function escaped(words) {
  return words.replaceAll('&', '&amp;').replaceAll('<', '&lt;').replaceAll('>', '&gt;').replace(/\p{Cc}/gu, '\uFFFD');
}
