// SPDX-License-Identifier: Apache-2.0
/** Random bus scripts, sensible ones and wrong ones. */

const byte = (random) => random.below(256).toString(16).toUpperCase().padStart(2, '0');

/** A time in BCD as a written calendar, which need not exist. */
const calendar = (random) => [0x60, 0x60, 0x24, 8, 0x32, 0x13, 0x9A]
  .map((limit) => random.below(limit).toString(16).padStart(2, '0')).join(' ');

const clocks = (random) => `{${Array.from({ length: 1 + random.below(10) }, () => random.below(2)).join('')}}`;

/** What cuts a byte short, or may happen inside one. */
const CUTS = [']', '[', 't', 'lost', 'gone', 'power t'];
const INSIDE = ['t', 'power', 't*2 power t', 'lost'];

/** Pieces of a script; each is drawn with equal chance. */
const PIECES = [
  (random) => `[ A0 ${byte(random)} ${byte(random)} ${byte(random)}:${1 + random.below(4)} ]`,
  (random) => `[ A0 ${byte(random)} ${byte(random)} [ A1 r:${1 + random.below(5)} ]`,
  (random) => `[ D0 0${random.below(16).toString(16)} ${byte(random)} ${byte(random)} ]`,
  (random) => `[ D0 00 [ D1 r:${1 + random.below(17)} ]`,
  (random) => `[ D0 0${random.below(15).toString(16)} [ D1 r ${random.pick(['t ', ''])}r+ R ]`,
  (random) => `[ D0 00 02 ] [ D0 02 ${calendar(random)} ] [ D0 00 00 ]`,
  () => '[ D0 01 00 ]',
  (random) => `[ D0 0E ${random.pick(['00', '08', '10', '18', '80', '98', 'FF'])} ]`,
  (random) => `[ D0 09 ${random.pick(['80', '05', '30'])} 80 80 80 80 ] [ D0 00 ${random.pick(['08', '0C', '00'])} ]`,
  (random) => `t*${1 + random.below(130)}`,
  (random) => random.pick(['lost', 'gone', 'power', 'lost t*3 power', 'gone [ A0 ] power']),
  (random) => `[ ${random.pick(['A0', 'D0', 'A1', 'D1'])} ${clocks(random)} ${random.pick(CUTS)}`,
  (random) => `${clocks(random)} ${random.pick(['t', '', ']', '[', 'power'])}`,
  (random) => `[ ${byte(random)} ${byte(random)} r ]`,
  (random) => `[ A0 00 ${random.pick(INSIDE)} {0101} ${random.pick(INSIDE)} {0101} {${random.below(2)}} ${byte(random)} ]`,
  () => '[ {101000000} {000000010} {111100000} ]',
  (random) => `# ${byte(random)} lots\n// [ ]\n`,
];

/** Pieces for a part with counters: its registers are 09h to 18h, and an edge is c1 or c2, in a set with a device. */
const register = (random) => (8 + random.below(18)).toString(16).padStart(2, '0');
const slave = (base, { selects }, random) => (base + 2 * random.pick(selects)).toString(16).toUpperCase();
const edge = ({ named }, random) => `${random.pick(['c1', 'c2'])}${named(random)}`;
const COUNTING_PIECES = [
  (random, cast) => `[ ${slave(0xA0, cast, random)} ${byte(random)} ${byte(random)} ${byte(random)}:${1 + random.below(4)} ]`,
  (random, cast) => {
    const select = { selects: [random.pick(cast.selects)] };
    return `[ ${slave(0xA0, select, random)} ${byte(random)} 10 [ ${slave(0xA1, select, random)} r:${1 + random.below(5)} ]`;
  },
  (random, cast) => `[ ${slave(0xD0, cast, random)} ${register(random)} ${byte(random)} ${byte(random)} ]`,
  (random, cast) => {
    const select = { selects: [random.pick(cast.selects)] };
    const inside = random.pick([`{1111} ${edge(cast, random)} {11110}`, `r ${edge(cast, random)}`, 'r:3']);
    return `[ ${slave(0xD0, select, random)} ${register(random)} [ ${slave(0xD1, select, random)} ${inside} r:4 ]`;
  },
  (random, cast) => `[ ${slave(0xD0, cast, random)} 0C ${random.pick(['08', '0C', '04', '00', '0B'])} ]`,
  (random, cast) => `[ ${slave(0xD0, cast, random)} 0D FE FF FF ${random.pick(['FF', '00'])} ]`,
  (random, cast) => `[ ${slave(0xD0, cast, random)} 0B ${random.pick(['00', '08', '10', '18', '80', '87'])} ]`,
  (random, cast) => `${edge(cast, random)}*${1 + random.below(5)}`,
  (random, cast) => `${edge(cast, random)} ${edge(cast, random)} ${edge(cast, random)}`,
  (random) => `t*${1 + random.below(130)}`,
  (random, cast) => `${random.pick(['lost', 'gone', 'power', 'lost t*3 power'])} ${edge(cast, random)}`,
  (random, cast) => `[ ${slave(0xA0, cast, random)} ${clocks(random)} ${random.pick([...CUTS, edge(cast, random)])}`,
  (random, cast) => `${clocks(random)} ${edge(cast, random)} ${random.pick(['t', '', ']', '['])}`,
  (random) => `[ ${byte(random)} ${byte(random)} r ]`,
  (random, cast) => {
    const [one, other] = [edge(cast, random), edge(cast, random)];
    return `[ ${slave(0xA0, cast, random)} 00 ${one} {0101} t ${other} {01011} ${byte(random)} ]`;
  },
  (random, cast) => `[ ${slave(0xA0, cast, random)} 00 [ ${slave(0xD0, cast, random)} 11 ${byte(random)}:3 ] power`,
];

/** What a script of a part with counters is made of: one device, and a set with these select bits. */
export const ONE_WITH_COUNTERS = { selects: [0, 0, 0, 1], named: () => '' };
export const ofSet = (selects) => ({ selects: [0, 1, 2, 3], named: (random) => `@${random.pick(selects)}` });

/** A script of some pieces. */
export function randomScript(random, cast = null) {
  const pieces = cast === null ? PIECES : COUNTING_PIECES;
  const chosen = Array.from({ length: 1 + random.below(12) }, () => random.pick(pieces)(random, cast));
  return chosen.join(random.pick([' ', '\n', ', ', '\r\n']));
}

/** Words that are wrong, nearly wrong, or strange. */
const ODDITIES = [
  'lots', 'c1', 'c2*3', 'c1@0', 'c2@2', 'c1@', 'c1@02', 'c2@x@y', 'c3@1', 'c1@0+', 'r@1',
  'A0D0', '5', '0x', '0x1FF', '0xG0', '0X5', 'T', 'Lost', '\u0007', '/', 'A0/', 'A0//x', '00000000000000000000000',
  't* 60', 't *60', 't*0', 't*99999999999', 't*4294967296', 't*١', 't:2:3', 'r:8x', 'r++', 'R:1_0', 'r:_', 'FF*²',
  '{012}', '{01', '{}', '{ 0,1 }', '{0 # 1}', '{01}*', '}', ':', '*', '[:2', ']*0',
  'r=5', 'r=', 'R=5A+', 'A0=1', 'A0+', '0x5-', 'FF+*3', 'r=c1:2', 'c1+', 'pin=low', 'pin=up', 'pin=low*2', 'pin', 'a:', 'b:8',
  'powr', 'lst', 'gnoe', '=', '+', 'A0++',
  'é', 'ß0', '日本', '😀', '😀 lots', '\tlots', '\uFEFFt', '\u2028', '\u0085', '\r',
];

/** A script with something odd in it. */
export function wrongScript(random, cast = null) {
  const piece = () => random.pick(cast === null ? PIECES : COUNTING_PIECES)(random, cast);
  const line = [...Array.from({ length: random.below(3) }, piece), random.pick(ODDITIES), piece()].join(random.pick([' ', ' ', '\n', '\t']));
  return line + random.pick(['', '\n', '\r\n', '\r']);
}
