// SPDX-License-Identifier: Apache-2.0
/** What happened, a line for each happening, as `fm3130 run` prints it: the notation in scripts, then words. */
import { edge } from './family.mjs';
import { event } from './fm3130.mjs';
import { digitsOf, direction, isAcknowledged, valueOf } from './happenings.mjs';
import { AF, CALIBRATION, CF, CONTROL, OSCEN } from './registers.mjs';
import { calendarWords, countersOf, countsOf, isJoined, pinWords, power } from './state.mjs';
import { addressWords, byteWords, longWords, plural } from './text.mjs';

/** What the fields of the calendar are said to have done, at their numbers. */
const ROLLED = [
  'nothing passed',
  'a second passed',
  'a minute passed',
  'an hour passed',
  'a date passed',
  'a month passed',
  'a year passed',
];

/** What so many ticks did: where several turned the seconds alone, it was more than one of them. */
const passedWords = (rolled, count) => (rolled === 1 && count > 1 ? 'seconds passed' : ROLLED[rolled]);

const LAMPS = [0, 1, 2, 3, 4, 5, 6, 7];

/** The line of a happening. */
export function lineOf(happening) {
  switch (happening.kind) {
    case 'start': return row('[', happening.isRepeated ? 'repeated Start' : 'Start');
    case 'stop': return row(']', 'Stop');
    case 'byte': return byteLine(happening);
    case 'ticks': return row(happening.count === 1 ? 't' : `t*${happening.count} `, tickWords(happening));
    case 'said': return happening.words;
    case 'edges': return row(edgesNotation(happening) + (happening.count === 1 ? '' : ' '), edgeWords(happening));
    default: return powerLine(happening);
  }
}

/** The lamps as signs, lamp 0 first: `*` for lit, `.` for dark. */
export function lampSigns(report) {
  return LAMPS.map((lamp) => ((report >> lamp) & 1 ? '*' : '.')).join('');
}

/** The first line of `fm3130 lamps`. */
export const PANEL_HEAD = '01234567  lamps at 1000h to 1007h: * lit, as its last whole read says; . dark';

/** The lines of `fm3130 lamps`: the lamps after each happening, the happening, and which lamps changed. */
export function panelOf(happenings) {
  const lines = happenings.map((happening, index) => panelLineOf(happening, happenings[index - 1]?.lamps ?? 0));
  return [PANEL_HEAD, ...lines];
}

/** One of these lines, after some lamps. */
export function panelLineOf(happening, before) {
  return `${lampSigns(happening.lamps)}  ${lineOf(happening)}${changeOf(before, happening.lamps)}`;
}

/** Which lamps went on, and which off, in words; nothing where none did. */
function changeOf(before, after) {
  const named = (bits, words) => {
    const lamps = LAMPS.filter((lamp) => (bits >> lamp) & 1);
    return lamps.length === 0 ? [] : [`lamp${plural(lamps.length)} ${lamps.join(', ')} ${words}`];
  };
  const changes = [...named(after & ~before, 'lit'), ...named(before & ~after, 'dark')];
  return changes.length === 0 ? '' : `  <- ${changes.join('; ')}`;
}

function row(notation, words) {
  return notation.padEnd(8) + words;
}

/** Direction, value, acknowledge and meaning of a byte. */
function byteLine(byte) {
  const words = byte.device === null ? byte.words : `@${byte.device} ${byte.words}`;
  if (byte.clocks.length < 8 || byte.isStray) {
    return `  clocks  {${digitsOf(byte)}}  ${words}`;
  }
  const value = byteWords(valueOf(byte));
  return `  ${byte.direction.padEnd(5)} ${value}h  ${acknowledge(byte).padEnd(5)} ${words}${remark(byte)}`;
}

/** ACK and NACK, as the data sheet writes them; dashes for a byte without its ninth clock. */
function acknowledge(byte) {
  if (byte.clocks.length < 9) {
    return '--';
  }
  return isAcknowledged(byte) ? 'ACK' : 'NACK';
}

/** What else a reader should know of a byte. */
function remark(byte) {
  const ninth = byte.clocks[8];
  if (ninth === undefined) {
    return byte.direction === direction.UNHEARD ? '' : '; cut before the acknowledge';
  }
  const isHeld = byte.direction !== direction.READ && !ninth.masterIsHigh && !ninth.devicePulls;
  return isHeld ? '; it is the master that holds the ninth bit low' : '';
}

/** What a run of ticks did. */
function tickWords(report) {
  const { count, before, after, rolled, pinChanges, inside } = report;
  const place = inside > 0 ? ` after ${inside} clocks of a byte` : '';
  const words = `${count} tick${plural(count)}${count >= 60 ? ` (${spanWords(count)})` : ''}${place}`;
  if (rolled === 0) {
    return `${words}: ${reasonOfStandstill(before)}`;
  }
  const rose = ~before.registers[CONTROL] & after.registers[CONTROL];
  const flags = [[AF, ', AF set'], [CF, ', CF set']].filter(([flag]) => rose & flag).map(([, said]) => said);
  const pins = pinChanges.map(({ tick, pin }) => `; ACS pin after tick ${tick}: ${pinWords(pin)}`);
  return `${words}: ${calendarWords(before.core)} -> ${calendarWords(after.core)}, ${passedWords(rolled, count)}`
    + flags.join('') + pins.join('');
}

/** So many seconds as days, hours, minutes and seconds, leaving out what there is none of. */
function spanWords(seconds) {
  const parts = [
    [Math.floor(seconds / 86400), 'day'],
    [Math.floor(seconds / 3600) % 24, 'hour'],
    [Math.floor(seconds / 60) % 60, 'minute'],
    [seconds % 60, 'second'],
  ];
  return parts.filter(([number]) => number > 0).map(([number, unit]) => `${number} ${unit}${plural(number)}`).join(', ');
}

/** Why the calendar stood still. */
function reasonOfStandstill(state) {
  if (state.part.hasCounters) {
    return 'this part has no clock';
  }
  if (state.power === power.NONE) {
    return 'no supply';
  }
  return state.registers[CALIBRATION] & OSCEN ? 'the oscillator is halted' : 'the calendar is not valid';
}

/** Edges as a script writes them. */
export function edgesNotation({ event: one, count, before }) {
  const word = one === edge.CNT1 ? 'c1' : 'c2';
  const named = before.select === null ? word : `${word}@${before.select}`;
  return count === 1 ? named : `${named}*${count}`;
}

/** What a run of edges on a counter's pin did. */
function edgeWords(report) {
  const { event: one, count, inside } = report;
  const place = inside > 0 ? ` after ${inside} clocks of a byte` : '';
  const words = `${count} edge${plural(count)} on ${one === edge.CNT1 ? 'CNT1' : 'CNT2'}${place}`;
  return `${words}: ${reasonNotCounted(report) ?? movementWords(report)}`;
}

/** Why edges do not count; undefined where they do. */
function reasonNotCounted({ event: one, before }) {
  if (before.power === power.NONE) {
    return 'not counted, no supply';
  }
  return isJoined(before) && one === edge.CNT2 ? 'not counted, CC is 1 and CNT2 is not used' : undefined;
}

/** What edges count, and from where to where. */
function movementWords({ event: one, before, after }) {
  const [from, to] = [countsOf(countersOf(before)), countsOf(countersOf(after))];
  if (isJoined(before)) {
    return `both counters as one ${from.pair} -> ${to.pair} (${longWords(to.pair)}h)`;
  }
  return one === edge.CNT1
    ? `counter 1 ${from.one} -> ${to.one} (${addressWords(to.one)}h)`
    : `counter 2 ${from.two} -> ${to.two} (${addressWords(to.two)}h)`;
}

/** The count after edges, in a few letters for a drawing. */
export function edgesLabel(report) {
  if (reasonNotCounted(report) !== undefined) {
    return 'not counted';
  }
  const { one, two, pair } = countsOf(countersOf(report.after));
  if (isJoined(report.before)) {
    return `${longWords(pair)}h`;
  }
  return `count ${addressWords(report.event === edge.CNT1 ? one : two)}h`;
}

function powerLine(change) {
  const [notation, words] = powerWordsOf(change);
  return row(notation, change.inside > 0 ? `${words}, after ${change.inside} clocks of a byte` : words);
}

function powerWordsOf({ event: one, before, part }) {
  const lost = part.hasCounters ? 'counters lost' : 'registers lost';
  switch (one) {
    case event.POWER_LOST_WITH_BACKUP:
      return ['lost', before === power.ON ? 'main power lost, backup present' : 'main power is lost already'];
    case event.POWER_LOST_WITHOUT_BACKUP:
      return ['gone', [
        `main power lost, no backup: ${lost}`,
        `backup lost too: ${lost}`,
        'both supplies are gone already',
      ][before]];
    default:
      return ['power', [
        'main power is there already',
        'main power returned, POR set',
        'main power returned',
      ][before]];
  }
}
