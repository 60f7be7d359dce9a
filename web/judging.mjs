// SPDX-License-Identifier: Apache-2.0
/**
 * The judgement on a capture or on a waveform of the two wires, as `fm3130 judge --words` tells and draws it. Every
 * verdict is the proved judge's: a waveform is given to it in pieces, each a capture that begins with the device that
 * the piece before it left. A list may be cut anywhere, so the verdicts are those of the whole.
 *
 * A judgement is { verdict, isGood, lines, drawing }: one line, whether all agree, all lines, and a drawing or null.
 * Functions that make one give way between pieces, so that a long recording can be told beside other work.
 */
import { done, Refused } from './boards.mjs';
import { captureOf, faultOf, MOST_EVENTS, sectionsOf } from './capture.mjs';
import { drawingOf } from './drawing.mjs';
import { event } from './fm3130.mjs';
import { eventWords, Place } from './place.mjs';
import { Player } from './player.mjs';
import { BadWaveform, clocksWords, Recording } from './recording.mjs';
import { pinOf, pinOfAnswer, pinWords, stateOf } from './state.mjs';
import { byteWords } from './text.mjs';
import { lineOf } from './transcript.mjs';
import { isPinJudged, withPin } from './recorded-wires.mjs';

/** The most events that are shown before the one that differs, and after it. */
const MOST_BEFORE = 120;
const MOST_AFTER = 40;

/** How a sigrok session file begins: it is a ZIP archive. */
const SESSION_BEGIN = [0x50, 0x4B, 0x03, 0x04];

/** Whether a file is a waveform, or the session of an analyser, and no capture. */
export function isWaveform(name, file) {
  const first = file.find((byte) => ![32, 9, 10, 12, 13].includes(byte));
  return first === 0x24 || isSession(file) || name.toLowerCase().endsWith('.vcd');
}

const isSession = (file) => SESSION_BEGIN.every((byte, place) => file[place] === byte);

/** Tells events in the words of a run, as much as is given. */
class Told {
  constructor(device) {
    this.player = new Player(device);
  }

  take(events) {
    this.player.use([...stepsOf(events)]);
    while (this.player.someEvents());
  }

  /** The lines; nothing follows. */
  get lines() {
    this.player.grouping.finish();
    return this.player.happenings.map(lineOf);
  }
}

/** Events as steps of a plan, in which ticks one after the other are one step. */
function* stepsOf(events) {
  for (let begin = 0, end = 0; begin < events.length; begin = end) {
    const isTick = events[begin] === event.TICK;
    while (end < events.length && (events[end] === event.TICK) === isTick) {
      end += 1;
    }
    yield isTick ? { events: [event.TICK], times: end - begin } : { events: events.subarray(begin, end), times: 1 };
  }
}

/** What happens to a device by some events. */
function happeningsOf(device, events) {
  const told = new Told(device);
  told.take(events);
  told.player.grouping.finish();
  return told.player.happenings;
}

/** The last two pieces of a recording: enough to show what is around an event of the second. */
class Span {
  constructor(device) {
    this.place = new Place(stateOf(device.image)); // before the first event
    this.first = 0; // where the first event stands in the recording
    this.events = new Uint8Array();
    this.piece = 0; // where the second piece begins
    this.device = device; // before the first event
    this.deviceOfPiece = device;
    this.placeOfPiece = this.place;
    this.after = device;
    this.pins = 0; // after how many events a wire showed the pin
  }

  /** The piece that was last is the first, and the one before it is forgotten; another one follows. */
  add(events, after) {
    const kept = this.events.subarray(this.piece - this.first);
    const place = this.placeOfPiece.copy();
    kept.forEach((one, index) => place.take(one, this.piece + index));
    [this.device, this.deviceOfPiece] = [this.deviceOfPiece, this.after];
    [this.place, this.placeOfPiece] = [this.placeOfPiece, place];
    [this.first, this.piece] = [this.piece, this.piece + kept.length];
    this.events = concat(kept, events);
    this.after = after;
  }

  /** The place of an event. */
  placeOf(index) {
    const place = this.place.copy();
    this.events.subarray(0, index - this.first + 1).forEach((one, at) => place.take(one, this.first + at));
    return place;
  }
}

function concat(one, other) {
  const both = new Uint8Array(one.length + other.length);
  both.set(one);
  both.set(other, one.length);
  return both;
}

/** Judges a capture. */
export function* judgeCapture(standIn, file) {
  const { number, words, place } = standIn.judge(file);
  if (number > 1) {
    const verdict = number === 2 ? `entry ${place} is faulty: ${faultOf(standIn, file, place)}` : words;
    return { verdict, isGood: false, lines: [], drawing: null };
  }
  const { image, memory, events, answers } = sectionsOf(file);
  const { device } = done(standIn.fromParts(image, memory));
  const told = new Told(device);
  told.take(number === 1 ? events.subarray(0, place + 1) : events);
  yield;
  if (number === 1) {
    const right = done(device.clone().run(events.subarray(0, place + 1))).answers[place];
    const span = Object.assign(new Span(device), { events });
    return differing(span, { index: place, recorded: answers[place], right }, told.lines);
  }
  const verdict = place === 0 ? 'no answers: the capture has no events' : `all agree: ${place} answers`;
  return { verdict, isGood: true, lines: [...told.lines, verdict], drawing: null };
}

/** Judges a waveform, of a device that is as it begins; `names` are those of the wires of clock and data. */
export function* judgeWaveform(standIn, name, file, begin, names) {
  const told = new Told(begin);
  try {
    return yield* waveformJudged(standIn, { name, file, begin, names }, told);
  } catch (bad) {
    if (!(bad instanceof BadWaveform || bad instanceof Refused)) {
      throw bad;
    }
    return { verdict: bad.message, isGood: false, lines: told.lines, drawing: null };
  }
}

function* waveformJudged(standIn, { name, file, begin, names }, told) {
  if (isSession(file)) {
    throw new BadWaveform('it is a session of sigrok; make a waveform of it: '
      + `sigrok-cli -i ${name} -O vcd -o ${name}.vcd`);
  }
  const recording = new Recording(file, names, stateOf(begin.image));
  const span = new Span(begin);
  for (let piece = recording.piece(MOST_EVENTS); piece.length > 0; piece = recording.piece(MOST_EVENTS)) {
    const difference = judgePiece(standIn, span, piece);
    const end = difference === null ? span.first + span.events.length : difference.index + 1;
    told.take(span.events.subarray(span.piece - span.first, end - span.first));
    if (difference !== null) {
      if (recording.seemsSwapped !== null) {
        throw new BadWaveform(recording.seemsSwapped);
      }
      return differing(span, difference, told.lines);
    }
    yield;
  }
  const agreed = agreementOf(recording.finish(), span.pins, recording.beside);
  return { verdict: agreed[0], isGood: true, lines: [...told.lines, ...agreed], drawing: null };
}

/** Judges the next piece, which the proved judge sees as a capture; gives the first answer that differs, or null. */
function judgePiece(standIn, span, piece) {
  const events = Uint8Array.from(piece, ({ event: one }) => one);
  const before = span.after;
  const device = before.clone();
  const right = done(device.run(events)).answers;
  const recorded = ({ pin, lineIsHigh }, answer) => (withPin(pin, answer) & ~1) | Number(lineIsHigh);
  const answers = right.map((answer, place) => recorded(piece[place], answer));
  span.pins += piece.filter(({ pin }, place) => isPinJudged(pin, right[place])).length;
  span.add(events, device);
  const { image, memory } = before;
  const { number, words, place } = standIn.judge(captureOf({ image, memory, events, answers }));
  if (number > 1) {
    throw new BadWaveform(words); // the piece was made to be sound, so this cannot be; it must not seem to agree
  }
  return number === 0 ? null : { index: span.piece + place, recorded: answers[place], right: right[place] };
}

/** How many Clocks the part has answered as the rules do, and how many were not its own to answer. */
function agreementOf({ events, answers, named, anybody, others }, pins, beside) {
  const slaveBytes = named === 1 ? '1 slave byte names it' : `${named} slave bytes name it`;
  const byWhat = named === 0 ? 'in a transaction that was under way' : slaveBytes;
  return [
    `all agree: ${answers} answers of the part, in ${events} events; ${byWhat}`,
    ...(pins > 0 ? [`the ACS pin agrees after ${pins} events`] : []),
    ...(beside.length > 0 ? [`also taken from wires: ${beside.join(', ')}`] : []),
    ...(anybody > 0 ? [`not judged: ${clocksWords(anybody)} outside any transfer`] : []),
    ...(others > 0 ? [`not judged: ${clocksWords(others)} not for the part`] : []),
  ];
}

/**
 * The judgement on an answer that differs: the event, its place, what differs, and what the rules say happens around
 * it.
 */
function differing(span, { index, recorded, right }, before) {
  const shown = shownAround(span, index);
  const { place, device, events } = shown;
  const happenings = happeningsOf(device, events);
  const title = `Event ${index}: ${place.words}. By the rules; the recording differs at the arrow.`;
  return {
    verdict: `answer ${index} differs: recorded ${byteWords(recorded)}h, right ${byteWords(right)}h`,
    isGood: false,
    lines: [
      ...before,
      `${`Event ${index}`.padEnd(10)} ${eventWords(place.event)}`,
      `${'Place'.padEnd(10)} ${place.words}`,
      ...differences(recorded, right),
      '',
      'By the rules, around it:',
      ...happenings.map(lineOf),
    ],
    drawing: drawingOf(title, stateOf(device.image), happenings, { pointed: shown.pointed }),
  };
}

/** What differs between two answers, a line each. */
function differences(recorded, right) {
  const level = (answer) => ((answer & 1) === 1 ? 'high' : 'low');
  const rows = [
    ['Line', level(recorded), level(right)],
    ['ACS pin', pinWords(pinOfAnswer(recorded)), pinWords(pinOfAnswer(right))],
  ];
  const lines = rows.filter(([, one, other]) => one !== other)
    .map(([name, one, other]) => `${name.padEnd(10)} recorded ${one}, right ${other}`);
  const bits = (answer) => answer.toString(2).padStart(8, '0');
  // Bits that no right answer has: bit 3 without an alarm, and bits 4 to 7.
  const areOdd = lines.length === 0 || recorded > 0x0F;
  return areOdd ? [...lines, `Bits       recorded ${bits(recorded)}, right ${bits(right)}`] : lines;
}

/** The events around one, the device before the first of them, and the Clock that differs, to point at. */
function shownAround(span, index) {
  const place = span.placeOf(index);
  const from = beginOf(span, index, place) - span.first;
  const at = index - span.first;
  const events = span.events.subarray(from, endOf(span.events, at));
  const device = span.device.clone();
  done(device.run(span.events.slice(0, from)));
  const before = device.clone();
  done(before.run(span.events.slice(from, at)));
  const isClock = (one) => one === event.CLOCK_LOW || one === event.CLOCK_HIGH;
  const clocks = events.subarray(0, at - from).filter(isClock).length;
  const pointed = place.isClock ? { clock: clocks, name: 'differs', pin: pinOf(stateOf(before.image)) } : null;
  return { device, events, place, pointed };
}

/** Where to begin: with the transaction, or, where that is long ago, with a byte that is not. */
function beginOf(span, index, place) {
  if (index - place.transactionBegin <= MOST_BEFORE && place.transactionBegin >= span.first) {
    return place.transactionBegin;
  }
  for (let at = Math.max(span.first, index - MOST_BEFORE); at <= index; at += 1) {
    if (span.placeOf(at).byteBegin === at) {
      return at;
    }
  }
  return Math.max(place.byteBegin, span.first);
}

/** Where to end: with the next Stop, or not long after the event. */
function endOf(events, index) {
  const last = Math.min(index + MOST_AFTER, events.length);
  const stop = events.subarray(index, last).indexOf(event.STOP);
  return stop < 0 ? last : index + stop + 1;
}

/** The judgement that a function gives at last, without giving way. */
export function atOnce(judging) {
  for (;;) {
    const { done: isDone, value } = judging.next();
    if (isDone) {
      return value;
    }
  }
}
