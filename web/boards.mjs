// SPDX-License-Identifier: Apache-2.0
/**
 * What a script is played on: a clock, a part with counters, or a set. A board does an event or some ticks and tells
 * what an observer sees of it. A device that refuses is thrown as Refused.
 */
import { edge } from './family.mjs';
import { event, MOST_TICKS, RECORD_BYTES } from './fm3130.mjs';
import { partOf } from './parts.mjs';
import { isSamePin, phase, pinOf, stateOf } from './state.mjs';

/** A call that the device refused: it did nothing, and what the call gave back is no answer. */
export class Refused extends Error {
  constructor({ number, words }) {
    super(`the device refuses: ${words} (number ${number})`);
    this.number = number;
  }
}

/** What a call gave that was done; one that was refused is thrown. */
export function done(outcome) {
  if (outcome.number !== 0) {
    throw new Refused(outcome);
  }
  return outcome;
}

/** After so many ticks without another event a proving record changes no more: the third darkens every lamp. */
export const FEW_TICKS = 8;

/** The board of a device or of a set, which it changes. */
export function boardOf(device) {
  if (device.members) {
    return new SetBoard(device);
  }
  return partOf(device.part).hasCounters ? new CountersBoard(device) : new ClockBoard(device);
}

/** The FM3130, with its proving record. */
class ClockBoard {
  constructor(device) {
    this.device = device;
    this.record = new Uint8Array(RECORD_BYTES);
    /** The lamps that the record reports. */
    this.lamps = 0;
  }

  /** The states of the devices, by their places; here one. */
  get states() {
    return [stateOf(this.device.image)];
  }

  /** Does an event that is no tick. Returns { event, answer, before, after, lamps }. */
  event(one) {
    const [before] = this.states;
    const { answers, report } = done(this.device.lamps(this.record, [one]));
    this.lamps = report;
    return { event: one, answer: answers[0], before, after: this.states[0], lamps: report };
  }

  /** Does ticks, at most MOST_TICKS at once. Returns { before, after, count, rolled, pinChanges, lamps }. */
  ticks(most) {
    const count = Math.min(most, MOST_TICKS);
    this.#lampsAfter(count);
    return { ...(count === 1 ? oneTick(this.device) : sleepThrough(this.device, count)), lamps: this.lamps };
  }

  /** Lets the record see ticks that are still to be done; it follows on a copy. After a few it stays as it is. */
  #lampsAfter(ticks) {
    const list = Array(Math.min(ticks, FEW_TICKS)).fill(event.TICK);
    this.lamps = done(this.device.clone().lamps(this.record, list)).report;
  }
}

/** A part with counters. It has no clock: ticks change nothing, so that one stands for many. */
class CountersBoard {
  lamps = 0;

  constructor(device) {
    this.device = device;
    this.part = partOf(device.part);
  }

  get states() {
    return [stateOf(this.device.image, this.part)];
  }

  event(one) {
    const [before] = this.states;
    const { answer } = done(this.device.step(one));
    return { event: one, answer, before, after: this.states[0], lamps: 0 };
  }

  ticks(count) {
    return ticksOfNoClock(this, count);
  }
}

/**
 * A set. An observer sees one state at a time: that of the device that takes part, the one that an edge names, and on
 * the bus the one that stays in the transfer.
 */
class SetBoard {
  lamps = 0;

  constructor(device) {
    this.device = device;
    this.parts = device.members.map(({ part }) => partOf(part));
  }

  get states() {
    return this.device.members.map(({ image, select }, place) => stateOf(image, this.parts[place], select));
  }

  event(one) {
    const before = this.states;
    const { answer } = done(this.device.step(one));
    const after = this.states;
    const isEdge = one >= edge.CNT1;
    const place = isEdge ? (one - edge.CNT1) >> 1 : placeOnTheBus(before, after);
    const seen = isEdge ? edge.CNT1 + ((one - edge.CNT1) & 1) : one;
    return { event: seen, answer, before: before[place], after: after[place], lamps: 0 };
  }

  ticks(count) {
    return ticksOfNoClock(this, count);
  }
}

/**
 * The place of the device that an event on the bus is about: one that is in a transfer after it, else one that was
 * before it. After the eighth clock of a slave byte at most one is.
 */
function placeOnTheBus(before, after) {
  const isInTransfer = (state) => state.phase !== phase.IDLE;
  const place = [after, before].map((states) => states.findIndex(isInTransfer)).find((found) => found >= 0);
  return place ?? 0;
}

function ticksOfNoClock(board, count) {
  const [before] = board.states;
  done(board.device.step(event.TICK));
  return { before, after: board.states[0], count, rolled: 0, pinChanges: [], lamps: 0 };
}

function oneTick(device) {
  const before = stateOf(device.image);
  const { rolled } = done(device.step(event.TICK));
  const after = stateOf(device.image);
  const pin = pinOf(after);
  return { before, after, count: 1, rolled, pinChanges: isSamePin(pinOf(before), pin) ? [] : [{ tick: 1, pin }] };
}

/** Does ticks at once, and finds what an observer of the single ticks would have seen. */
function sleepThrough(device, count) {
  const asleep = device.clone();
  done(device.catchUp(count));
  const [before, after] = [stateOf(asleep.image), stateOf(device.image)];
  const pin = pinOf(after);
  const pinChanges = isSamePin(pinOf(before), pin) ? [] : [{ tick: pinChange(asleep, count, pin), pin }];
  return { before, after, count, rolled: highestChange(before.core, after.core), pinChanges };
}

/**
 * The tick, counted from 1, after which the pin is the one at the end. Ticks never clear AF and leave the pin's
 * function alone, so it changes once: halving finds the tick.
 */
function pinChange(asleep, count, last) {
  let [before, after] = [0, count];
  while (after - before > 1) {
    const middle = before + Math.floor((after - before) / 2);
    const device = asleep.clone();
    done(device.catchUp(middle));
    if (isSamePin(pinOf(stateOf(device.image)), last)) {
      after = middle;
    } else {
      before = middle;
    }
  }
  return after;
}

/**
 * The highest field of the calendar that differs, at its number (Device.step). The two are at most a leap year apart,
 * so no field has come round to where it was without a higher one having changed.
 */
function highestChange(before, after) {
  const places = [0, 1, 2, 4, 5, 6]; // the day of the week is none of the fields
  return places.findLastIndex((place) => before[place] !== after[place]) + 1;
}
