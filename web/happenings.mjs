// SPDX-License-Identifier: Apache-2.0
/**
 * Puts events together to what a reader thinks in: Starts, Stops, bytes, runs of ticks and of edges, power events.
 * Clocks are counted from Start to Start as the master does, nine to a byte.
 *
 * A happening is one of
 *     { kind: 'start', isRepeated }
 *     { kind: 'stop' }
 *     { kind: 'byte', clocks, direction, device, isStray, words, label }
 *     { kind: 'ticks', count, before, after, rolled, pinChanges, inside }
 *     { kind: 'edges', event, count, before, after, inside }
 *     { kind: 'power', event, before, part, inside }
 * each with `pin` and `lamps`, the ACS pin and the report of the lamps after it. `inside` is the clocks of the byte
 * under way, or 0; `device` the select bits of the device of a set that hears a byte, or null; a clock is
 * { masterIsHigh, lineIsHigh, devicePulls }.
 */
import { edge } from './family.mjs';
import { event } from './fm3130.mjs';
import { hearerOf, ofPartByte, ofStrayClocks, ofWholeByte } from './meaning.mjs';
import { isRead, isSamePin, phase, pinOf, pinOfAnswer, power } from './state.mjs';

/** Who sends the eight bits of a byte. */
export const direction = Object.freeze({ WRITE: 'write', READ: 'read', UNHEARD: 'line' });

/** The bits on the wire before the ninth clock, high bit first. */
export function valueOf(byte) {
  return byte.clocks.slice(0, 8).reduce((value, one) => value * 2 + (one.lineIsHigh ? 1 : 0), 0);
}

/** The bits on the wire at every clock as digits. */
export function digitsOf(byte) {
  return byte.clocks.map((one) => (one.lineIsHigh ? '1' : '0')).join('');
}

/** True when whoever takes the byte acknowledges it: the device by pulling itself, or the master in a read. */
export function isAcknowledged(byte) {
  const ninth = byte.clocks[8];
  if (ninth === undefined || byte.direction === direction.UNHEARD) {
    return false;
  }
  return byte.direction === direction.WRITE ? ninth.devicePulls : !ninth.masterIsHigh;
}

/**
 * Whether the device itself pulls the line low at a Clock. Where the master releases it, the answer says so; where
 * the master pulls too, it follows from the byte under way.
 */
function devicePulls({ event: one, answer, before, after }) {
  if (one !== event.CLOCK_LOW) {
    return (answer & 1) === 0;
  }
  if (before.phase === phase.IDLE) {
    return false;
  }
  if (isRead(before)) {
    // The byte is fixed by the first clock, so it is the state after that has it.
    return before.clocks < 8 && ((after.byte << before.clocks) & 0x80) === 0;
  }
  // A byte that is not acknowledged has ended the transfer: eight clocks done means that the device acknowledges.
  return before.clocks === 8;
}

/** Takes events one by one and tells what happened. */
export class Grouping {
  #tell;

  /** A grouping that calls `tell` with each happening, for a run that begins in a state. */
  constructor(state, tell) {
    this.#tell = tell;
    this.group = earlierClocks(state);
    this.ticks = null;
    this.edges = null;
    this.pin = pinOf(state);
    this.lamps = 0;
    /** A Start came, and since then neither a Stop nor a loss of power. */
    this.isInTransfer = state.phase !== phase.IDLE;
  }

  /** An event that is no tick: { event, answer, before, after, lamps } with the states around it. */
  moment(moment) {
    this.#tellTicks();
    if (moment.event === edge.CNT1 || moment.event === edge.CNT2) {
      return this.#edge(moment);
    }
    this.#tellEdges();
    switch (moment.event) {
      case event.START: return this.#start(moment);
      case event.STOP: return this.#stop(moment);
      case event.CLOCK_LOW:
      case event.CLOCK_HIGH: return this.#clock(moment);
      default: return this.#power(moment);
    }
  }

  /**
   * Ticks without any other event between them: { before, after, count, rolled, pinChanges, lamps }, where a change of
   * the pin is { tick, pin } with the ticks counted from 1. A run may come in parts.
   */
  someTicks({ before, after, count, rolled, pinChanges, lamps }) {
    this.#tellEdges();
    this.#tellStrayClocks();
    const inside = this.group.clocks.length;
    this.ticks ??= { kind: 'ticks', count: 0, before, after, rolled: 0, pinChanges: [], inside };
    const later = pinChanges.map(({ tick, pin }) => ({ tick: this.ticks.count + tick, pin }));
    this.ticks.pinChanges.push(...later);
    this.ticks.count += count;
    this.ticks.after = after;
    this.ticks.lamps = lamps;
    this.ticks.rolled = Math.max(this.ticks.rolled, rolled);
  }

  /** What is not yet told, as it would be told if no event followed. */
  pending() {
    const told = [];
    const copy = new Grouping({ phase: phase.IDLE, power: power.NONE }, (happening) => told.push(happening));
    const { pin, lamps, isInTransfer } = this;
    Object.assign(copy, { group: { ...this.group }, pin, lamps, isInTransfer });
    copy.ticks = this.ticks && { ...this.ticks, pinChanges: [...this.ticks.pinChanges] };
    copy.edges = this.edges;
    copy.finish();
    return told;
  }

  /** No event follows. */
  finish() {
    this.#tellTicks();
    this.#tellEdges();
    this.#tellGroup();
  }

  #tellOne(happening) {
    this.#tell({ ...happening, pin: this.pin, lamps: this.lamps });
  }

  #tellTicks() {
    if (this.ticks !== null) {
      const report = this.ticks;
      this.ticks = null;
      this.pin = pinOf(report.after);
      this.lamps = report.lamps;
      this.#tellOne(report);
    }
  }

  #tellEdges() {
    if (this.edges !== null) {
      const report = this.edges;
      this.edges = null;
      this.#tellOne(report);
    }
  }

  /** Tells of the clocks so far, whether or not they are a whole byte. */
  #tellGroup() {
    const { clocks, first, eighth } = this.group;
    this.group = noClocks();
    if (first === null) {
      return;
    }
    const byte = {
      kind: 'byte', clocks, direction: directionOf(first), device: hearerOf(first, eighth), isStray: !this.isInTransfer,
    };
    this.#tellOne({ ...byte, ...meaningOf(byte, first, eighth) });
  }

  /** Clocks outside a transfer are no byte, so that nothing happens inside of one. */
  #tellStrayClocks() {
    if (!this.isInTransfer) {
      this.#tellGroup();
    }
  }

  #start(moment) {
    this.#tellGroup();
    this.lamps = moment.lamps;
    const isRepeated = this.isInTransfer;
    this.isInTransfer = true;
    this.#tellOne({ kind: 'start', isRepeated });
  }

  #stop(moment) {
    this.#tellGroup();
    this.lamps = moment.lamps;
    this.isInTransfer = false;
    this.#tellOne({ kind: 'stop' });
  }

  #clock(moment) {
    this.pin = pinOfAnswer(moment.answer);
    this.lamps = moment.lamps;
    this.group.first ??= moment.before;
    this.group.clocks = [...this.group.clocks, {
      masterIsHigh: moment.event !== event.CLOCK_LOW,
      lineIsHigh: (moment.answer & 1) === 1,
      devicePulls: devicePulls(moment),
    }];
    if (this.group.clocks.length === 8) {
      this.group.eighth = moment.after;
    } else if (this.group.clocks.length === 9) {
      this.#tellGroup();
    }
  }

  /** An edge on a counter's pin; those on one pin of one device are told together. */
  #edge({ event: one, before, after }) {
    this.#tellStrayClocks();
    if (this.edges !== null && (this.edges.event !== one || this.edges.before.select !== before.select)) {
      this.#tellEdges();
    }
    const { count, before: first } = this.edges ?? { count: 0, before };
    const inside = this.edges?.inside ?? this.group.clocks.length;
    this.edges = { kind: 'edges', event: one, count: count + 1, before: first, after, inside };
  }

  /** A loss of power ends what was under way; other power events leave it. */
  #power(moment) {
    this.#tellStrayClocks();
    if (moment.before.power === power.ON && moment.after.power !== power.ON) {
      this.#tellGroup();
      this.isInTransfer = false;
    }
    this.pin = pinOfAnswer(moment.answer);
    this.lamps = moment.lamps;
    const { power: before, part } = moment.before;
    this.#tellOne({ kind: 'power', event: moment.event, before, part, inside: this.group.clocks.length });
  }
}

/** Who sends a byte, by the state before its first clock. */
function directionOf(first) {
  if (first.phase === phase.IDLE) {
    return direction.UNHEARD;
  }
  return isRead(first) ? direction.READ : direction.WRITE;
}

function meaningOf(byte, first, eighth) {
  if (byte.isStray) {
    return ofStrayClocks();
  }
  return eighth === null ? ofPartByte(first, byte.clocks.length) : ofWholeByte(first, eighth, valueOf(byte));
}

/** No byte under way: its clocks, the state before its first, the state after its eighth. */
function noClocks() {
  return { clocks: [], first: null, eighth: null };
}

/**
 * What was done of the byte under way, for a run that begins inside one. The state keeps the bits, so the clocks can
 * be made again; only a line that the master held low while the device sent is not known any more.
 */
function earlierClocks(state) {
  if (state.phase === phase.IDLE || state.clocks === 0) {
    return noClocks();
  }
  const isSent = isRead(state);
  const lowest = isSent ? 7 : state.clocks - 1;
  const clocks = Array.from({ length: state.clocks }, (_, place) => {
    const bit = ((state.byte >> (lowest - place)) & 1) === 1;
    return { masterIsHigh: isSent || bit, lineIsHigh: bit, devicePulls: isSent && !bit };
  });
  return { clocks, first: stateBeforeByte(state), eighth: state.clocks === 8 ? state : null };
}

/**
 * The state before the byte's first clock, as far as its meaning needs it: after eight clocks of a data byte its
 * address has stepped on already.
 */
function stateBeforeByte(state) {
  const { memoryBytes, firstRegister, registerCount } = state.part;
  const before = { ...state, clocks: 0, byte: 0 };
  if (state.clocks === 8 && (state.phase === phase.WRITE_MEMORY || state.phase === phase.READ_MEMORY)) {
    before.memoryAddress = (state.memoryAddress + memoryBytes - 1) % memoryBytes;
  }
  if (state.clocks === 8 && (state.phase === phase.WRITE_COMPANION || state.phase === phase.READ_COMPANION)) {
    const place = state.companionAddress - firstRegister;
    before.companionAddress = firstRegister + (place + registerCount - 1) % registerCount;
  }
  return before;
}
