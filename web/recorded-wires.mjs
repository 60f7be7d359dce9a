// SPDX-License-Identifier: Apache-2.0
/** The wires of a recording, and the events that their edges are. */
import { clock, event } from './fm3130.mjs';
import { giver, Roles } from './roles.mjs';
import { pinFunction, pinOfAnswer, power } from './state.mjs';

/** The wires that are looked at. */
export const wire = Object.freeze({
  CLOCK: 0, DATA: 1, TICK: 2, MAIN_POWER: 3, SUPPLIED: 4, PIN: 5, FUNCTION_HIGH: 6, FUNCTION_LOW: 7,
});
export const WIRES = 8;

/** Levels are true or false; null where the file has given none. */
const NO_LEVELS = Object.freeze(Array(WIRES).fill(null));

/** What a value in a file says of a wire: a level, 'released', or null for an unknown one, which says nothing. */
export function changeOf(value) {
  if ('0lL'.includes(value)) {
    return false;
  }
  if ('1hH'.includes(value)) {
    return true;
  }
  return value === 'z' || value === 'Z' ? 'released' : null;
}

/** The level after a change: a wire that nobody drives is pulled up, but is no first level. */
function levelAfter(change, before) {
  if (change === 'released') {
    return before === null ? null : true;
  }
  return change ?? before;
}

/** What levels show of the ACS pin: whether it is pulled low, and its function; null where no wire shows it. */
function pinSeen(levels) {
  const [pin, high, low] = [wire.PIN, wire.FUNCTION_HIGH, wire.FUNCTION_LOW].map((one) => levels[one]);
  const chosen = high === null || low === null ? null : Number(high) * 2 + Number(low);
  return { isLow: pin === null ? null : !pin, function: chosen };
}

/**
 * Whether anything of a seen pin can be held to the one that the rules give: a square wave at a moment tells nothing.
 */
export function isPinJudged(seen, answer) {
  const right = pinOfAnswer(answer).function;
  const isSteady = right === pinFunction.ALARM || right === pinFunction.RELEASED;
  return seen.function !== null || (seen.isLow !== null && isSteady);
}

/** An answer byte in which the pin is the one that was seen, as far as it was. */
export function withPin(seen, answer) {
  const pin = pinOfAnswer(answer);
  const alarm = seen.isLow !== null && isPinJudged(seen, answer) ? seen.isLow : pin.alarm;
  return (answer & 1) | ((seen.function ?? pin.function) << 1) | (Number(alarm) << 3);
}

/** The wires, and what was seen on them: { event, lineIsHigh, times, giver, pin }. */
export class Wires {
  /** Wires of a device that is in a state. */
  constructor(state) {
    this.levels = [...NO_LEVELS];
    // SCL has moved before both levels were known, or was high when they were: a Clock may not have been seen.
    this.mayLackClock = false;
    this.lacksClock = false; // it was so at a Clock of a byte that was under way
    this.bit = null; // the level of SDA when SCL rose, if it did not turn since
    this.roles = new Roles(state);
    this.power = state.power;
    this.last = null; // what was seen last: the pin after it is known only when the next begins
    this.seen = [];
    this.named = 0; // slave bytes that named the part
  }

  /** The levels after a moment, at which so many ticks pass if the wire for them rises. First levels are no edges. */
  step(changes, ticks) {
    const before = this.levels;
    this.levels = before.map((level, one) => levelAfter(changes[one], level));
    this.#stepBus(before);
    if (before[wire.TICK] === false && this.levels[wire.TICK] === true) {
      this.#pushTicks(ticks, before);
    }
    this.#stepPower(before);
  }

  #stepBus(before) {
    const [scl, sda] = this.levels;
    const [sclBefore, sdaBefore] = before;
    if (scl === null || sda === null) {
      this.mayLackClock ||= sclBefore !== null && sclBefore !== scl;
    } else if (sclBefore === null || sdaBefore === null) {
      this.mayLackClock ||= scl || sclBefore === true;
    } else if (sclBefore && scl) {
      this.#turn(sdaBefore, sda, before);
    } else if (sclBefore) {
      this.#fall(before);
    } else if (scl) {
      this.bit = sda;
    }
  }

  /** Supplies that are others than before. Where there is no wire for the backup, it is there. */
  #stepPower(before) {
    const isOn = this.levels[wire.MAIN_POWER];
    if (isOn === null) {
      return;
    }
    const isGone = this.levels[wire.SUPPLIED] === false;
    const now = isOn ? power.ON : isGone ? power.NONE : power.BACKUP;
    if (now === this.power || (this.power === power.NONE && now === power.BACKUP)) {
      return;
    }
    this.power = now;
    if (now !== power.ON) {
      this.roles.losePower();
    }
    const one = [event.POWER_RETURNED, event.POWER_LOST_WITH_BACKUP, event.POWER_LOST_WITHOUT_BACKUP][now];
    this.#push(one, true, giver.ANYBODY, before);
  }

  /** Notes ticks at once: the pin is known after the last. */
  #pushTicks(ticks, before) {
    this.#push(event.TICK, true, giver.ANYBODY, before);
    if (ticks > 1) {
      this.last.times = ticks - 1;
      this.#push(event.TICK, true, giver.ANYBODY, NO_LEVELS);
    }
  }

  /** Notes an event. The pin after the one before it is what the wires were until now. */
  #push(one, lineIsHigh, who, before) {
    if (this.last !== null) {
      this.seen.push({ ...this.last, pin: pinSeen(before) });
    }
    this.last = { event: one, lineIsHigh, times: 1, giver: who, pin: pinSeen(NO_LEVELS) };
  }

  /** SDA turns while SCL is high: a condition and no bit. */
  #turn(dataBefore, data, before) {
    if (dataBefore === data) {
      return;
    }
    this.bit = null;
    this.mayLackClock = false;
    const one = data ? event.STOP : event.START;
    if (this.power === power.ON) {
      this.roles.condition(one);
    }
    this.#push(one, true, giver.MASTER, before);
  }

  /** SCL falls: a whole pulse with SDA steady is a Clock. */
  #fall(before) {
    this.lacksClock ||= this.mayLackClock && this.roles.isForThePart;
    const lineIsHigh = this.bit;
    this.bit = null;
    if (lineIsHigh === null) {
      return;
    }
    const who = this.roles.giver;
    this.named += Number(this.roles.namesThePart);
    this.roles.takeClock(lineIsHigh);
    this.#push(clock(who === giver.PART || lineIsHigh), lineIsHigh, who, before);
  }

  /** No change follows: the pin after the last event is what the wires are. */
  finish() {
    if (this.last !== null) {
      this.seen.push({ ...this.last, pin: pinSeen(this.levels) });
      this.last = null;
    }
  }
}
