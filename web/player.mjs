// SPDX-License-Identifier: Apache-2.0
/**
 * A device or a set, what has happened to it since it began, and a script that is played on it: by events, by bytes, or
 * to the end. Events can also be done by hand between those of the script. A device that refuses an event is thrown as
 * Refused.
 */
import { boardOf } from './boards.mjs';
import { Holding } from './expecting.mjs';
import { event } from './fm3130.mjs';
import { Grouping } from './happenings.mjs';
import { pinOf } from './state.mjs';

export class Player {
  /** A player of a device, which it keeps a copy of to begin again. */
  constructor(device) {
    this.origin = device;
    this.plan = [];
    this.startOver();
  }

  /** The device as it was at first, nothing has happened, and the script at its beginning. */
  startOver() {
    this.board = boardOf(this.origin.clone());
    /** The states at first; the run is told from the first one. */
    this.firsts = this.board.states;
    [this.first] = this.firsts;
    this.happenings = [];
    this.grouping = new Grouping(this.first, (happening) => this.happenings.push(happening));
    /** The events done, by the script or by hand. */
    this.done = 0;
    this.rewind();
  }

  /** Another script, at its beginning; the device stays. */
  use(plan) {
    this.plan = plan;
    this.rewind();
  }

  /** The script at its beginning; the device stays. */
  rewind() {
    this.step = 0; // of the plan
    this.given = 0; // events of that step
    this.holding = new Holding();
  }

  /** What the script expects and did not come about, as problems with their places. */
  get unmet() {
    return this.holding.unmet;
  }

  get isAtStart() {
    return this.step === 0 && this.given === 0;
  }

  get isAtEnd() {
    return this.step >= this.plan.length;
  }

  /** The place in the text of what comes next; undefined at the end. */
  get place() {
    return this.plan[this.step]?.place;
  }

  /** The device or the set as it is now. */
  get device() {
    return this.board.device;
  }

  /** The states of the devices, by their places. */
  get states() {
    return this.board.states;
  }

  /** The state of the device, or of the first of a set. */
  get state() {
    return this.board.states[0];
  }

  /** The lamps of the proving record, where one is kept. */
  get lamps() {
    return this.board.lamps;
  }

  /** What is under way, as it would be told if no event followed. */
  get pending() {
    return this.grouping.pending();
  }

  /** What happened, with what is under way. */
  get shown() {
    return [...this.happenings, ...this.pending];
  }

  /** Does one event by hand. */
  byHand(one) {
    this.#event(one);
  }

  /** Does the script's next event; false at its end. */
  nextEvent() {
    this.#look();
    if (this.isAtEnd) {
      return false;
    }
    const step = this.plan[this.step];
    const moment = this.#event(step.events[this.given % step.events.length]);
    if (step.expected) {
      this.holding.take(step, this.given, moment.before, moment.answer);
    }
    this.#advance(1);
    return true;
  }

  /** Looks at the pin where the script does so next. */
  #look() {
    while (this.plan[this.step]?.events.length === 0) {
      this.holding.look(this.plan[this.step], pinOf(this.state));
      this.step += 1;
    }
  }

  /** Does events of the script up to the next whole byte, Start, Stop, tick or power event; false at its end. */
  nextByte() {
    const told = this.happenings.length;
    let isTick = false;
    this.#look();
    while (!this.isAtEnd && this.happenings.length === told && !isTick) {
      const { events } = this.plan[this.step];
      isTick = events[this.given % events.length] === event.TICK;
      this.nextEvent();
    }
    return !this.isAtEnd;
  }

  /** Does the script's next events, a thousand at most; false at its end. So a long run can be stopped. */
  someEvents() {
    this.#look();
    for (let budget = 1024; budget > 0 && !this.isAtEnd; budget -= 1) {
      if (this.#isAtTicks()) {
        this.#ticks();
        return !this.isAtEnd;
      }
      this.nextEvent();
    }
    return !this.isAtEnd;
  }

  #isAtTicks() {
    const { events } = this.plan[this.step];
    return events[0] === event.TICK;
  }

  /** Does ticks of the step under way, many at once. */
  #ticks() {
    const { times } = this.plan[this.step];
    const run = this.board.ticks(times - this.given);
    this.grouping.someTicks(run);
    this.done += run.count;
    this.#advance(run.count);
  }

  #event(one) {
    const moment = one === event.TICK ? null : this.board.event(one);
    if (moment === null) {
      this.grouping.someTicks(this.board.ticks(1));
    } else {
      this.grouping.moment(moment);
    }
    this.done += 1;
    return moment;
  }

  #advance(count) {
    const { events, times } = this.plan[this.step];
    this.given += count;
    if (this.given >= events.length * times) {
      this.step += 1;
      this.given = 0;
      this.#look();
    }
  }
}
