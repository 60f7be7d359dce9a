// SPDX-License-Identifier: Apache-2.0
/** Where an event stands in a list, as a script's reader counts: transactions, bytes, clocks, each from 1. */
import { event } from './fm3130.mjs';
import { phase, power } from './state.mjs';

const CLOCKS_OF_A_BYTE = 9;

const EVENT_WORDS = [
  'Start',
  'Stop',
  'Clock, the master\'s line low',
  'Clock, the master\'s line released',
  'tick',
  'main power lost, backup present',
  'main power lost, no backup',
  'main power returned',
];

/** An event in words. */
export function eventWords(one) {
  return EVENT_WORDS[one];
}

const isClock = (one) => one === event.CLOCK_LOW || one === event.CLOCK_HIGH;

/** The place of an event. A repeated Start goes on in its transaction. */
export class Place {
  /** Before the first event: a transfer may be under way already. */
  constructor(state) {
    this.isInside = state.phase !== phase.IDLE && state.power === power.ON; // a Start and a Stop included
    this.event = 0;
    this.transaction = Number(this.isInside);
    this.byte = Number(this.isInside);
    this.clock = this.isInside ? state.clocks : 0; // clocks of the byte done, the event's own included
    this.byteBegin = 0; // where the event's byte begins, or the event itself
    this.transactionBegin = 0;
  }

  copy() {
    return Object.assign(new Place({ phase: phase.IDLE }), this);
  }

  get isClock() {
    return isClock(this.event);
  }

  /** The next event, and where it stands. */
  take(one, at) {
    const afterStop = this.event === event.STOP;
    this.event = one;
    if (one === event.START) {
      this.#start(at, afterStop);
    } else if (isClock(one)) {
      this.#takeClock(at, afterStop);
    } else {
      const isLoss = one !== event.STOP && one !== event.TICK && one !== event.POWER_RETURNED;
      this.#leave(afterStop || isLoss, at);
      if (one === event.STOP) {
        this.#byteIsOver(at);
      }
    }
  }

  #start(at, afterStop) {
    if (!this.isInside || afterStop) {
      this.transaction += 1;
      this.byte = 0;
      this.transactionBegin = at;
      this.isInside = true;
    }
    this.#byteIsOver(at);
  }

  #takeClock(at, afterStop) {
    this.#leave(afterStop, at);
    if (this.clock === 0 || this.clock === CLOCKS_OF_A_BYTE) {
      this.byte += 1;
      this.clock = 0;
      this.byteBegin = at;
    }
    this.clock += 1;
    if (!this.isInside) {
      this.transactionBegin = this.byteBegin;
    }
  }

  /** A Stop is inside its transaction; what follows it is not. */
  #leave(isOver, at) {
    if (isOver) {
      this.isInside = false;
      this.byte = 0;
      this.#byteIsOver(at);
      this.transactionBegin = at;
    }
  }

  #byteIsOver(at) {
    this.clock = 0;
    this.byteBegin = at;
  }

  /** After which byte, and how many of its clocks, an event that is no Clock comes. */
  #after() {
    if (this.byte === 0) {
      return '';
    }
    return this.clock === 0 || this.clock === CLOCKS_OF_A_BYTE
      ? `, after byte ${this.byte}` : `, after clock ${this.clock} of byte ${this.byte}`;
  }

  /** The place in words. */
  get words() {
    if (!this.isInside) {
      const clock = this.isClock ? `, clock ${this.clock + CLOCKS_OF_A_BYTE * (this.byte - 1)}` : '';
      const where = this.transaction === 0 ? 'before the first transaction' : `after transaction ${this.transaction}`;
      return where + clock;
    }
    const words = `transaction ${this.transaction}`;
    if (this.isClock) {
      const ninth = this.clock === CLOCKS_OF_A_BYTE ? ', the acknowledge' : '';
      return `${words}, byte ${this.byte}, clock ${this.clock}${ninth}`;
    }
    if (this.event === event.START) {
      return this.byte === 0 ? `${words}, its Start` : `${words}, a repeated Start${this.#after()}`;
    }
    return `${words}${this.event === event.STOP ? ', its Stop' : ''}${this.#after()}`;
  }
}
