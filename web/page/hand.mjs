// SPDX-License-Identifier: Apache-2.0
/**
 * Being the master with two switches: what the master does with SDA and SCL becomes events.
 *
 * SDA that turns while SCL is high is a Start or a Stop. Any other pulse of SCL is a Clock, which is done when SCL
 * falls: only then it is sure that SDA did not turn. What counts is the wire, which the device can hold low too.
 */
import { clock, event } from '../fm3130.mjs';

export class Hand {
  /** `act` does an event; `pulls` says whether the device would pull SDA at the next Clock. */
  constructor(act, pulls) {
    this.act = act;
    this.pulls = pulls;
    this.release();
  }

  /** Lets go of both wires. */
  release() {
    this.data = true; // the level that the master gives SDA
    this.scl = true;
    this.taken = null; // SDA's level at the rise of SCL, while the pulse may become a Clock
    this.holds = false; // the device holds SDA low through the pulse
  }

  /** The level of SDA on the wire. */
  get wire() {
    return this.data && !this.devicePulls;
  }

  /** Whether the device pulls SDA now. */
  get devicePulls() {
    return this.scl ? this.holds : this.pulls();
  }

  /** Turns the master's side of SDA. */
  turnData() {
    const before = this.wire;
    this.data = !this.data;
    if (this.scl && this.wire !== before) {
      this.taken = null;
      this.act(this.wire ? event.STOP : event.START);
    }
  }

  /** Turns SCL. */
  turnClock() {
    if (this.scl) {
      this.#fall();
    } else {
      this.#rise();
    }
  }

  #rise() {
    this.holds = this.pulls();
    this.taken = this.data;
    this.scl = true;
  }

  #fall() {
    this.scl = false;
    this.holds = false;
    if (this.taken !== null) {
      this.act(clock(this.taken));
      this.taken = null;
    }
  }
}
