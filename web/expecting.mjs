// SPDX-License-Identifier: Apache-2.0
/**
 * What a script expects, held beside what happens, in the command's words. A byte that is read must be sent by the
 * device, and an acknowledge must be the device's own: a line that nobody pulls is neither.
 */
import { Problem } from './script.mjs';
import { isRead, isSamePin, phase, pinWords } from './state.mjs';
import { byteWords } from './text.mjs';

export class Holding {
  constructor() {
    /** What was not met: each expectation once, with how it was not met first. */
    this.unmet = [];
    this.#begin();
  }

  #begin() {
    this.value = 0;
    this.isSent = false;
  }

  /** Looks at the pin where a step says so. */
  look({ place, expected }, pin) {
    if (!isSamePin(pin, expected.pin)) {
      this.unmet.push(new Problem(place, `expected the ACS pin: ${pinWords(expected.pin)}; seen: ${pinWords(pin)}`));
    }
  }

  /**
   * Takes a clock of a byte of which something is expected: its number in the step, the state before it, the answer.
   */
  take(step, given, before, answer) {
    const clock = given % 9;
    const isHigh = (answer & 1) === 1;
    if (clock === 0) {
      this.#begin();
      this.isSent = isRead(before) && before.clocks === 0;
    }
    if (clock < 8) {
      this.value = this.value * 2 + Number(isHigh);
      return;
    }
    // Eight clocks of a byte that it receives: the device is still in the transfer, and pulls.
    const receives = before.phase !== phase.IDLE && !isRead(before);
    this.#compare(step, (given - clock) / 9, receives && before.clocks === 8 && !isHigh);
  }

  #compare({ place, expected }, done, isAcknowledged) {
    const words = this.#wordsOf(expected, isAcknowledged);
    if (words === null || this.unmet.at(-1)?.place === place) {
      return;
    }
    const time = expected.before + done + 1;
    const repeat = expected.of === 1 ? '' : `, the first time at ${time} of ${expected.of}`;
    this.unmet.push(new Problem(place, words + repeat));
  }

  /** What is not as expected; null where all is. */
  #wordsOf({ byte, acknowledge }, isAcknowledged) {
    if (byte !== undefined && !this.isSent) {
      return `expected ${byteWords(byte)}h, and nobody sends`;
    }
    if (byte !== undefined) {
      return this.value === byte ? null : `expected ${byteWords(byte)}h, seen ${byteWords(this.value)}h`;
    }
    if (acknowledge === isAcknowledged) {
      return null;
    }
    return acknowledge ? 'expected an acknowledge, seen none' : 'expected no acknowledge, seen one';
  }
}
