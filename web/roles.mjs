// SPDX-License-Identifier: Apache-2.0
/** Who gives the data line its level at a Clock of a recording, by the protocol. */
import { event } from './fm3130.mjs';
import { isRead, phase } from './state.mjs';

const CLOCKS_OF_A_BYTE = 9;

/** The slave bytes of the part; the last bit asks for reading. */
const SLAVE_BYTES = [0xA0, 0xA1, 0xD0, 0xD1];

/** Who sends the byte under way: nobody that matters to the part, the master a slave byte or to the part, the part. */
const sender = Object.freeze({ NOBODY: 0, SLAVE_BYTE: 1, MASTER: 2, PART: 3 });

/**
 * Who gives the line its level: the part, whose answer it is; the master, which makes a condition or sends to the part;
 * others in a transfer in which the part has no share; or anybody, where no transfer is under way.
 */
export const giver = Object.freeze({ PART: 0, MASTER: 1, OTHERS: 2, ANYBODY: 3 });

function senderIn(state) {
  if (state.phase === phase.IDLE) {
    return sender.NOBODY;
  }
  if (state.phase === phase.SLAVE_BYTE) {
    return sender.SLAVE_BYTE;
  }
  return isRead(state) ? sender.PART : sender.MASTER;
}

/** What the protocol says of the byte under way. */
export class Roles {
  /** Where a state stands. */
  constructor(state) {
    this.sender = senderIn(state);
    this.isInTransfer = state.phase !== phase.IDLE; // a Start came, and no Stop since
    this.clocks = state.clocks;
    this.byte = state.byte;
  }

  /** A Start or a Stop. */
  condition(one) {
    this.isInTransfer = one === event.START;
    this.sender = one === event.START ? sender.SLAVE_BYTE : sender.NOBODY;
    this.clocks = 0;
  }

  /** Main power is lost: the part leaves the transfer, which goes on without it. */
  losePower() {
    this.sender = sender.NOBODY;
    this.clocks = 0;
  }

  /** Whether a byte is under way in which the part has a share. */
  get isForThePart() {
    return this.sender !== sender.NOBODY;
  }

  get #isNamed() {
    return SLAVE_BYTES.includes(this.byte);
  }

  get #nextIsNinth() {
    return this.clocks === CLOCKS_OF_A_BYTE - 1;
  }

  /** Whether the next Clock is the acknowledge of a slave byte that names the part. */
  get namesThePart() {
    return this.sender === sender.SLAVE_BYTE && this.#nextIsNinth && this.#isNamed;
  }

  /** Who gives the line its level at the next Clock. */
  get giver() {
    if (this.sender === sender.NOBODY) {
      return this.isInTransfer ? giver.OTHERS : giver.ANYBODY;
    }
    if (this.sender === sender.PART) {
      return this.#nextIsNinth ? giver.MASTER : giver.PART;
    }
    if (!this.#nextIsNinth) {
      return giver.MASTER;
    }
    return this.sender === sender.SLAVE_BYTE && !this.#isNamed ? giver.OTHERS : giver.PART;
  }

  /** A Clock is done, at which the wire has a level. */
  takeClock(lineIsHigh) {
    if (this.#nextIsNinth) {
      this.#byteIsOver(lineIsHigh);
    } else {
      this.clocks += 1;
      this.byte = ((this.byte << 1) | Number(lineIsHigh)) & 0xFF;
    }
  }

  /** A byte that is not acknowledged, or a read that is not to go on, ends the part's interest. */
  #byteIsOver(lineIsHigh) {
    if (lineIsHigh || (this.sender === sender.SLAVE_BYTE && !this.#isNamed)) {
      this.sender = sender.NOBODY;
    } else if (this.sender === sender.SLAVE_BYTE) {
      this.sender = (this.byte & 1) === 1 ? sender.PART : sender.MASTER;
    }
    this.clocks = 0;
    this.byte = 0;
  }
}
