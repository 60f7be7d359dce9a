// SPDX-License-Identifier: Apache-2.0
/** A recording that is judged: the verdict, the recording in words, and the wires around an answer that differs. */
import { isWaveform, judgeCapture, judgeWaveform } from '../judging.mjs';
import { FM3130 } from '../parts.mjs';
import { onLoad } from './files.mjs';
import { Rows } from './rows.mjs';
import { element, LINE } from './views.mjs';

const at = (id) => document.getElementById(id);

/** How long a judgement may keep the page from being drawn, in milliseconds. */
const PATIENCE = 25;

/** The judgement that a function gives at last; between its pieces the page is drawn. */
async function whole(judging) {
  let drawn = performance.now();
  for (;;) {
    const { done, value } = judging.next();
    if (done) {
      return value;
    }
    if (performance.now() - drawn > PATIENCE) {
      await new Promise((resolve) => { setTimeout(resolve); });
      drawn = performance.now();
    }
  }
}

/**
 * The device that a waveform begins with: fresh, or the FM3130 of the page as it is now; null where that is another
 * part.
 */
function beginningOf(standIn, player) {
  if (at('judge-begin').value !== 'shown') {
    return standIn.fresh();
  }
  return player.first.part === FM3130 ? player.device.clone() : null;
}

const NO_FM3130 = Object.freeze({
  verdict: 'not judged: the device above is no FM3130', isGood: false, lines: [], drawing: null,
});

/** What is shown of a recording. */
class Judged {
  constructor(standIn, playerOf) {
    this.standIn = standIn;
    this.playerOf = playerOf;
    this.lines = [];
    this.rows = new Rows(at('judgement'), (index) => element('div', '', this.lines[index]));
  }

  async take(name, file) {
    this.#show({ verdict: '', isGood: true, lines: [], drawing: null }, `${name} is being judged.`);
    this.latest = file;
    const judgement = await this.#judge(name, file);
    if (this.latest === file) { // and not another that was given meanwhile
      this.#show(judgement, `${name}: ${judgement.verdict}`);
    }
  }

  #judge(name, file) {
    if (!isWaveform(name, file)) {
      return whole(judgeCapture(this.standIn, file));
    }
    const begin = beginningOf(this.standIn, this.playerOf());
    const names = [at('scl-name').value, at('sda-name').value];
    return begin === null ? NO_FM3130 : whole(judgeWaveform(this.standIn, name, file, begin, names));
  }

  #show({ isGood, lines, drawing }, words) {
    at('verdict').textContent = words;
    at('verdict').className = isGood ? '' : 'bad';
    this.lines = lines;
    at('judgement').hidden = lines.length === 0;
    this.rows.show(lines.length, LINE, { isAtEnd: true });
    at('judged-wires').hidden = drawing === null;
    at('judged-wires').innerHTML = drawing === null ? '' : drawing.replace(/^<\?xml.*\n/, '');
  }
}

/** Judges the files that are given. */
export function connectJudge(standIn, playerOf) {
  const judged = new Judged(standIn, playerOf);
  onLoad(at('judge'), (name, bytes) => judged.take(name, bytes));
}
