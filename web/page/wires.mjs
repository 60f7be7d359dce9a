// SPDX-License-Identifier: Apache-2.0
/** The wires, or the turns of two masters, in an element that scrolls: a head, and of the rows those that are seen. */
import { headOf, HEAD, WIDTH } from '../drawing-page.mjs';
import { heightOfRow } from '../drawing-row.mjs';
import { A_ROW, TURNS_ROW, TURNS_WIDTH, turnsHead, turnsRow } from '../turns.mjs';
import { Rows } from './rows.mjs';
import { element } from './views.mjs';

/** A drawing in a narrower window is moved sideways, and not made smaller. */
const LEAST_WIDTH = 900;

/** An element with a drawing of some shapes; their texts are escaped where they are made (drawing-page.mjs). */
function drawing(shapes, width, height) {
  const made = element('div', 'drawn');
  made.innerHTML = `<svg xmlns="http://www.w3.org/2000/svg" viewBox="0 0 ${width} ${height}" `
    + `font-family="DejaVu Sans, Verdana, sans-serif">${shapes}</svg>`;
  return made;
}

export class Wires {
  #shown = null;
  #wide = 0;

  constructor(target) {
    this.target = target;
    this.head = element('div', 'drawn-head');
    this.foot = element('p', 'drawn-foot');
    target.append(this.head);
    this.rows = new Rows(target, (index) => {
      const { textOf, width, height } = this.#shown;
      return drawing(textOf(index), width, height);
    }, 1);
    target.append(this.foot);
    new ResizeObserver(() => this.#fit()).observe(target);
  }

  /** Shows the rows of a strip (strip.mjs); those of one title that are full stay as they are. */
  showStrip(title, set, { count, full, hasLamps, textOf }, isCut) {
    const height = heightOfRow(hasLamps);
    this.#show({ head: headOf(title, set), width: WIDTH, height, count, textOf, full });
    this.foot.textContent = isCut ? 'The drawing stops here; the run goes on.' : '';
  }

  /** Shows the turns of two masters. */
  showTurns(title, played) {
    const count = Math.max(1, Math.ceil(played.length / A_ROW));
    const textOf = (index) => turnsRow(played, index);
    const full = Math.floor(played.length / A_ROW);
    this.#show({ head: turnsHead(title), width: TURNS_WIDTH, height: TURNS_ROW, count, textOf, full });
    this.foot.textContent = '';
  }

  /** Forgets what was drawn: another run begins. */
  begin() {
    this.#shown = null;
    this.rows.show(0, 1);
  }

  #show(shown) {
    const kept = this.#shown === null ? 0 : this.#shown.full;
    if (shown.head !== this.#shown?.head) {
      this.head.replaceChildren(drawing(shown.head, shown.width, HEAD));
    }
    this.#shown = shown;
    this.#fit({ isAtEnd: true, kept });
  }

  /** Gives the rows the height that they have at this width. */
  #fit(how) {
    if (this.#shown !== null) {
      const { width, height, count } = this.#shown;
      const wide = Math.max(LEAST_WIDTH, this.target.clientWidth);
      if (wide !== this.#wide) {
        this.#wide = wide;
        this.target.style.setProperty('--wide', `${wide}px`);
      }
      this.rows.show(count, (height * wide) / width, how);
    }
  }
}
