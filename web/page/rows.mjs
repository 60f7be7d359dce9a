// SPDX-License-Identifier: Apache-2.0
/** Of many rows of one height only those that are seen, so that a long list costs no more than a short one. */

/** No browser has higher elements than some millions of points; of more rows the last ones are shown. */
const MOST_POINTS = 15000000;

export class Rows {
  #make;
  #count = 0;
  #skipped = 0; // rows before the first that is shown
  #height = 1;
  #beyond; // rows that are made above and below those that are seen
  #made = new Map();

  /** Rows in an element that scrolls; `make` gives the element of a row by its place. */
  constructor(target, make, beyond = 4) {
    this.target = target;
    this.#make = make;
    this.#beyond = beyond;
    this.space = document.createElement('div');
    this.space.className = 'rows';
    target.append(this.space);
    target.addEventListener('scroll', () => this.#fill(), { passive: true });
    new ResizeObserver(() => this.#fill()).observe(target);
  }

  /**
   * Shows so many rows of a height, and brings the last into view if that is asked for. Rows that are there and stand
   * before `kept` are as they were; the others are made anew.
   */
  show(count, height, { isAtEnd = false, kept = 0 } = {}) {
    const skipped = Math.max(0, count - Math.floor(MOST_POINTS / height));
    this.#drop((index) => index >= kept || height !== this.#height || skipped !== this.#skipped);
    this.#count = count;
    this.#height = height;
    this.#skip(skipped);
    this.space.style.height = `${this.#top(count)}px`;
    if (isAtEnd) {
      this.target.scrollTop = this.target.scrollHeight;
    }
    this.#fill();
  }

  /** Says how many rows are left out. */
  #skip(skipped) {
    this.#skipped = skipped;
    this.space.toggleAttribute('data-skipped', skipped > 0);
    if (skipped > 0) {
      this.space.dataset.skipped = skipped.toLocaleString('en');
    }
  }

  /** Where a row begins; what is left out is said in a row of its own. */
  #top(index) {
    return (index - this.#skipped + Number(this.#skipped > 0)) * this.#height;
  }

  /** Brings a row into the middle of the view, unless it is seen. */
  toRow(index) {
    const top = this.space.offsetTop + this.#top(index);
    const { scrollTop, clientHeight } = this.target;
    if (top < scrollTop || top + this.#height > scrollTop + clientHeight) {
      this.target.scrollTop = top - clientHeight / 2;
    }
    this.#fill();
  }

  #drop(isDropped) {
    for (const [index, row] of this.#made) {
      if (isDropped(index)) {
        row.remove();
        this.#made.delete(index);
      }
    }
  }

  #fill() {
    const top = this.target.scrollTop - this.space.offsetTop;
    const at = this.#skipped + top / this.#height;
    const seen = this.target.clientHeight / this.#height;
    const first = Math.max(this.#skipped, Math.floor(at) - this.#beyond);
    const last = Math.min(this.#count, Math.ceil(at + seen) + this.#beyond);
    this.#drop((index) => index < first || index >= last);
    for (let index = first; index < last; index += 1) {
      if (!this.#made.has(index)) {
        this.#place(index);
      }
    }
  }

  #place(index) {
    const row = this.#make(index);
    row.dataset.index = index;
    row.style.top = `${this.#top(index)}px`;
    row.style.height = `${this.#height}px`;
    this.#made.set(index, row);
    const after = this.#made.get(index + 1);
    this.space.insertBefore(row, after ?? null);
  }
}
