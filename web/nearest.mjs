// SPDX-License-Identifier: Apache-2.0
/** The known word that somebody may have meant. */

/**
 * The known word that is nearest to one, if it is near: a letter changed, left out, put in or changed places with its
 * neighbour, one for every three letters.
 */
export function nearest(word, known) {
  const most = Math.max(Math.floor([...word].length / 3), 1);
  const near = known.map((one) => ({ one, far: distance([...word], [...one]) })).filter(({ far }) => far <= most);
  return near.sort((one, other) => one.far - other.far)[0]?.one;
}

/** How many single changes make one word the other. */
function distance(one, other) {
  const rows = [Array.from({ length: other.length + 1 }, (_, index) => index)];
  one.forEach((sign, i) => {
    const row = [i + 1];
    other.forEach((wanted, j) => {
      const above = rows[i];
      const isSwapped = i > 0 && j > 0 && sign === other[j - 1] && one[i - 1] === wanted;
      row.push(Math.min(above[j] + (sign === wanted ? 0 : 1), above[j + 1] + 1, row[j] + 1,
        isSwapped ? rows[i - 1][j - 1] + 1 : Infinity));
    });
    rows.push(row);
  });
  return rows[one.length][other.length];
}
