// SPDX-License-Identifier: Apache-2.0
/** The drawing that is drawn row by row is the one that is drawn at once. */
import assert from 'node:assert/strict';
import { test } from 'node:test';

import { drawingOf } from '../../web/drawing.mjs';
import { Player } from '../../web/player.mjs';
import { planOfText } from '../../web/script.mjs';
import { Strip } from '../../web/strip.mjs';
import { Random, SCRIPTS, standIn } from './support.mjs';
import { randomScript } from './scripts.mjs';

/** The rows of a whole drawing. */
const rowsOf = (drawing) => [...drawing.matchAll(/<g transform="translate\(0,\d+\)">\n([^]*?)<\/g>\n/g)].map(([, row]) => row);

/** Sees that both drawings of a player have the same rows. */
function compare(strip, player, name) {
  const pending = player.grouping.pending();
  const { count, hasLamps, textOf } = strip.rows(player.happenings, pending);
  const whole = drawingOf('', player.first, [...player.happenings, ...pending], { hasLamps });
  assert.deepEqual(Array.from({ length: count }, (_, index) => textOf(index)), rowsOf(whole), name);
}

test('rows that are drawn one by one are those of the whole drawing', () => {
  const lamp = '[ A0 10 02 01 ] [ A0 10 02 [ A1 r ] t*2 ';
  const random = Array.from({ length: 60 }, (_, seed) => {
    const pieces = Array.from({ length: 4 }, (__, piece) => randomScript(new Random(97 * seed + piece + 1)));
    return (seed % 3 === 0 ? lamp : '') + pieces.join('\n');
  });
  for (const text of [...SCRIPTS.map(([, content]) => content), ...random]) {
    const player = new Player(standIn.fresh());
    player.use(planOfText(text));
    const strip = new Strip(player.first);
    for (let step = 0; player.nextEvent(); step += 1) {
      if (step % 101 === 0) {
        compare(strip, player, text);
      }
    }
    compare(strip, player, text);
  }
});

test('a long run has its rows at hand', () => {
  const player = new Player(standIn.fresh());
  player.use(planOfText('[ A0 00 00 FF*20000 ]'));
  const strip = new Strip(player.first);
  while (player.someEvents()) {
    strip.follow(player.happenings);
  }
  const begun = performance.now();
  const { count, textOf } = strip.rows(player.happenings, player.grouping.pending());
  const some = [0, 1, count >> 1, count - 1].map(textOf);
  assert.ok(performance.now() - begun < 100);
  assert.ok(count > 2500 && some.every((row) => row.includes('FFh') || row.includes('>P<')));
});
