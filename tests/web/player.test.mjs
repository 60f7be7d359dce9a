// SPDX-License-Identifier: Apache-2.0
/** The player of the page: what a device refuses is no answer. */
import assert from 'node:assert/strict';
import { test } from 'node:test';

import { event } from '../../web/fm3130.mjs';
import { done, Refused } from '../../web/boards.mjs';
import { Player } from '../../web/player.mjs';
import { FM3164 } from '../../web/parts.mjs';
import { planOfText } from '../../web/script.mjs';
import { SharedPlayer, turnsOfText } from '../../web/sharing.mjs';
import { lineOf } from '../../web/transcript.mjs';
import { standIn } from './support.mjs';

/** A player whose device has an image that no state writes. */
function spoilt(script) {
  const device = standIn.fresh();
  device.image[63] ^= 1;
  const player = new Player(device);
  player.use(planOfText(script));
  return player;
}

test('a refused event is thrown and leaves nothing behind', () => {
  for (const [script, act] of [
    ['', (player) => player.byHand(event.START)],
    ['', (player) => player.byHand(event.TICK)],
    ['[ A0 ]', (player) => player.nextEvent()],
    ['[ A0 ]', (player) => player.nextByte()],
    ['[ A0 ]', (player) => player.someEvents()],
    ['t*100', (player) => player.someEvents()],
  ]) {
    const player = spoilt(script);
    assert.throws(() => act(player), (thrown) => thrown instanceof Refused && thrown.number === 2, script);
    assert.deepEqual([player.shown, player.done, player.lamps, player.isAtStart], [[], 0, 0, true], script);
  }
});

/** A player of other parts whose device, or one of whose devices, has an image that no state writes. */
function spoiltOthers() {
  const alone = standIn.fresh('FM3164');
  const { set } = standIn.set([{ part: 'FM3164', select: 0 }, { part: 'FM31256', select: 1 }]);
  alone.image[63] ^= 1;
  set.members[1].image[63] ^= 1;
  return [[alone, { part: FM3164 }, 'c1'], [set, { selects: [0, 1] }, 'c1@0']];
}

test('a refused event of another part or of a set is thrown and leaves nothing behind', () => {
  for (const [device, target, edge] of spoiltOthers()) {
    for (const script of ['[ A0 ]', 't', 't*100', edge, 'lost']) {
      const player = new Player(device);
      player.use(planOfText(script, target));
      assert.throws(() => player.someEvents(), (thrown) => thrown instanceof Refused && thrown.number === 2, script);
      assert.deepEqual([player.shown, player.done, player.isAtStart], [[], 0, true], script);
    }
  }
});

test('a turn that the device refuses is told as refused, and by no acknowledge', () => {
  const device = standIn.fresh();
  device.image[63] ^= 1;
  const player = new SharedPlayer(standIn, device);
  player.use(turnsOfText('a: [ A0+ ]\nb: t'));
  while (player.nextByte());
  assert.deepEqual(player.played.map(({ refusal }) => refusal), [2, 2]);
  const lines = player.happenings.map(lineOf);
  assert.ok(lines.every((line) => /^[ab]: \w+, refused: .* \(number 2\); held by /.test(line)), lines.join('\n'));
  assert.equal(player.unmet.length, 1);
});

test('an outcome that was done is handed on', () => {
  assert.deepEqual(done({ number: 0, words: '', answers: [1] }).answers, [1]);
  assert.throws(() => done(standIn.fresh().run([8])), /some event byte is above 7 \(number 3\)/);
});
