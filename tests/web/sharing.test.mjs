// SPDX-License-Identifier: Apache-2.0
/** Two masters on the page beside `fm3130 share`: words, picture and problems are the same. */
import assert from 'node:assert/strict';
import { test } from 'node:test';

import { Problem } from '../../web/script.mjs';
import { heldBy, SharedPlayer, turnsOfText } from '../../web/sharing.mjs';
import { lineOf } from '../../web/transcript.mjs';
import { pictureOf } from '../../web/turns.mjs';
import { wordsOfState } from '../../web/words.mjs';
import { command, Folder, Random, SCRIPTS_OF_MASTERS, standIn } from './support.mjs';
import { randomScript, wrongScript } from './scripts.mjs';

/** A script of random turns; some of them end inside a transfer, so that the other is refused. */
function randomTurns(random) {
  const open = ['[ A0 01 23', '[ A1 r', '[', '{0101}', '5A ]', ']', 'r ]', 't', 'lost power', 'gone', 'pin=low', '[ A0+ 00 ]',
    '[ A1 r=00 ]', '[ A0 01 23 [ A1 r=5A:2 ]', ''];
  const turn = () => `${random.pick(['a', 'b'])}: ${random.below(3) === 0 ? randomScript(random) : random.pick(open)}`;
  return Array.from({ length: 1 + random.below(12) }, turn).join('\n');
}

function played(text) {
  const player = new SharedPlayer(standIn, standIn.fresh());
  player.use(turnsOfText(text));
  while (player.nextByte());
  return player;
}

/** What `fm3130 share` prints of a script. */
function printed(player) {
  const held = `Held by    ${heldBy(player.holder)}`;
  const lines = [...player.happenings.map(lineOf), '', ...player.states.flatMap(wordsOfState), held];
  return lines.map((line) => `${line}\n`).join('');
}

test('the page and the command tell and draw the same turns', () => {
  const folder = new Folder();
  const random = Array.from({ length: 120 }, (_, seed) => randomTurns(new Random(seed + 1)));
  assert.ok(SCRIPTS_OF_MASTERS.length > 0);
  let refused = 0;
  for (const text of [...SCRIPTS_OF_MASTERS.map(([, content]) => content), ...random]) {
    const path = folder.write('script.masters', text);
    const player = played(text);
    const { status, output, errors } = command('share', path, '--svg', folder.file('svg'));
    assert.equal(printed(player), output, text);
    const unmet = player.unmet.slice(0, 10).map((one) => one.shownIn(path, text));
    const more = player.unmet.length > 10 ? [`${path}: and ${player.unmet.length - 10} more`] : [];
    assert.equal(player.unmet.length === 0 ? '' : `fm3130: ${[...unmet, ...more].join('\n')}\n`, errors, text);
    assert.equal(status, player.unmet.length === 0 ? 0 : 4, text);
    if (status === 0) {
      assert.equal(pictureOf('script.masters', player.played), folder.read('svg').toString(), text);
    }
    refused += player.played.filter(({ refusal }) => refusal === 7).length;
  }
  assert.ok(refused > 50, `only ${refused} turns were refused`);
});

test('wrong scripts of two masters have the same message, place and mark', () => {
  const folder = new Folder();
  for (let seed = 1; seed <= 120; seed += 1) {
    const random = new Random(seed);
    const text = `${random.pick(['', 'a: t ', 'a:8', 't b:'])}${wrongScript(random)}\n b: ]`;
    const path = folder.write('script.masters', text);
    const { status, errors } = command('share', path, '--quiet');
    let shown = '';
    try {
      turnsOfText(text);
    } catch (problem) {
      assert.ok(problem instanceof Problem, problem);
      shown = `fm3130: ${problem.shownIn(path, text)}\n`;
    }
    if (status === 3) {
      assert.equal(shown, errors, JSON.stringify(text));
    } else {
      assert.equal(shown, '', JSON.stringify(text));
    }
  }
});

test('a turn that is too long is a problem at its place, and a refused one changes nothing', () => {
  assert.throws(() => turnsOfText('a: t\nb: t*1000001'), (problem) => problem.place.line === 2
    && problem.message === 'a turn has 1000001 events; it may have 1000000');
  const player = new SharedPlayer(standIn, standIn.fresh());
  player.use(turnsOfText('a: [ A0 01\nb: [ A0 00 00 FF ]'));
  player.nextByte();
  const before = player.device.clone();
  player.nextByte();
  assert.deepEqual([player.device.image, player.device.memory], [before.image, before.memory]);
  assert.equal(player.played[1].refusal, 7);
  assert.match(lineOf(player.happenings.at(-1)), /^b: handheld, refused: .* \(number 7\); held by a \(rig\)$/);
});
