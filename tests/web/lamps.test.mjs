// SPDX-License-Identifier: Apache-2.0
/** The proving record: the lamps in the module, and beside the command. */
import assert from 'node:assert/strict';
import { test } from 'node:test';

import { drawingOf } from '../../web/drawing.mjs';
import { event, RECORD_BYTES } from '../../web/fm3130.mjs';
import { FEW_TICKS } from '../../web/boards.mjs';
import { Player } from '../../web/player.mjs';
import { eventsOf, planOfText } from '../../web/script.mjs';
import { panelOf } from '../../web/transcript.mjs';
import { command, Folder, Random, SCRIPTS, standIn } from './support.mjs';
import { randomScript } from './scripts.mjs';

const PROVED = '[ A0 10 00 01 01 00 01 ] [ A0 10 00 [ A1 r:4 ]';

/** The events of a script. */
const events = (text) => [...eventsOf(planOfText(text))];

test('a lamp is lit by a whole read and dark after the third tick', () => {
  const device = standIn.fresh();
  const record = new Uint8Array(RECORD_BYTES);
  assert.equal(device.lamps(record, events(PROVED)).report, 0b1011);
  assert.equal(device.lamps(record, [event.TICK, event.TICK]).report, 0b1011);
  assert.equal(device.lamps(record, [event.TICK]).report, 0);
});

test('answers, image and memory are those of the list run; a wrong record is refused', () => {
  const [one, other] = [standIn.fresh(), standIn.fresh()];
  const list = events(PROVED);
  assert.deepEqual(one.lamps(new Uint8Array(RECORD_BYTES), list).answers, other.run(list).answers);
  assert.deepEqual(one.image, other.image);
  assert.deepEqual(one.memory, other.memory);
  assert.equal(one.lamps(new Uint8Array(RECORD_BYTES - 1), []).number, 2);
  assert.equal(one.lamps(new Uint8Array(RECORD_BYTES), [8]).number, 3);
  assert.deepEqual(one.image, other.image);
});

test('a record changes no more after a few ticks', () => {
  for (let seed = 1; seed <= 200; seed += 1) {
    const record = new Uint8Array(RECORD_BYTES);
    const device = standIn.fresh();
    device.lamps(record, events(`${PROVED} ${randomScript(new Random(seed))}`).slice(0, 400));
    device.lamps(record, Array(FEW_TICKS).fill(event.TICK));
    const settled = record.slice();
    assert.equal(device.lamps(record, Array(300).fill(event.TICK)).report, 0);
    assert.deepEqual(record, settled);
  }
});

test('the page and the command show the same lamps', () => {
  const folder = new Folder();
  const random = Array.from({ length: 60 }, (_, seed) => `${PROVED} t ${randomScript(new Random(seed + 1))} ${PROVED} t*2`);
  for (const text of [...SCRIPTS.map(([, content]) => content), ...random]) {
    const player = new Player(standIn.fresh());
    player.use(planOfText(text));
    while (player.someEvents());
    player.grouping.finish();
    const { output } = command('lamps', folder.write('script.bus', text), '--svg', folder.file('svg'));
    assert.equal(panelOf(player.happenings).map((line) => `${line}\n`).join(''), output);
    assert.equal(drawingOf('script.bus', player.first, player.happenings, { hasLamps: true }), folder.read('svg').toString());
  }
});
