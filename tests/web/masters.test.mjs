// SPDX-License-Identifier: Apache-2.0
/** Two masters on one device. */
import assert from 'node:assert/strict';
import { test } from 'node:test';

import { event, master, REFUSALS } from '../../web/fm3130.mjs';
import { standIn } from './support.mjs';

test('the bus is asked for, held and freed', () => {
  const device = standIn.fresh();
  const bus = new Uint8Array([master.NOBODY]);
  const notHeld = { number: 7, words: REFUSALS[7] };
  assert.equal(standIn.ask(bus, master.RIG).number, 0);
  assert.deepEqual([...bus], [master.RIG]);
  assert.deepEqual(standIn.ask(bus, master.HANDHELD), notHeld);
  assert.deepEqual([...device.call(bus, master.RIG, [event.START]).answers], [5]);
  const before = device.clone();
  assert.deepEqual(device.call(bus, master.HANDHELD, [event.STOP]), { ...notHeld, answers: new Uint8Array() });
  assert.deepEqual(device.image, before.image);
  assert.equal(device.call(bus, master.HANDHELD, [event.TICK]).number, 0);
  assert.equal(device.call(bus, master.RIG, [event.STOP]).number, 0);
  assert.deepEqual([...bus], [master.NOBODY]);
});

test('wrong masters, bus bytes and events are refused in order', () => {
  const device = standIn.fresh();
  assert.equal(standIn.ask(new Uint8Array([0]), 3).number, 2);
  assert.equal(standIn.ask(new Uint8Array([3]), master.RIG).number, 2);
  assert.equal(standIn.ask(new Uint8Array(2), master.RIG).number, 2);
  assert.equal(device.call(new Uint8Array([0]), master.RIG, [8, 0]).number, 3);
  assert.equal(device.call(new Uint8Array([0]), master.RIG, [0]).number, 7);
  assert.equal(device.call(new Uint8Array([0]), master.RIG, [-1]).number, 3);
});
