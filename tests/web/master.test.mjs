// SPDX-License-Identifier: Apache-2.0
/** The other end of the wire: what a master writes and then reads comes back the same. */
import assert from 'node:assert/strict';
import { readFileSync } from 'node:fs';
import { join } from 'node:path';
import { test } from 'node:test';

import { MASTER_REFUSALS, writtenByte } from '../../web/fm3130.mjs';
import { Random, standIn, TOP } from './support.mjs';

test('bytes written and then read come back the same', () => {
  const random = new Random(11);
  const device = standIn.fresh();
  for (const count of [1, 2, 17, 255, 256]) {
    const bytes = Array.from({ length: count }, () => random.below(256));
    const address = random.below(8192);
    const sent = standIn.writeEvents(address, bytes);
    assert.equal(sent.events.length, 29 + 9 * count);
    const { flags } = standIn.writeTold(count, device.run(sent.events).answers);
    assert.deepEqual([...flags], Array(count).fill(1));
    const { events } = standIn.readEvents(address, count);
    assert.equal(events.length, 39 + 9 * count);
    assert.deepEqual([...standIn.readTold(count, device.run(events).answers).bytes], bytes);
  }
});

test('a protected byte has no flag, and a device without power gives no bytes', () => {
  const device = standIn.fresh();
  device.run([0, ...[0xD0, 0x0E, 0x08].flatMap(writtenByte), 1]);
  const { events } = standIn.writeEvents(0x07FF, [1, 2]);
  assert.deepEqual([...standIn.writeTold(2, device.run(events).answers).flags], [0, 0]);
  device.step(5);
  const { answers } = device.run(standIn.readEvents(0, 3).events);
  assert.deepEqual({ ...standIn.readTold(3, answers), bytes: 0 }, { number: 0, words: '', bytes: 0 });
  assert.equal(standIn.readTold(3, answers).bytes.length, 0);
});

test('every refusal has its number and words', () => {
  const told = ({ number, words }) => [number, words];
  const refusal = (number) => [number, MASTER_REFUSALS[number]];
  assert.deepEqual(told(standIn.writeEvents(0, new Uint8Array(257))), refusal(1));
  assert.deepEqual(told(standIn.readEvents(0, 0)), refusal(2));
  assert.deepEqual(told(standIn.readEvents(0x2000, 1)), refusal(3));
  assert.deepEqual(told(standIn.writeTold(1, [0])), refusal(5));
  assert.equal(standIn.readEvents(0, 257).events.length, 0);
});

test('the words are those of the library for Rust', () => {
  const source = readFileSync(join(TOP, 'rust/fm3130/src/master.rs'), 'utf8');
  for (const words of Object.values(MASTER_REFUSALS)) {
    assert.ok(source.includes(`"${words}"`), words);
  }
});
