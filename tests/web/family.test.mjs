// SPDX-License-Identifier: Apache-2.0
/** The larger family in the module: one device, a set, and every refusal. */
import assert from 'node:assert/strict';
import { readFileSync } from 'node:fs';
import { join } from 'node:path';
import { test } from 'node:test';

import { edge, edgeOf, FAMILY_REFUSALS, SET_REFUSALS } from '../../web/family.mjs';
import { event, writtenByte } from '../../web/fm3130.mjs';
import { Random, standIn, TOP } from './support.mjs';

const told = ({ number, words }) => [number, words];
const refusal = (number) => [number, FAMILY_REFUSALS[number]];
const refusalOfSet = (number) => [number, SET_REFUSALS[number]];

/** The counter bytes, 0Dh to 10h. */
const counters = ({ image }) => [...image.subarray(4, 8)];

test('edges are counted, and a memory of each size is written', () => {
  for (const [part, bytes] of [['FM3164', 8192], ['FM31256', 32768]]) {
    const device = standIn.fresh(part);
    assert.equal(device.memory.length, bytes);
    device.run([edge.CNT1, edge.CNT1, edge.CNT2]);
    assert.deepEqual(counters(device), [2, 0, 1, 0]);
    const { answers } = device.run([event.START, ...[0xA0, 0x7F, 0xFF, 0x5A].flatMap(writtenByte), event.STOP]);
    assert.deepEqual([9, 18, 27, 36].map((ninth) => answers[ninth]), [0, 0, 0, 0]);
    assert.equal(device.memory.at(-1), 0x5A);
  }
});

test('steps and runs of the same events leave the same device', () => {
  const random = new Random(17);
  const [byRun, bySteps] = [standIn.fresh('FM3164'), standIn.fresh('FM3164')];
  for (let round = 0; round < 300; round += 1) {
    const list = Array(1 + random.below(9)).fill(random.below(10));
    const { answers } = byRun.run(list);
    assert.deepEqual([...answers], list.map((one) => bySteps.step(one).answer));
    assert.deepEqual(byRun.image, bySteps.image);
  }
});

test('every refusal of a device has its number and words, and changes nothing', () => {
  const device = standIn.fresh('FM3164');
  const before = device.clone();
  assert.deepEqual(told(standIn.fromParts(device.image, new Uint8Array(32768), 'FM3164')), refusal(1));
  assert.deepEqual(told(standIn.fromParts(standIn.fresh().image, device.memory, 'FM3164')), refusal(2));
  assert.deepEqual(told(device.run([0, 10])), refusal(3));
  assert.deepEqual(told(device.run([-1])), refusal(3));
  assert.equal(device.step(10).answer, 1);
  assert.deepEqual(told(device.step(10)), refusal(3));
  assert.deepEqual(told(device.view(2, 0, 0)), refusal(5));
  assert.deepEqual(told(device.view(1, 10, 7)), refusal(6));
  assert.equal(device.view(1, 10, 6).part.length, 6);
  assert.deepEqual(device.image, before.image);
  assert.throws(() => standIn.fresh('FM3132'), TypeError);
});

test('a set: each device hears its own select bits, and an edge names its device', () => {
  const { number, set } = standIn.set([{ part: 'FM31256', select: 0 }, { part: 'FM3164', select: 2 }]);
  assert.equal(number, 0);
  set.run([event.START, ...[0xA4, 0, 0x10, 0x5A].flatMap(writtenByte), event.STOP]);
  assert.deepEqual(set.members.map(({ memory }) => memory[0x10]), [0, 0x5A]);
  set.run([edgeOf(1, edge.CNT1), edgeOf(1, edge.CNT1), edgeOf(0, edge.CNT2)]);
  assert.deepEqual(set.members.map(counters), [[0, 0, 1, 0], [2, 0, 0, 0]]);
  const other = set.clone();
  other.step(edgeOf(0, edge.CNT1));
  assert.deepEqual(counters(set.members[0]), [0, 0, 1, 0]);
});

test('every refusal of a set has its number and words', () => {
  const one = { part: 'FM3164', select: 0 };
  assert.deepEqual(told(standIn.set([])), refusalOfSet(9));
  assert.deepEqual(told(standIn.set([0, 1, 2, 3, 0].map((select) => ({ ...one, select })))), refusalOfSet(9));
  assert.deepEqual(told(standIn.set([one, { ...one, part: 'FM31256' }])), refusalOfSet(10));
  assert.deepEqual(told(standIn.set([{ ...one, select: 4 }])), refusalOfSet(2));
  assert.deepEqual(told(standIn.set([{ ...one, image: new Uint8Array(64) }])), refusalOfSet(2));
  assert.deepEqual(told(standIn.set([{ ...one, memory: new Uint8Array(8191) }])), refusalOfSet(1));
  const busy = standIn.fresh('FM3164');
  busy.run([event.START]);
  assert.deepEqual(told(standIn.set([{ ...one, image: busy.image }])), refusalOfSet(11));
  const { set } = standIn.set([one]);
  assert.deepEqual(told(set.run([10])), refusalOfSet(3));
  assert.deepEqual(told(set.run([0.5])), refusalOfSet(3));
  assert.equal(set.step(10).answer, 1);
});

test('the words are those of the library for Rust', () => {
  const source = readFileSync(join(TOP, 'rust/fm3130/src/family/refusal.rs'), 'utf8');
  const words = (name) => [...source.matchAll(new RegExp(`^ +${name}::(\\w+) => \\{?\\s*"([^"]+)"`, 'gm'))];
  const numbers = (name) => new Map([...source.matchAll(new RegExp(`^ +${name}::(\\w+) => (\\d+),`, 'gm'))]
    .map(([, refused, number]) => [refused, number]));
  for (const [name, table] of [['Refusal', FAMILY_REFUSALS], ['SetRefusal', SET_REFUSALS]]) {
    assert.equal(words(name).length, Object.keys(table).length, name);
    words(name).forEach(([, refused, said]) => assert.equal(table[numbers(name).get(refused)], said));
  }
});
