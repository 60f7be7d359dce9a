// SPDX-License-Identifier: Apache-2.0
/** The module for browsers and Node: the exact run of 01, every refusal, and the second program's frames. */
import assert from 'node:assert/strict';
import { readFileSync } from 'node:fs';
import { join } from 'node:path';
import { test } from 'node:test';

import {
  event, IMAGE_BYTES, load, MEMORY_BYTES, MOST_TICKS, readByte, REFUSALS, selector, StandIn, TRIM_VERDICTS, writtenByte,
} from '../../web/fm3130.mjs';
import { MODULE, Random, standIn, TOP } from './support.mjs';

const hex = (bytes) => Buffer.from(bytes).toString('hex');

/** The functions that a header declares and does not define. */
function declaredIn(name) {
  const header = readFileSync(join(TOP, 'include', name), 'utf8').replace(/\/\*[^]*?\*\//g, '');
  return [...header.matchAll(/^(?!static)[a-z][^;{}#]*?\b(fm31[0-9]*_[a-z_]+)\(/gm)].map(([, found]) => found);
}

test('the module imports nothing and exports all that the headers declare', async () => {
  const module = await WebAssembly.compile(MODULE);
  assert.deepEqual(WebAssembly.Module.imports(module), []);
  const declared = [...declaredIn('fm3130.h'), ...declaredIn('fm31.h')];
  const exported = WebAssembly.Module.exports(module)
    .filter(({ kind }) => kind === 'function').map(({ name }) => name);
  assert.deepEqual(exported.sort(), declared.sort());
  assert.ok(declared.includes('fm3130_run') && !declared.includes('fm3130_view'));
  assert.ok(declared.includes('fm31256_run') && !declared.includes('fm3164_view'));
});

test('the exact run of 01', () => {
  const outcome = standIn.fresh().run([0, ...writtenByte(0xA0), 1]);
  assert.equal(outcome.number, 0);
  assert.equal(outcome.words, '');
  assert.deepEqual([...outcome.answers], [5, 5, 4, 5, 4, 4, 4, 4, 4, 4, 5]);
});

test('bytes written are read back', () => {
  const device = standIn.fresh();
  device.run([0, ...[0xA0, 0x01, 0x23, 0x5A].flatMap(writtenByte), 1]);
  assert.equal(device.memory[0x0123], 0x5A);
  const { answers } = device.run([
    0, ...[0xA0, 0x01, 0x23].flatMap(writtenByte), 0, ...writtenByte(0xA1), ...readByte(false), 1]);
  const bits = [...answers.slice(-10, -2)].map((answer) => answer & 1);
  assert.equal(Number.parseInt(bits.join(''), 2), 0x5A);
});

test('every refusal has its number and words, and changes nothing', () => {
  const fresh = standIn.fresh();
  const refusal = (number) => ({ number, words: REFUSALS[number] });
  const told = ({ number, words }) => ({ number, words });
  assert.deepEqual(told(standIn.fromParts(fresh.image, new Uint8Array(8191))), refusal(1));
  assert.deepEqual(told(standIn.fromParts(new Uint8Array(63), fresh.memory)), refusal(2));
  assert.deepEqual(told(standIn.fromParts(new Uint8Array(64), fresh.memory)), refusal(2));
  assert.equal(standIn.fromParts(new Uint8Array(64), fresh.memory).device, null);
  const device = standIn.fresh();
  for (const wrong of [[0, 1, 8], [-1], [256], [0.5], [NaN]]) {
    assert.deepEqual(told(device.run(wrong)), refusal(3));
    assert.equal(device.run(wrong).answers.length, 0);
  }
  for (const wrong of [8, 256, 2 ** 32, -1, 2n ** 64n - 1n]) {
    assert.deepEqual(told(device.step(wrong)), refusal(3));
    assert.equal(device.step(wrong).answer, 1);
  }
  assert.deepEqual(told(device.view(2, 0, 0)), refusal(5));
  assert.deepEqual(told(device.view(selector.MEMORY, 8190, 3)), refusal(6));
  assert.deepEqual(told(device.view(selector.REGISTERS, 0, 16)), refusal(6));
  assert.deepEqual(told(device.view(selector.MEMORY, 2n ** 64n - 1n, 2)), refusal(6));
  assert.deepEqual(device.image, fresh.image);
  assert.deepEqual(device.memory, fresh.memory);
});

test('the words of the refusals are those of the library for Rust', () => {
  const source = readFileSync(join(TOP, 'rust/fm3130/src/refusal.rs'), 'utf8');
  const numbers = new Map([...source.matchAll(/Refusal::(\w+) => (\d+),/g)].map(([, name, number]) => [name, number]));
  const words = [...source.matchAll(/Refusal::(\w+) => \{?\s*"([^"]+)"/g)];
  assert.equal(words.length, Object.keys(REFUSALS).length);
  for (const [, name, said] of words) {
    assert.equal(REFUSALS[numbers.get(name)], said);
  }
});

test('a view is a part, not a copy', () => {
  const device = standIn.fresh();
  const { part } = device.view(selector.MEMORY, 0x0100, 4);
  device.run([0, ...[0xA0, 0x01, 0x02, 0x77].flatMap(writtenByte), 1]);
  assert.deepEqual([...part], [0, 0, 0x77, 0]);
  assert.deepEqual([...device.view(selector.REGISTERS, 5, 3).part], [1, 1, 1]);
  assert.equal(device.view(selector.MEMORY, 8192, 0).number, 0);
});

test('steps and runs of the same events leave the same device', () => {
  const random = new Random(3);
  const [byRun, bySteps] = [standIn.fresh(), standIn.fresh()];
  for (let round = 0; round < 300; round += 1) {
    const times = 1 + random.below(9);
    const one = random.below(8);
    const { answers } = byRun.run(Array(times).fill(one));
    const steps = Array.from({ length: times }, () => bySteps.step(one));
    assert.deepEqual([...answers], steps.map(({ answer }) => answer));
    assert.deepEqual(byRun.image, bySteps.image);
    assert.deepEqual(byRun.memory, bySteps.memory);
  }
});

test('a tick says which field of the calendar it changed', () => {
  const device = standIn.fresh();
  device.run([0, ...[0xD0, 0x01, 0x00].flatMap(writtenByte), 1]);
  const rolled = Array.from({ length: 60 }, () => device.step(event.TICK).rolled);
  assert.deepEqual(rolled, [...Array(59).fill(1), 2]);
});

test('catching up is so many ticks', () => {
  const random = new Random(5);
  const device = standIn.fresh();
  device.run([0, ...[0xD0, 0x01, 0x00].flatMap(writtenByte), 1]);
  for (const ticks of [0, 1, 59, 3600, 86400, 500000, ...Array.from({ length: 20 }, () => random.below(9999))]) {
    const slept = device.clone();
    assert.deepEqual(slept.catchUp(ticks), { number: 0, words: '' });
    device.run(new Uint8Array(ticks).fill(event.TICK));
    assert.deepEqual(slept.image, device.image);
  }
  const before = device.clone();
  assert.equal(device.catchUp(MOST_TICKS + 1).number, 8);
  assert.equal(device.catchUp(2n ** 64n - 1n).words, REFUSALS[8]);
  assert.deepEqual(device.image, before.image);
  assert.equal(device.catchUp(MOST_TICKS).number, 0);
});

test('an impossible date is mended, and the registers changed are listed', () => {
  const { image, memory } = standIn.fresh();
  image.set([0x75, 0x00, 0x30, 0x00, 0x31, 0x04, 0x24], 2);
  image.set([0x00, 0x00, 0x00, 0x01, 0x30, 0x02, 0x23], 15);
  const { device } = standIn.fromParts(image, memory);
  assert.deepEqual(device.mend(), {
    number: 0,
    words: '',
    changes: [
      { register: 2, before: 0x75, after: 0x00 },
      { register: 4, before: 0x30, after: 0x00 },
      { register: 5, before: 0x00, after: 0x01 },
      { register: 6, before: 0x31, after: 0x30 },
    ],
  });
  assert.equal(device.image[19], 0x28); // the core's own date
  assert.deepEqual(device.mend().changes, []);
});

test('a long list makes the module grow, and devices stay apart', () => {
  const [one, other] = [standIn.fresh(), standIn.fresh()];
  const { answers } = one.run(new Uint8Array(1_000_000).fill(event.CLOCK_LOW));
  assert.equal(answers.length, 1_000_000);
  assert.ok(answers.every((answer) => answer === 4));
  one.run([0, ...[0xA0, 0, 0, 0x11].flatMap(writtenByte), 1]);
  assert.equal(other.memory[0], 0);
});

/** A sum over bytes in their order, below 2^32, as the second program writes it. */
function sumOf(bytes) {
  let sum = 0n;
  for (const byte of bytes) {
    sum = (sum * 257n + BigInt(byte)) % 4294967291n;
  }
  return sum.toString(16).padStart(8, '0');
}

test('the second program\'s frames give its lines', () => {
  const frames = readFileSync(join(TOP, 'crates/main_standin/stdin'));
  const lines = readFileSync(join(TOP, 'crates/main_standin/stdout'), 'utf8').trimEnd().split('\n');
  let device = standIn.fresh();
  let line = 0;
  for (let at = 0; at < frames.length;) {
    const length = frames.readUInt16LE(at);
    at += 2;
    if (length === 0xFFFF) {
      device = standIn.fresh();
    } else if (length === 0) {
      assert.equal(`image ${hex(device.image)} memory ${sumOf(device.memory)}`, lines[line], `line ${line + 1}`);
      line += 1;
    } else {
      const { number, answers } = device.run(new Uint8Array(frames.subarray(at, at + length)));
      assert.equal(`${number} ${answers.length} ${sumOf(answers)}`, lines[line], `line ${line + 1}`);
      line += 1;
      at += length;
    }
  }
  assert.equal(line, lines.length);
});

test('trim settings', () => {
  assert.equal(standIn.trimCheck(128, 0, 0).number, 0);
  assert.equal(standIn.trimCheck(128, 1, 0).number, 0);
  assert.deepEqual(standIn.trimCheck(128, 0, 1), { number: 0, words: '', residue: -128 });
  assert.deepEqual(standIn.trimCheck(-600, 1, 1), { number: 0, words: '', residue: -88 });
  assert.equal(standIn.trimCheck(-600, 1, 2).number, 1);
  assert.equal(standIn.trimCheck(0, 2, 0).number, 2);
  assert.equal(standIn.trimCheck(20001, 0, 0).number, 3);
  assert.equal(standIn.trimCheck(0, 0, 32).number, 4);
  assert.deepEqual(standIn.trimPropose(-20001), { number: 3, words: TRIM_VERDICTS[3], sign: 0, code: 0 });
  for (let error = -20000; error <= 20000; error += 37) {
    const { sign, code } = standIn.trimPropose(error);
    assert.equal(standIn.trimCheck(error, sign, code).number, 0);
  }
});

test('the module can be loaded from a file beside it or from a URL', async () => {
  const url = new URL('../../build/web/fm3130.wasm', import.meta.url);
  assert.equal((await load(url)).fresh().image.length, IMAGE_BYTES);
  const bytes = (await load(new Response(MODULE))).fresh().memory;
  assert.equal(bytes.length, MEMORY_BYTES);
});

/** A module with these entries, which do nothing and give nothing back. */
function silentModule(...names) {
  const text = (word) => [word.length, ...Buffer.from(word)];
  const section = (kind, bytes) => [kind, bytes.length, ...bytes];
  const exported = [
    ...text('memory'), 2, 0, ...text('__heap_base'), 3, 0, ...names.flatMap((name) => [...text(name), 0, 0])];
  return Uint8Array.from([
    0, 0x61, 0x73, 0x6D, 1, 0, 0, 0,
    ...section(1, [1, 0x60, 0, 0]), // one type of function, without words in or out
    ...section(3, [1, 0]),
    ...section(5, [1, 0, 1]), // a page of memory
    ...section(6, [1, 0x7F, 0, 0x41, 0x80, 0x08, 0x0B]), // __heap_base is 1024
    ...section(7, [2 + names.length, ...exported]),
    ...section(10, [1, 2, 0, 0x0B]),
  ]);
}

test('what was not answered is not taken for done', async () => {
  const silent = await load(silentModule('fm3130_run', 'fm3130_judge'));
  const { image, memory } = standIn.fresh();
  const made = silent.fromParts(image, memory);
  assert.notEqual(made.number, 0);
  assert.deepEqual([made.words, made.device], ['a number that is none', null]);
  assert.notEqual(silent.judge([]).number, 0);
});

test('a number that no table has is a refusal with words', () => {
  const odd = new StandIn({ word: () => 99, pair: () => [99, 0] });
  const { image, memory } = standIn.fresh();
  assert.deepEqual(odd.fromParts(image, memory), { number: 99, words: 'a number that is none', device: null });
  assert.equal(odd.writeEvents(0, [1]).words, 'a number that is none');
  assert.equal(odd.trimCheck(0, 0, 0).words, 'a number that is none');
  assert.throws(() => odd.fresh(), /refuses a fresh image by number 99/);
});
