// SPDX-License-Identifier: Apache-2.0
/** The judge of captures. */
import assert from 'node:assert/strict';
import { test } from 'node:test';

import { CAPTURE_VERDICTS, IMAGE_BYTES, MEMORY_BYTES } from '../../web/fm3130.mjs';
import { standIn } from './support.mjs';

const EVENTS = [0, 3, 2, 3, 2, 2, 2, 2, 2, 3, 1];

/** A capture of a fresh device with some answers; sections in the order of their kinds. */
function captureOf(answers) {
  const { image, memory } = standIn.fresh();
  const sections = [image, memory, EVENTS, answers];
  const table = Buffer.alloc(48);
  let offset = table.length;
  sections.forEach((section, index) => {
    [index + 1, offset, section.length].forEach((word, place) => table.writeUInt32LE(word, index * 12 + place * 4));
    offset += section.length;
  });
  return Buffer.concat([table, ...sections.map((section) => Uint8Array.from(section))]);
}

const verdict = (number, place) => ({ number, words: CAPTURE_VERDICTS[number], place });

test('a recording that agrees, and one that does not', () => {
  const { answers } = standIn.fresh().run(EVENTS);
  assert.deepEqual(standIn.judge(captureOf(answers)), verdict(0, 11));
  const wrong = answers.slice();
  wrong[9] ^= 1;
  assert.deepEqual(standIn.judge(captureOf(wrong)), verdict(1, 9));
});

test('files that are none', () => {
  assert.deepEqual(standIn.judge([]), verdict(2, 1));
  assert.deepEqual(standIn.judge(captureOf([1, 2])), verdict(2, 4));
  const faulty = captureOf(standIn.fresh().run(EVENTS).answers);
  faulty[48 + IMAGE_BYTES + MEMORY_BYTES] = 8;
  assert.deepEqual(standIn.judge(faulty), verdict(2, 3));
  assert.deepEqual(standIn.judge(new Uint8Array(61441)), verdict(3, 0));
});
