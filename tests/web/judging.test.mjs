// SPDX-License-Identifier: Apache-2.0
/** The page's judgements beside `fm3130 judge --words`: the same lines, verdicts and drawings. */
import assert from 'node:assert/strict';
import { existsSync } from 'node:fs';
import { test } from 'node:test';

import { captureOf } from '../../web/capture.mjs';
import { atOnce, isWaveform, judgeCapture, judgeWaveform } from '../../web/judging.mjs';
import { eventsOf, planOfText } from '../../web/script.mjs';
import { command, Folder, Random, SCRIPTS, standIn } from './support.mjs';
import { randomScript } from './scripts.mjs';

const NAMES = ['SCL', 'SDA'];

/** Sees that the command, which is given some words, says of a file what a judgement says. */
function compare(folder, judgement, path, words, about) {
  const { status, output, errors } = command('judge', ...words, '--words', '--svg', folder.file('svg'));
  const lines = judgement.lines.map((line) => `${line}\n`).join('');
  assert.equal(lines, output, about);
  const told = errors.split('\n').filter((line) => !line.includes(': not drawn, since'));
  assert.equal(told.join('\n'), judgement.isGood ? '' : `fm3130: ${path}: ${judgement.verdict}\n`, about);
  assert.equal(status === 0, judgement.isGood, about);
  assert.equal(judgement.drawing ?? '', existsSync(folder.file('svg')) ? folder.read('svg').toString() : '', about);
  return judgement;
}

/** The capture of a script on a device that another one left, with an answer spoilt or not. */
function captured(text, before, spoil) {
  const device = standIn.fresh();
  device.run([...eventsOf(planOfText(before))]);
  const { image, memory } = device.clone();
  const events = Uint8Array.from(eventsOf(planOfText(text)));
  const { answers } = device.run(events);
  spoil(answers);
  return captureOf({ image, memory, events, answers });
}

const scripts = (count, begin) => Array.from({ length: count }, (_, seed) => randomScript(new Random(begin + seed)));

test('captures that agree and captures that differ, at any event', () => {
  const folder = new Folder();
  const random = new Random(5);
  const verdicts = { true: 0, false: 0 };
  for (const text of [...SCRIPTS.map(([, content]) => content), ...scripts(80, 1), '', 't*3']) {
    const before = random.pick(['', '[ A0 01', '[ D0 01 00 ] lost', '[ A1 r']);
    const file = captured(text.replace(/t\*\d{3,}/g, 't*9'), before, (answers) => {
      if (random.below(4) > 0 && answers.length > 0) {
        answers[random.below(answers.length)] ^= random.pick([1, 1, 1, 2, 8, 16]);
      }
    });
    const path = folder.write('file.capture', file);
    const { isGood } = compare(folder, atOnce(judgeCapture(standIn, file)), path, [path], text);
    verdicts[isGood] += 1;
  }
  assert.ok(verdicts.true > 10 && verdicts.false > 30, JSON.stringify(verdicts));
});

test('files that are no captures are named by their faulty entry', () => {
  const folder = new Folder();
  const sound = captured('[ A0 01 23 5A ]', '', () => {});
  const changed = (place, byte) => Uint8Array.from(sound, (one, index) => (index === place ? byte : one));
  const family = captureOf({ image: standIn.fresh('FM3164').image, memory: new Uint8Array(8192), events: [], answers: [] });
  const files = [
    new Uint8Array(), sound.subarray(0, 30), changed(0, 9), changed(12, 1), changed(5, 0), changed(8, 65), changed(20, 255),
    changed(44, 7), changed(48 + 64 + 8192, 8), changed(41, 0), family, new Uint8Array(61441),
  ];
  for (const file of files) {
    const path = folder.write('file.capture', file);
    compare(folder, atOnce(judgeCapture(standIn, file)), path, [path], `${file.length} bytes`);
  }
});

/** The waveform of a script as the command writes it. */
function waveform(folder, text) {
  command('run', folder.write('script.bus', text), '--quiet', '--vcd', folder.file('file.vcd'));
  return folder.read('file.vcd').toString();
}

const compareWaveform = (folder, text, about, names = NAMES) => {
  const path = folder.write('file.vcd', text);
  const file = new Uint8Array(folder.read('file.vcd'));
  const judgement = atOnce(judgeWaveform(standIn, path, file, standIn.fresh(), names));
  const chosen = names === NAMES ? [] : ['--scl', names[0], '--sda', names[1]];
  return compare(folder, judgement, path, ['--from-vcd', path, ...chosen], about);
};

test('waveforms of scripts agree', () => {
  const folder = new Folder();
  for (const text of [...SCRIPTS.map(([, content]) => content), ...scripts(50, 200)]) {
    compareWaveform(folder, waveform(folder, text), text);
  }
});

test('waveforms in which something is changed, at any place', () => {
  const folder = new Folder();
  const random = new Random(9);
  let differ = 0;
  for (const text of [...SCRIPTS.slice(0, 4).map(([, content]) => content), ...scripts(80, 300)]) {
    const lines = waveform(folder, `[ A0 01 23 5A ] ${text} [ A1 r:2 ]`).split('\n');
    const places = lines.map((line, place) => [line, place]).filter(([line]) => /^[01].$/.test(line));
    for (let change = 0; change < 1 + random.below(3); change += 1) {
      const [line, place] = random.pick(places);
      lines[place] = random.pick([`${line[0] === '0' ? '1' : '0'}${line[1]}`, `x${line[1]}`, `z${line[1]}`, '']);
    }
    differ += Number(!compareWaveform(folder, lines.join('\n'), lines.join('\n')).isGood);
  }
  assert.ok(differ > 20, `only ${differ} differ`);
});

test('waveforms of which nothing is judged say why', () => {
  const folder = new Folder();
  const sound = waveform(folder, '[ A0 01 23 5A ] [ A0 01 23 [ A1 r ]');
  const head = sound.slice(0, sound.indexOf('$enddefinitions') + '$enddefinitions $end\n'.length);
  const without = (name) => sound.replace(new RegExp(`\\$var wire 1 \\S+ ${name} \\$end\\n`), '');
  const texts = [
    '', 'no waveform', sound.slice(0, 40), head, without('SDA'), without('SCL'), waveform(folder, '{0101} t'),
    waveform(folder, '[ A2 01 ]'), `${head}#0 0! 0"`, `${head}#0 x! x"`, 'A'.repeat(70000),
  ];
  for (const text of texts) {
    assert.equal(compareWaveform(folder, text, text.slice(0, 200)).isGood, false);
  }
  assert.match(compareWaveform(folder, sound, 'swapped', ['SDA', 'SCL']).verdict, /swapped/);
  const renamed = sound.replaceAll(' SCL ', ' D0 ').replaceAll(' SDA ', ' D1 ');
  assert.equal(compareWaveform(folder, renamed, 'names', ['d0', 'D1']).isGood, true);
  assert.match(compareWaveform(folder, 'PK\u0003\u0004 and more', 'session').verdict, /sigrok-cli -i/);
});

test('a long waveform is judged in pieces', () => {
  const folder = new Folder();
  const long = waveform(folder, '[ A0 00 00 5A*7000 ] [ A0 00 00 [ A1 r:300 ]');
  assert.equal(compareWaveform(folder, long, 'long').isGood, true);
  const at = long.lastIndexOf('1"');
  compareWaveform(folder, `${long.slice(0, at)}0"${long.slice(at + 2)}`, 'long, spoilt');
});

test('a verdict that is none is no agreement', () => {
  const folder = new Folder();
  const strange = {
    judge: () => ({ number: 99, words: 'a number that is none', place: 5 }),
    fresh: () => standIn.fresh(),
    fromParts: (...parts) => standIn.fromParts(...parts),
  };
  const file = new TextEncoder().encode(waveform(folder, '[ A0 01 23 5A ]'));
  for (const judgement of [judgeCapture(strange, captured('[ A0 ]', '', () => {})),
    judgeWaveform(strange, 'file.vcd', file, standIn.fresh(), NAMES)].map(atOnce)) {
    assert.deepEqual([judgement.verdict, judgement.isGood, judgement.drawing], ['a number that is none', false, null]);
    assert.ok(judgement.lines.every((line) => !line.includes('agree')));
  }
});

test('a file is known by how it begins', () => {
  const bytes = (text) => new TextEncoder().encode(text);
  assert.equal(isWaveform('a', bytes(' \n$date')), true);
  assert.equal(isWaveform('a.VCD', bytes('')), true);
  assert.equal(isWaveform('a.sr', bytes('PK\u0003\u0004')), true);
  assert.equal(isWaveform('a.capture', captured('t', '', () => {})), false);
});
