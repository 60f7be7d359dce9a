// SPDX-License-Identifier: Apache-2.0
/**
 * The page's words beside the command's: the same scripts go to both, and events, answers, listing, words, drawing,
 * image and memory must be the same text and bytes.
 */
import assert from 'node:assert/strict';
import { test } from 'node:test';

import { drawingOf } from '../../web/drawing.mjs';
import { listingOf } from '../../web/listing.mjs';
import { FM3130, FM3164, FM31256 } from '../../web/parts.mjs';
import { Player } from '../../web/player.mjs';
import { eventsOf, planOfText, Problem } from '../../web/script.mjs';
import { busWords, phase } from '../../web/state.mjs';
import { lineOf } from '../../web/transcript.mjs';
import { memoryLines, wordsOfState } from '../../web/words.mjs';
import { command, Folder, Random, SCRIPTS, SCRIPTS_OF_OTHER_PARTS, SCRIPTS_OF_SETS, standIn } from './support.mjs';
import { ofSet, ONE_WITH_COUNTERS, randomScript, wrongScript } from './scripts.mjs';

const RANDOM_SCRIPTS = 300;
const WRONG_SCRIPTS = 300;
const FAMILY_SCRIPTS = 120;

/** What a script is played on: the words that choose it, what the script is for, and what it begins with. */
const FM3130_ALONE = {
  words: [], target: { part: FM3130 }, fresh: () => standIn.fresh(), selects: [], titles: [''],
};
const partAlone = (part) => ({
  words: ['--part', part.name.toLowerCase()], target: { part }, fresh: () => standIn.fresh(part.name), selects: [], titles: [''],
});
const FAMILY = [partAlone(FM3164), partAlone(FM31256)];
/** A set of devices such as FM3164@2. */
function setOf(...names) {
  const members = names.map((name) => ({ part: name.split('@')[0], select: Number(name.split('@')[1]) }));
  const selects = members.map(({ select }) => select);
  return {
    words: names.flatMap((name) => ['--part', name.toLowerCase()]),
    target: { selects },
    fresh: () => standIn.set(members).set,
    selects,
    titles: names.map((name) => `${name}\n`),
  };
}
const SETS = [
  setOf('FM31256@0', 'FM3164@1', 'FM3164@2', 'FM31256@3'), setOf('FM3164@2'), setOf('FM3164@3', 'FM31256@0'),
  setOf('FM31256@1', 'FM31256@3', 'FM3164@0'),
];

/** The devices of what a script is played on. */
const membersOf = (device) => device.members ?? [device];

/** Plays a script on a device; also gives the answers, which are asked of a second device. */
function play(text, device, target = FM3130_ALONE.target) {
  const player = new Player(device);
  player.use(planOfText(text, target));
  while (player.someEvents());
  player.grouping.finish();
  return player;
}

/** What `fm3130 run` prints of a played script. */
function printed(player, titles = ['']) {
  const begins = player.first.phase === phase.IDLE ? [] : [`begins inside: ${busWords(player.first)}`];
  const lines = [...begins, ...player.happenings.map(lineOf)].map((line) => `${line}\n`);
  const ends = player.states.map((state, place) =>
    `\n${titles[place]}${wordsOfState(state).map((line) => `${line}\n`).join('')}`);
  return [...lines, ...ends].join('');
}

/** Gives a script to both; `device` is what it begins with. Returns the device after it. */
function compare(folder, name, text, device, cast = FM3130_ALONE) {
  const script = folder.write('script.bus', text);
  const { words, target } = cast;
  const joined = (part) => Buffer.concat(membersOf(device).map((one) => one[part]));
  const [image, memory] = [folder.write('image', joined('image')), folder.write('memory', joined('memory'))];
  cast.selects.length > 0 && ['image.plan', 'memory.plan'].forEach((plan) =>
    folder.write(plan, words.filter((word) => word !== '--part').map((word) => `${word}\n`).join('')));
  const [answers, svg, events] = ['answers', 'svg', 'events'].map((part) => folder.file(part));

  assert.equal(command('events', script, ...words, '-o', events).status, 0, name);
  const ran = command('run', script, ...words, '--image', image, '--memory', memory, '--answers', answers, '--svg', svg);
  const list = [...eventsOf(planOfText(text, target))];
  assert.deepEqual(Buffer.from(list), folder.read('events'), `${name}: events`);
  assert.deepEqual(Buffer.from(device.clone().run(list).answers), folder.read('answers'), `${name}: answers`);
  if (cast.selects.length === 0) {
    const listed = listingOf(list).map((line) => `${line}\n`).join('');
    assert.equal(listed, command('events', '--list', events, ...words).output, `${name}: listing`);
  }

  const player = play(text, device, target);
  assert.equal(printed(player, cast.titles), ran.output, `${name}: words ${ran.errors}`);
  assert.equal(drawingOf('script.bus', player.first, player.happenings, { set: cast.selects }), folder.read('svg').toString(),
    `${name}: drawing`);
  const left = (part) => Buffer.concat(membersOf(player.device).map((one) => one[part]));
  assert.deepEqual(left('image'), folder.read('image'), `${name}: image`);
  assert.deepEqual(left('memory'), folder.read('memory'), `${name}: memory`);
  if (cast.selects.length === 0) {
    assert.equal(memoryLines(0, player.device.memory).map((line) => `${line}\n`).join(''),
      command('view', '--memory', memory, ...words).output, `${name}: memory in words`);
  }
  return player.device;
}

test('the scripts of scripts/', () => {
  const folder = new Folder();
  for (const [name, text] of SCRIPTS) {
    compare(folder, name, text, standIn.fresh());
  }
});

test('random scripts, each on the device that the one before left', () => {
  const folder = new Folder();
  let device = standIn.fresh();
  for (let seed = 1; seed <= RANDOM_SCRIPTS; seed += 1) {
    const text = randomScript(new Random(seed));
    device = compare(folder, `seed ${seed}: ${text}`, text, device);
    if (seed % 20 === 0) {
      device = standIn.fresh();
    }
  }
});

test('the scripts of other parts and of sets', () => {
  const folder = new Folder();
  for (const [name, text] of SCRIPTS_OF_OTHER_PARTS) {
    FAMILY.forEach((cast) => compare(folder, name, text, cast.fresh(), cast));
  }
  assert.ok(SCRIPTS_OF_SETS.length > 0);
  for (const [name, text] of SCRIPTS_OF_SETS) {
    compare(folder, name, text, SETS[0].fresh(), SETS[0]);
  }
});

test('random scripts of parts with counters, each on the device that the one before left', () => {
  const folder = new Folder();
  for (const cast of FAMILY) {
    let device = cast.fresh();
    for (let seed = 1; seed <= FAMILY_SCRIPTS; seed += 1) {
      const text = randomScript(new Random(seed), ONE_WITH_COUNTERS);
      device = compare(folder, `seed ${seed}: ${text}`, text, seed % 20 === 0 ? cast.fresh() : device, cast);
    }
  }
});

test('random scripts of sets', () => {
  const folder = new Folder();
  for (let seed = 1; seed <= FAMILY_SCRIPTS; seed += 1) {
    const cast = SETS[seed % SETS.length];
    const text = randomScript(new Random(seed), ofSet(cast.selects));
    compare(folder, `seed ${seed}: ${text}`, text, cast.fresh(), cast);
  }
});

test('long runs of ticks', () => {
  const folder = new Folder();
  const clock = '[ D0 01 00 ] [ D0 00 02 ] [ D0 02 58 59 23 07 30 11 99 ] [ D0 00 00 ] ';
  const alarm = '[ D0 09 30 80 80 80 80 80 ] [ D0 00 08 ] ';
  const texts = ['t*59', 't*86400', 't*3000000', 't*65536', 't*65537 [ t*65535 {0} t*131073 ]', 't*70000 t*70000'];
  for (const text of texts) {
    compare(folder, text, clock + text, standIn.fresh());
    compare(folder, `alarm, ${text}`, clock + alarm + text, standIn.fresh());
  }
});

test('a century is slept through', () => {
  const folder = new Folder();
  const text = '[ D0 01 00 ] [ D0 09 80 80 80 29 02 ] [ D0 0E 80 ] [ D0 00 08 ] t*3155760000 [ D0 00 [ D1 r:15 ]';
  const { output } = command('run', folder.write('script.bus', text));
  assert.equal(printed(play(text, standIn.fresh())), output);
  assert.match(output, /36525 days/);
});

test('a script of another part is a clear error, as the command says it', () => {
  const folder = new Folder();
  assert.ok(SCRIPTS_OF_OTHER_PARTS.length > 0);
  for (const [, text] of [...SCRIPTS_OF_OTHER_PARTS, ['', '[ A0 c2 ]'], ['', 'c1*7']]) {
    const path = folder.write('script.bus', text);
    const { status, errors } = command('run', path);
    assert.equal(status, 3);
    assert.match(errors, /c[12] is an edge on CNT[12], and the FM3130 has no counters/);
    assert.throws(() => planOfText(text), (problem) => `fm3130: ${problem.shownIn(path, text)}\n` === errors);
  }
  assert.equal(planOfText('C1 0xc1').length, 2);
});

/** What the command and the player say of expectations that are not met. */
function unmetOf(folder, text, cast = FM3130_ALONE) {
  const path = folder.write('script.bus', text);
  const { status, errors } = command('run', path, '--quiet', ...cast.words);
  const { unmet } = play(text, cast.fresh(), cast.target);
  const shown = unmet.slice(0, 10).map((one) => one.shownIn(path, text));
  const more = unmet.length > 10 ? [`${path}: and ${unmet.length - 10} more`] : [];
  return { status, errors, shown: unmet.length === 0 ? '' : `fm3130: ${[...shown, ...more].join('\n')}\n` };
}

/** Sees that command and page say the same of expectations that are not met. */
function compareUnmet(folder, text, cast) {
  const { status, errors, shown } = unmetOf(folder, text, cast);
  assert.equal(shown, errors, text);
  assert.equal(status, shown === '' ? 0 : 4, text);
}

test('expectations are held as the command holds them', () => {
  const folder = new Folder();
  for (const [name, text] of SCRIPTS) {
    assert.deepEqual(unmetOf(folder, text), { status: 0, errors: '', shown: '' }, name);
  }
  const texts = [
    '[ A0+ 01+ 23+ 5A+ ] [ A0 01 23 [ A1 r=5B ]', '[ A0- A2+ ]', '[ A2 r=FF ]', 'r=FF', '[ A1 r=00:4 r=01:3 r:2 ]',
    'pin=low', 't pin=square pin=high t', '[ D0 00 04 ] pin=calibration\npin=released', '[ D0 09 30 80 80 80 80 ]\n'
    + '[ D0 0E 80 ] [ D0 00 08 ] [ D0 01 00 ] t*29 pin=high t pin=low t*3 pin=high', '[ A1 {11} r=00 A0+ ]',
    `pin=low [ A0 00 00 ${'FF- '.repeat(12)}]`, 'gone pin=released power pin=low',
  ];
  texts.forEach((text) => compareUnmet(folder, text, FM3130_ALONE));
});

test('expectations of parts with counters and of sets are held as the command holds them', () => {
  const folder = new Folder();
  const texts = [
    '[ A0+ 01+ 23+ 5A+ ] [ A0 01 23 [ A1 r=5B ]', '[ D0- A2+ ]', '[ A2+ 00- ] [ A2 r=FF ]', '[ D0 18+ 00+ ] [ D0 19+ ]',
    '[ A4 00 10 5A ] [ A4 00 10 [ A5 r=5A ]', '[ A6+ 00+ 00+ 11- ]',
  ];
  for (const text of texts) {
    [...FAMILY, ...SETS].forEach((cast) => compareUnmet(folder, text, cast));
  }
});

test('wrong scripts have the same message, place and mark', () => {
  const folder = new Folder();
  let wrong = 0;
  const casts = [[FM3130_ALONE, null], [FAMILY[0], ONE_WITH_COUNTERS], [SETS[2], ofSet(SETS[2].selects)]];
  for (let seed = 1; seed <= WRONG_SCRIPTS; seed += 1) {
    const [{ words, target }, pieces] = casts[seed % casts.length];
    const text = wrongScript(new Random(seed), pieces);
    const path = folder.write('script.bus', text);
    const { status, errors } = command('events', path, ...words, '-o', folder.file('events'));
    let shown = '';
    try {
      planOfText(text, target);
    } catch (problem) {
      assert.ok(problem instanceof Problem, problem);
      shown = `fm3130: ${problem.shownIn(path, text)}\n`;
      wrong += 1;
    }
    assert.equal(shown, errors, `seed ${seed}: ${JSON.stringify(text)}`);
    assert.equal(status, shown === '' ? 0 : 3);
  }
  assert.ok(wrong > WRONG_SCRIPTS / 2, `only ${wrong} scripts were wrong`);
});

test('a drawing that is too long stops at the same place', () => {
  const folder = new Folder();
  compare(folder, 'long', '[ A0 00 00 FF*4200 ] t lost power', standIn.fresh());
});
