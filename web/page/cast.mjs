// SPDX-License-Identifier: Apache-2.0
/**
 * What a script is played on, a cast: { kind: 'part', part }, { kind: 'set', members } with { part, select } for each
 * device, or { kind: 'masters' }, two masters and an FM3130.
 */
import { FM3130, partOf } from '../parts.mjs';

/** The words of two masters in a link. */
const TWO_MASTERS = 'two-masters';

/** What the page begins with. */
export const ONE_FM3130 = Object.freeze({ kind: 'part', part: FM3130 });

/** A set as it is first shown. */
export const FIRST_SET = Object.freeze([{ part: 'FM31256', select: 0 }, { part: 'FM3164', select: 1 }]);

/** A cast in words: fm3164, fm31256@0+fm3164@2, two-masters. */
export function wordsOfCast({ kind, part, members }) {
  if (kind === 'masters') {
    return TWO_MASTERS;
  }
  return kind === 'part' ? part.name.toLowerCase() : members.map(wordsOfMember).join('+');
}

/** A device of a set in words: fm3164@2. */
const wordsOfMember = ({ part, select }) => `${part.toLowerCase()}@${select}`;

/** The cast that words name; null where they name none. */
export function castOfWords(words) {
  if (words === TWO_MASTERS) {
    return { kind: 'masters' };
  }
  const named = words.split('+').map((word) => /^(fm[0-9]+)(?:@([0-3]))?$/.exec(word));
  if (named.some((one) => one === null || partOf(one[1]) === undefined)) {
    return null;
  }
  const members = named.map(([, name, select]) => ({ part: partOf(name).name, select: Number(select) }));
  if (named.length === 1 && named[0][2] === undefined) {
    return { kind: 'part', part: partOf(members[0].part) };
  }
  return named.every((one) => one[2] !== undefined) ? { kind: 'set', members } : null;
}

/** The cast of a script of scripts/: two masters by its ending, other parts by a comment that says how it is played. */
export function castOfScript(name, text) {
  if (name.endsWith('.masters')) {
    return { kind: 'masters' };
  }
  const words = [...text.matchAll(/--part (\S+)/g)].map(([, word]) => word);
  return words.length === 0 ? ONE_FM3130 : castOfWords(words.join('+')) ?? ONE_FM3130;
}

/** What a script of a cast is for (script.mjs). */
export function targetOf({ part, members }) {
  return members ? { selects: members.map(({ select }) => select) } : { part: part ?? FM3130 };
}

/** What a cast begins with, fresh: { number, words, device }. */
export function freshOf(standIn, { part, members }) {
  if (members) {
    const { number, words, set } = standIn.set(members);
    return { number, words, device: set };
  }
  return { number: 0, words: '', device: standIn.fresh((part ?? FM3130).name) };
}

/** The devices of a device or of a set, each { image, memory } and its name. */
export function membersOf(device) {
  return device.members
    ? device.members.map((one) => ({ ...one, name: `${one.part}@${one.select}` }))
    : [{ image: device.image, memory: device.memory, name: device.part }];
}

/** One list of bytes of all devices, one after the other, as the command's files have them. */
export function joined(device, which) {
  const all = membersOf(device).map((one) => one[which]);
  const bytes = new Uint8Array(all.reduce((sum, { length }) => sum + length, 0));
  let end = 0;
  for (const one of all) {
    bytes.set(one, end);
    end += one.length;
  }
  return bytes;
}

/** A device or a set of a cast, of bytes as files have them: { number, words, device }. */
export function madeOf(standIn, cast, images, memories) {
  if (!cast.members) {
    return standIn.fromParts(images, memories, (cast.part ?? FM3130).name);
  }
  let end = { image: 0, memory: 0 };
  const whole = cast.members.map((member, place) => {
    const isLast = place === cast.members.length - 1; // it takes what is too much, so that it is refused
    const next = { image: end.image + 64, memory: end.memory + partOf(member.part).memoryBytes };
    const image = images.slice(end.image, isLast ? undefined : next.image);
    const memory = memories.slice(end.memory, isLast ? undefined : next.memory);
    end = next;
    return { ...member, image, memory };
  });
  const { number, words, set } = standIn.set(whole);
  return { number, words, device: set };
}
