// SPDX-License-Identifier: Apache-2.0
/**
 * Captures: a recorded run in one file (docs/CAPTURE.md), taken apart, written, and what is wrong with one in words.
 */
import { event, IMAGE_BYTES, MEMORY_BYTES } from './fm3130.mjs';

/** The bytes of the longest capture, and of its table of four entries. */
const MOST_BYTES = 61440;
const ENTRY_BYTES = 12;
const TABLE_BYTES = 4 * ENTRY_BYTES;

/** The most events of a capture. */
export const MOST_EVENTS = Math.floor((MOST_BYTES - TABLE_BYTES - IMAGE_BYTES - MEMORY_BYTES) / 2);

/** The sections in the order of their kinds, 1 to 4. */
const SECTIONS = ['image', 'memory', 'events', 'answers'];

/** Where the mark of an image stands, and whose images other parts' are. */
const MARK = 61;
const OTHERS_MARK = [0x31, 0xCC];

/** An entry of a file's table, counted from 0: { kind, offset, length }; null where the file ends inside it. */
function entryAt(file, index) {
  const begin = index * ENTRY_BYTES;
  if (begin + ENTRY_BYTES > file.length) {
    return null;
  }
  const view = new DataView(file.buffer, file.byteOffset + begin, ENTRY_BYTES);
  const [kind, offset, length] = [0, 4, 8].map((place) => view.getUint32(place, true));
  return { kind, offset, length };
}

const endOf = ({ offset, length }) => offset + length;

/** Whether two bodies have a byte in common. An empty one has none. */
function overlap(one, other) {
  return one.length > 0 && other.length > 0 && one.offset < endOf(other) && other.offset < endOf(one);
}

/** The sections of a sound file, which has every kind once and all bodies within it. */
export function sectionsOf(file) {
  const entries = [0, 1, 2, 3].map((index) => entryAt(file, index));
  return Object.fromEntries(SECTIONS.map((name, index) => {
    const entry = entries.find((one) => one?.kind === index + 1);
    return [name, entry === undefined ? new Uint8Array() : file.subarray(entry.offset, endOf(entry))];
  }));
}

/** A file of sections: the table, then image, memory, events and answers without gaps. */
export function captureOf(sections) {
  const bodies = SECTIONS.map((name) => sections[name]);
  const file = new Uint8Array(TABLE_BYTES + bodies.reduce((sum, body) => sum + body.length, 0));
  const table = new DataView(file.buffer);
  let offset = TABLE_BYTES;
  bodies.forEach((body, index) => {
    const entry = [index + 1, offset, body.length];
    entry.forEach((number, place) => table.setUint32(index * ENTRY_BYTES + place * 4, number, true));
    file.set(body, offset);
    offset += body.length;
  });
  return file;
}

/** Why an entry that the judge names, 1 to 4, is faulty, in words. An image of another part is named by its mark. */
export function faultOf(standIn, file, number) {
  const entry = entryAt(file, number - 1);
  if (entry === null) {
    return 'the file ends inside it';
  }
  const earlier = Array.from({ length: number - 1 }, (_, index) => [index + 1, entryAt(file, index)]);
  const clashes = earlier.map(([place, other]) => clashOf(entry, place, other)).filter((words) => words !== null);
  return faultByItself(standIn, file, entry) ?? clashes[0] ?? '';
}

function faultByItself(standIn, file, entry) {
  if (entry.kind < 1 || entry.kind > SECTIONS.length) {
    return `its kind, ${entry.kind}, is none of 1 to 4`;
  }
  if (endOf(entry) > file.length) {
    return 'its body passes the end of the file';
  }
  if (overlap(entry, { offset: 0, length: TABLE_BYTES })) {
    return 'its body overlaps the table';
  }
  return faultOfBody(standIn, entry.kind, file.subarray(entry.offset, endOf(entry)));
}

function faultOfBody(standIn, kind, body) {
  if (kind === 1 && standIn.fromParts(body, new Uint8Array(MEMORY_BYTES)).number !== 0) {
    const isOthers = OTHERS_MARK.every((byte, index) => body[MARK + index] === byte);
    const whose = isOthers ? '; it is the image of an FM3164 or an FM31256' : '';
    return `its image is not 64 bytes, or no well-formed state writes it (number 2)${whose}`;
  }
  if (kind === 2 && body.length !== MEMORY_BYTES) {
    return 'its memory is not 8,192 bytes (number 1)';
  }
  return kind === 3 && body.some((one) => one > event.POWER_RETURNED) ? 'some event byte is above 7 (number 3)' : null;
}

/** What an entry has against an earlier one. */
function clashOf(entry, place, earlier) {
  if (entry.kind === earlier.kind) {
    return `its kind is that of entry ${place}`;
  }
  if (overlap(entry, earlier)) {
    return `its body overlaps that of entry ${place}`;
  }
  return entry.kind >= 3 && earlier.kind >= 3 && entry.length !== earlier.length
    ? `events and answers are not equally many (the other is entry ${place})` : null;
}
