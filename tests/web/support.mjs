// SPDX-License-Identifier: Apache-2.0
/** What the tests share: the loaded stand-in, random numbers that come back, and the command fm3130. */
import { spawnSync } from 'node:child_process';
import { mkdtempSync, readdirSync, readFileSync, rmSync, writeFileSync } from 'node:fs';
import { tmpdir } from 'node:os';
import { join } from 'node:path';
import { fileURLToPath } from 'node:url';

import { load } from '../../web/fm3130.mjs';

/** The repository's top. */
export const TOP = fileURLToPath(new URL('../..', import.meta.url));

/** The bytes of the module under test. */
export const MODULE = readFileSync(join(TOP, 'build/web/fm3130.wasm'));

/** The scripts of scripts/ with an ending: names and texts. */
const scriptsWith = (ending) => readdirSync(join(TOP, 'scripts')).filter((name) => name.endsWith(ending))
  .map((name) => [name, readFileSync(join(TOP, 'scripts', name), 'utf8')]);
const ALL_SCRIPTS = scriptsWith('.bus');
export const SCRIPTS_OF_SETS = scriptsWith('.set');
export const SCRIPTS_OF_MASTERS = scriptsWith('.masters');

/** Those for another part say so in a comment. */
const isOfAnotherPart = ([, text]) => text.includes('--part ');
export const SCRIPTS_OF_OTHER_PARTS = ALL_SCRIPTS.filter(isOfAnotherPart);
export const SCRIPTS = ALL_SCRIPTS.filter((script) => !isOfAnotherPart(script));

export const standIn = await load(MODULE);

/** A source of random numbers: the same ones for the same seed (xorshift). */
export class Random {
  constructor(seed) {
    this.state = seed * 2654435761 >>> 0 || 1;
  }

  /** A number below a limit. */
  below(limit) {
    this.state ^= this.state << 13;
    this.state ^= this.state >>> 17;
    this.state ^= this.state << 5;
    this.state >>>= 0;
    return this.state % limit;
  }

  pick(list) {
    return list[this.below(list.length)];
  }
}

const folders = [];
process.on('exit', () => folders.forEach((path) => rmSync(path, { recursive: true, force: true })));

/** A folder that is gone at the end of the tests. */
export class Folder {
  constructor() {
    this.path = mkdtempSync(join(tmpdir(), 'fm3130-web-'));
    folders.push(this.path);
  }

  file(name) {
    return join(this.path, name);
  }

  write(name, content) {
    writeFileSync(this.file(name), content);
    return this.file(name);
  }

  read(name) {
    return readFileSync(this.file(name));
  }
}

/** Runs the command fm3130, or the program that FM3130 names. Returns { status, output, errors }. */
export function command(...words) {
  const program = process.env.FM3130 ?? join(TOP, 'build/cargo/release/fm3130');
  const { status, stdout, stderr, error } = spawnSync(program, words, { encoding: 'utf8', maxBuffer: 1 << 28 });
  if (error) {
    throw error;
  }
  return { status, output: stdout, errors: stderr };
}
