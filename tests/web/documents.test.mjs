// SPDX-License-Identifier: Apache-2.0
/** The programs in the documents print what they say. */
import assert from 'node:assert/strict';
import { spawnSync } from 'node:child_process';
import { readFileSync } from 'node:fs';
import { join } from 'node:path';
import { test } from 'node:test';

import { TOP } from './support.mjs';

/** The programs in JavaScript of a document, and what stands behind the last comment sign of each. */
function programsOf(name) {
  const text = readFileSync(join(TOP, 'docs', name), 'utf8');
  return [...text.matchAll(/^```js\n([^]*?)^```$/gm)].map(([, program]) => [program, /.*\/\/ (.*)/.exec(program)?.[1]]);
}

for (const name of ['GUIDE.md', 'WEB.md']) {
  test(name, () => {
    const programs = programsOf(name);
    assert.ok(programs.length > 0);
    for (const [program, printed] of programs) {
      const given = { input: program, cwd: TOP, encoding: 'utf8' };
      const { stdout, stderr } = spawnSync(process.execPath, ['--input-type=module', '-'], given);
      assert.equal(stdout, `${printed}\n`, stderr);
    }
  });
}
