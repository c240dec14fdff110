// Holds what is taken of TypeScript to the whole of it: it parses real files as that does, whole, and cut off in their middle.
import assert from 'node:assert/strict';
import { readFileSync } from 'node:fs';
import { createRequire } from 'node:module';
import path from 'node:path';
import test from 'node:test';

import { Files } from '../lib/folder/files.js';
import { parserOf, ts } from '../lib/tree/typescript.js';
import { findTypeScript } from '../lib/typescript.js';
import { parsedBy } from '../tests/parsing.js';

const FOLDERS = ['/usr/share/nodejs/undici-types', '/usr/share/nodejs/@lumino', '/usr/share/nodejs/graphql', '/usr/share/nodejs/lib0', '/usr/share/javascript/three'];
const WANTED = 400;

test('what is taken of TypeScript parses real files as the whole does', () => {
  const { file } = findTypeScript(process.cwd());
  const text = readFileSync(file, 'utf8');
  const taken = /** @type {string} */ (parserOf(text));
  assert.ok(taken.length < text.length / 2);
  /** @type {typeof import('typescript')} */
  const whole = createRequire(import.meta.url)(file);
  assert.ok(!('createProgram' in ts) || !isThere(() => ts.createProgram));
  const files = [...FOLDERS, path.dirname(file)].flatMap((it) => new Files(it, [/typescript\.js$|tsc?\.js$|tsserver/]).code());
  const step = Math.ceil(files.length / WANTED);
  const some = files.filter((_, i) => i % step === 0);
  assert.ok(some.length > WANTED / 2);
  let faulty = 0;
  for (const it of some) {
    const all = readFileSync(it, 'utf8');
    for (const one of [all, all.slice(0, all.length / 2)]) {
      const [ours, theirs] = [ts, whole].map((from) => parsedBy(from, it, one));
      if (theirs.said.length > 0) faulty++;
      assert.deepEqual(ours, theirs, it);
    }
  }
  assert.ok(faulty > some.length / 4);
});

/** @param {() => unknown} value @returns {boolean} whether there is one: what a part that isn't taken declares can't be read */
function isThere(value) {
  try {
    return value() !== undefined;
  } catch {
    return false;
  }
}
