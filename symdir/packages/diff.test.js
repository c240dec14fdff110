// Holds what `symdir diff` compares, as snapshots have it, to TypeScript's own checker: names, what they can be used as, members and signatures.
import assert from 'node:assert/strict';
import { readFileSync } from 'node:fs';
import path from 'node:path';
import test from 'node:test';

import { readSurface } from '../lib/surface/text.js';
import { answer, folderOf, symdir } from '../tests/helper.js';
import { surfaceBy, tokensOf } from '../tests/wanted.js';
import { PACKAGES, sourcesOf } from './sources.js';
import { languageOf } from './taken.js';

/** @typedef {import('./sources.js').Package} Package */

/** @type {Package[]} */
const TYPED = [...PACKAGES.filter((it) => it.name !== 'node-yjs'),
  { name: 'node-undici', place: '/usr/share/nodejs/undici-types', isTaken: (it) => /\.d\.ts$|^package\.json$/.test(it) }];
/** What such a word before a signature says isn't compared here. */
const WORDS = /^((static|readonly|protected|abstract|get|set|declare) ?)+/;
const MEANINGS = /** @type {Record<string, string>} */ ({ class: 'tv', enum: 'tv', interface: 't', type: 't', namespace: 'n' });

/** @param {string} kind @returns {string} what it can be used as: t, v, or both; of a namespace that isn't known */
function meaningOf(kind) {
  return [...new Set(kind.split('+').flatMap((it) => [...(Object.hasOwn(MEANINGS, it) ? MEANINGS[it] : 'v')]))].sort().join('');
}

for (const it of TYPED) {
  test(`${it.name}: ${it.place}`, (t) => {
    const folder = sourcesOf(it);
    const file = path.join(folderOf({}), 'names.txt');
    const { status, stderr } = symdir(['api', folder, '--save', file]);
    assert.equal(status, stderr === '' ? 0 : 1, stderr);
    const { items } = readSurface(readFileSync(file, 'utf8'), file);
    const mine = new Map(items.filter((one) => !/ |\[/.test(one.name) && one.name.split(/[.#]/).length < 3).map((one) => [`${one.entry} ${one.name}`, one]));
    const language = languageOf(folder, it);
    const wanted = surfaceBy(language, [...new Set(items.map((one) => one.entry))]);
    assert.deepEqual([...mine.keys()].filter((one) => !wanted.has(one)), [], 'that are ours alone');
    assert.deepEqual([...wanted.keys()].filter((one) => !mine.has(one)), [], 'that are TypeScript\'s alone');
    let signatures = 0;
    for (const [key, { meaning, signature }] of wanted) {
      const one = /** @type {import('../lib/surface/surface.js').Item} */ (mine.get(key));
      if (!/namespace|\?/.test(one.kind) && meaning !== null) assert.equal(meaningOf(one.kind), meaning, key);
      if (signature === null || one.signature === null) continue;
      assert.deepEqual(tokensOf(one.signature.replace(WORDS, '')), tokensOf(signature), key);
      signatures++;
    }
    assert.deepEqual(answer(['diff', folder, file]), { advice: null, changes: [] });
    t.diagnostic(`${mine.size} names and members, ${signatures} signatures`);
  });
}
