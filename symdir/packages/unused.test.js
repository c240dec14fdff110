// Holds `symdir unused` to TypeScript's language service, which finds all references to each exported name.
import assert from 'node:assert/strict';
import test from 'node:test';

import { answer } from '../tests/helper.js';
import { unusedBy } from '../tests/wanted.js';
import { PACKAGES, sourcesOf } from './sources.js';
import { languageOf } from './taken.js';

for (const it of PACKAGES) {
  test(`${it.name}: ${it.place}`, (t) => {
    const folder = sourcesOf(it);
    const out = answer(['unused', folder]);
    const wanted = unusedBy(languageOf(folder, it), out.entries, out.entries);
    const mine = out.exports.map((/** @type {any} */ one) => `${one.file} ${one.name}`).sort();
    assert.deepEqual(out.files, wanted.files);
    assert.deepEqual(mine.filter((/** @type {string} */ one) => !wanted.exports.includes(one)), [], 'that are ours alone');
    assert.deepEqual(wanted.exports.filter((one) => !mine.includes(one)), [], 'that are TypeScript\'s alone');
    t.diagnostic(`${out.entries.length} entries, ${out.files.length} files that nothing reaches, ${mine.length} exports that nothing uses`);
  });
}
