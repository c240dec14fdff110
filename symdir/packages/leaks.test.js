// Holds `leaks` to TypeScript's checker: the types that the declarations behind public names refer to by what is written, and that no entry exports.
import assert from 'node:assert/strict';
import test from 'node:test';

import { answer } from '../tests/helper.js';
import { leaksBy } from '../tests/leaking.js';
import { PACKAGES, sourcesOf } from './sources.js';
import { languageOf } from './taken.js';

for (const it of PACKAGES) {
  test(`${it.name}: ${it.place}`, (t) => {
    const folder = sourcesOf(it);
    const out = answer(['leaks', folder]);
    const wanted = leaksBy(languageOf(folder, it), out.entries);
    const mine = out.leaks.map((/** @type {any} */ one) => `${one.file}:${one.line}:${one.column}`).sort();
    assert.deepEqual(mine.filter((/** @type {string} */ one) => !wanted.includes(one)), [], 'that are ours alone');
    assert.deepEqual(wanted.filter((one) => !mine.includes(one)), [], 'that are TypeScript\'s alone');
    t.diagnostic(`${mine.length} leaks`);
  });
}
