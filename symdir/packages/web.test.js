// Holds the edges of `web` to TypeScript's checker: each public name, followed from module to module.
import assert from 'node:assert/strict';
import test from 'node:test';

import { answer } from '../tests/helper.js';
import { webBy, webOf } from '../tests/definitions.js';
import { PACKAGES, sourcesOf } from './sources.js';
import { languageOf } from './taken.js';

for (const it of PACKAGES) {
  test(`${it.name}: ${it.place}`, (t) => {
    const folder = sourcesOf(it);
    const out = answer(['web', folder]);
    const language = languageOf(folder, it);
    const wanted = webBy(language, out.entries);
    const read = new Set(language.files.map((file) => language.short(file)));
    assert.deepEqual(webOf(out.edges.filter((/** @type {any} */ one) => read.has(one.to))), wanted);
    t.diagnostic(`${wanted.size} edges`);
  });
}
