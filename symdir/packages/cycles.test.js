// Holds `symdir cycles` to what TypeScript emits, which leaves out the imports that types alone need, and to plain searches.
import assert from 'node:assert/strict';
import test from 'node:test';

import { answer } from '../tests/helper.js';
import { circlesBy, edgesBy } from '../tests/wanted.js';
import { PACKAGES, sourcesOf } from './sources.js';
import { languageOf } from './taken.js';

for (const it of PACKAGES) {
  test(`${it.name}: ${it.place}`, (t) => {
    const folder = sourcesOf(it);
    const language = languageOf(folder, it);
    const [loaded, whole] = [edgesBy(language, true), edgesBy(language, false)];
    const { cycles, deferred } = answer(['cycles', folder]);
    const told = (/** @type {any[]} */ parts) => parts.map(({ modules, shortest, cut }) => ({ modules, length: shortest.length, opens: cut.opens }))
      .sort((a, b) => (a.modules[0] < b.modules[0] ? -1 : 1));
    assert.deepEqual(told(cycles), circlesBy(loaded, null));
    assert.deepEqual(told(deferred), circlesBy(whole, loaded));
    t.diagnostic(`${told(cycles).map((one) => `${one.modules.length} modules, shortest ${one.length}, a cut opens ${one.opens}`).join('; ') || 'no cycle'}; of types: `
      + `${told(deferred).map((one) => one.modules.length).join(', ') || 'none'}`);
  });
}
