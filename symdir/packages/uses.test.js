// Holds `symdir uses` to TypeScript's language service: all references to every so many of the names that modules export themselves.
import assert from 'node:assert/strict';
import test from 'node:test';

import { answer } from '../tests/helper.js';
import { ts } from '../tests/language.js';
import { placeOf, referencesTo } from '../tests/wanted.js';
import { PACKAGES, sourcesOf } from './sources.js';
import { languageOf } from './taken.js';

/** How many names of each package are looked up. */
const WANTED = 25;

for (const it of PACKAGES) {
  test(`${it.name}: ${it.place}`, (t) => {
    const folder = sourcesOf(it);
    const language = languageOf(folder, it);
    const all = language.sources().flatMap((file) => language.ownExports(file).flatMap((symbol) => {
      const at = placeOf(file, symbol);
      // a `default` that stands for another name has no place of its own
      const isOther = symbol.name === 'default' && (symbol.flags & ts.SymbolFlags.Alias) !== 0;
      return at === null || isOther ? [] : [{ file, at, name: symbol.name }];
    }));
    const some = all.filter((_, i) => i % Math.ceil(all.length / WANTED) === 0);
    let count = 0;
    for (const { file, at, name } of some) {
      const place = language.place(file, at);
      const { line, character } = file.getLineAndCharacterOfPosition(at);
      const wanted = referencesTo(language, file.fileName, line + 1, character + 1).map((one) => one.place);
      const [found] = answer(['uses', folder, place, '--bodies']);
      const mine = (found?.uses ?? []).filter((/** @type {any} */ one) => one.how !== 'export *').map((/** @type {any} */ one) => `${one.file}:${one.line}:${one.column}`);
      assert.deepEqual(mine.sort(), wanted, `${name} at ${place}`);
      count += wanted.length;
    }
    t.diagnostic(`${some.length} of ${all.length} names, ${count} uses`);
  });
}
