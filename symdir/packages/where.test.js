// Holds `where` to TypeScript's checker: every so many of the names in the files of packages, in the bodies of functions too.
import assert from 'node:assert/strict';
import test from 'node:test';

import { openFolder } from '../lib/library/index.js';
import { declaredAt, isWithoutSymbol, namesOf } from '../tests/definitions.js';
import { PACKAGES, sourcesOf } from './sources.js';
import { languageOf } from './taken.js';

/** How many names of each package are looked up. */
const WANTED = 100;

for (const it of PACKAGES) {
  test(`${it.name}: ${it.place}`, async (t) => {
    const directory = sourcesOf(it);
    const language = languageOf(directory, it);
    const all = language.sources().flatMap((file) => namesOf(language, file).flatMap((node) => {
      const places = declaredAt(language, node);
      return places ? [{ file, node, places }] : [];
    }));
    const some = all.filter((_, i) => i % Math.ceil(all.length / WANTED) === 0);
    const folder = await openFolder(directory);
    const wrong = [];
    let without = 0;
    for (const { file, node, places } of some) {
      const { line, character } = file.getLineAndCharacterOfPosition(node.getStart());
      const found = await folder.where({ file: language.short(file.fileName), line: line + 1, column: character + 1 });
      const mine = found.flatMap((one) => one.ways.flatMap(({ defined }) => (defined ? [`${defined.file}:${defined.line}:${defined.column}`] : [])));
      if (mine.length === 0 && isWithoutSymbol(language, node)) without++;
      else if ([...new Set(mine)].sort().join() !== places.join()) wrong.push(`${language.place(file, node.getStart())} ${node.text}: ${mine.join(', ')}; wanted ${places.join(', ')}`);
    }
    await folder.close();
    assert.deepEqual(wrong, []);
    t.diagnostic(`${some.length} of ${all.length} names, ${without} of type parameters and members of enums, which aren't found`);
  });
}
