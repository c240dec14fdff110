// Holds `missing` to what TypeScript's language service says of imports, on packages of which some files and names are taken away.
import assert from 'node:assert/strict';
import { readFileSync, rmSync, writeFileSync } from 'node:fs';
import path from 'node:path';
import test from 'node:test';

import { answer } from '../tests/helper.js';
import { lackingBy } from '../tests/definitions.js';
import { PACKAGES, sourcesOf } from './sources.js';
import { languageOf } from './taken.js';

/** @param {string} folder @param {string[]} names of its files takes away every 20th file, and of others what every 7th exports first */
function spoil(folder, names) {
  names.forEach((name, i) => {
    const file = path.join(folder, name);
    if (i % 20 === 10) rmSync(file);
    else if (i % 7 === 3) writeFileSync(file, readFileSync(file, 'utf8').replace(/^export (?=(declare |abstract |async )*(const|function|class|interface|type|enum) (?!\{))/m, ''));
  });
}

for (const it of PACKAGES) {
  test(`${it.name}: ${it.place}`, (t) => {
    const folder = sourcesOf(it);
    const count = (/** @type {boolean} */ isSpoilt) => {
      const language = languageOf(folder, it, { checkJs: true });
      const wanted = lackingBy(language);
      const out = answer(['missing', folder]);
      const by = (/** @type {string[]} */ ...what) => out.missing.filter((/** @type {any} */ one) => what.includes(one.what));
      const outside = new Set(out.external.map((/** @type {string} */ one) => one.replace(/^npm:/, '')));
      const modules = [...wanted.modules].filter(([, text]) => !outside.has(text)).map(([place, text]) => `${place.replace(/:\d+$/, '')} ${text}`);
      assert.deepEqual(by('file', 'package').map((/** @type {any} */ one) => `${one.file}:${one.line} ${one.text}`).sort(), modules.sort());
      const exports = [...wanted.exports.keys()].sort();
      assert.deepEqual(by('name').map((/** @type {any} */ one) => `${one.file}:${one.line}:${one.column}`).sort(), exports);
      const syntax = [...wanted.syntax].map(([place, text]) => `${place} ${text}`);
      assert.deepEqual(by('syntax').map((/** @type {any} */ one) => `${one.file}:${one.line}:${one.column} ${one.text}`), syntax);
      assert.equal(isSpoilt, modules.length > 0);
      return `${syntax.length} syntax errors, ${modules.length} modules, ${exports.length} exports, ${wanted.open.size} that may come along an export * that resolves to no file`;
    };
    const whole = count(false);
    spoil(folder, languageOf(folder, it).files.map((one) => path.relative(folder, one)));
    t.diagnostic(`whole: ${whole}; spoilt: ${count(true)}`);
  });
}
