// Holds `--watch` to fresh runs on packages that change, and `affected` to what did change: of each command the answers before and after.
import assert from 'node:assert/strict';
import { appendFileSync, readFileSync, rmSync, writeFileSync } from 'node:fs';
import path from 'node:path';
import test from 'node:test';

import { Files } from '../lib/folder/files.js';
import { isCode } from '../lib/language.js';
import { answer } from '../tests/helper.js';
import { watched } from '../tests/watching.js';
import { PACKAGES, sourcesOf } from './sources.js';

/** How many files change in each way. */
const CHANGED = 3;
/** @type {(import('./taken.js').Package & { words: string[] })[]} */
const WATCHED = [
  ...PACKAGES.filter((it) => it.name !== 'node-yjs').map((it) => ({ ...it, words: [] })),
  { name: 'libjs-three', place: '/usr/share/javascript/three', isTaken: (it) => /\.d\.ts$/.test(it), words: ['--entry', 'examples/jsm/nodes/Nodes.d.ts'] },
];

/** @param {string} folder @returns {string[]} some of its modules, by their paths, from all over it */
function someOf(folder) {
  const all = [...new Files(folder, []).all].filter((it) => isCode(it)).sort();
  return Array.from({ length: CHANGED }, (_, i) => all[Math.floor(((i + 0.5) * all.length) / CHANGED)]);
}

/** @param {string} file @param {number} i @returns {(() => void)[]} edits of it, the last of which leaves it as it was */
function editsOf(file, i) {
  const text = readFileSync(file, 'utf8');
  return [
    () => appendFileSync(file, `\nexport declare const added${i}: number;\n`),
    () => writeFileSync(file, `${text}\nexport class {`),
    () => rmSync(file),
    () => {
      writeFileSync(file, '');
      writeFileSync(file, text.replaceAll('export * from', 'export * as renamed from'));
    },
    () => writeFileSync(file, text),
  ];
}

for (const it of WATCHED) {
  for (const command of ['api', 'leaks', 'missing']) {
    test(`${it.name}: ${it.place}: ${command} --watch`, async (t) => {
      const folder = sourcesOf(it);
      const files = someOf(folder);
      await watched([command, folder, ...it.words], async (watching) => {
        for (const edit of files.flatMap(editsOf)) {
          edit();
          await watching.settled();
        }
        writeFileSync(path.join(folder, 'package.json'), JSON.stringify({ name: 'watched', main: `./${path.relative(folder, files[0])}` }));
        await watching.settled();
      });
      t.diagnostic(`${files.length * 5 + 1} changes`);
    });
  }

  test(`${it.name}: ${it.place}: affected`, (t) => {
    const folder = sourcesOf(it);
    const entries = answer(['api', folder, ...it.words]).entries.flatMap((/** @type {string} */ one) => ['--entry', one]);
    const names = () => new Map(answer(['api', folder, '--docs', ...entries]).names.map((/** @type {any} */ one) => [`${one.entry} ${one.name}`, JSON.stringify(one)]));
    const before = names();
    const counts = someOf(folder).map((file) => {
      const told = answer(['affected', folder, file, ...entries]);
      const text = readFileSync(file, 'utf8');
      writeFileSync(file, `// moved\n${text.replaceAll('export * from', 'export * as renamed from')}`);
      const now = names();
      writeFileSync(file, text);
      const touched = new Set(told.names.map((/** @type {any} */ one) => `${one.entry} ${one.name}`));
      const isListed = (/** @type {string} */ one) => touched.has(one) || told.lists.includes(one.slice(0, one.lastIndexOf(' ')));
      const changed = [...new Set([...before.keys(), ...now.keys()])].filter((one) => before.get(one) !== now.get(one));
      assert.deepEqual(changed.filter((one) => !isListed(one)), [], file);
      return `${changed.length} of ${touched.size}`;
    });
    t.diagnostic(`of ${before.size} names changed and were listed: ${counts.join(', ')}`);
  });
}
