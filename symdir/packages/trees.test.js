// Holds the trees of 300 real files to symq, which has to read them, and to TypeScript's binder: two names are one variable in the
// tree exactly where they are one symbol for the compiler, but for what the rules of scopes leave out.
import assert from 'node:assert/strict';
import { spawnSync } from 'node:child_process';
import { readFileSync, writeFileSync } from 'node:fs';
import path from 'node:path';
import test from 'node:test';

import { Files } from '../lib/folder/files.js';
import { languageOf } from '../lib/language.js';
import { findSymq } from '../lib/program.js';
import { nodesText } from '../lib/tree/node.js';
import { compareNames } from '../tests/binder.js';
import { folderOf } from '../tests/helper.js';
import { nodesOf } from '../lib/tree/convert.js';

const FOLDERS = ['/usr/share/nodejs/undici-types', '/usr/share/nodejs/@lumino', '/usr/share/nodejs/graphql', '/usr/share/nodejs/lib0', '/usr/share/javascript/three'];
const WANTED = 300;

/** @returns {string[]} every so many of the modules of the folders */
function someFiles() {
  const all = FOLDERS.flatMap((it) => new Files(it, [/\.min\.js$/, /\/build\//]).code());
  const step = Math.max(1, Math.floor(all.length / WANTED));
  return all.filter((_, i) => i % step === 0).slice(0, WANTED);
}

test('symq reads the trees of 300 files, with bodies and without', () => {
  const files = someFiles();
  assert.equal(files.length, WANTED);
  for (const bodies of [false, true]) {
    const modules = files.map((file) => {
      const made = nodesOf(file, readFileSync(file, 'utf8').replace(/^\ufeff/, ''), { ...languageOf(file), bodies, ambient: false });
      const tree = made.nodes ? `,"tree":{"nodes":${nodesText(made.nodes)}}` : '';
      return `{"specifier":${JSON.stringify(`file://${file}`)},"kind":"esm","text":${JSON.stringify(made.text)}${tree}}`;
    });
    const graph = path.join(folderOf({}), 'graph.json');
    writeFileSync(graph, `{"modules":[${modules.join(',')}]}`);
    const { status, stderr } = spawnSync(findSymq(undefined), [graph], { input: '', encoding: 'utf8' });
    assert.deepEqual([status, stderr], [0, '']);
  }
});

test('names are one variable where the compiler says so', (t) => {
  const found = someFiles().map((it) => compareNames(it, readFileSync(it, 'utf8').replace(/^\ufeff/, '')));
  const wrong = found.flatMap((it) => it.wrong);
  t.diagnostic(`${found.reduce((sum, it) => sum + it.count, 0)} names, ${wrong.length} of them otherwise`);
  assert.deepEqual(wrong.slice(0, 20), []);
});
