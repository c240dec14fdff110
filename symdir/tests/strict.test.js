// Shared names, by a program that gives stored answers, and by symq itself where it has strict rules.
import assert from 'node:assert/strict';
import { spawnSync } from 'node:child_process';
import test from 'node:test';

import { findSymq } from '../lib/program.js';
import { answer, folderOf, program, symdir } from './helper.js';

/** `n` comes from b.ts and c.ts, `m` from c.ts alone; index.ts passes on what middle.ts shares. */
const FILES = {
  'index.ts': 'export * from "./middle.ts";\nexport const own = 1;\n',
  'middle.ts': 'export * from "./b.ts";\nexport * from "./c.ts";\n',
  'b.ts': 'export const n = 1;\n',
  'c.ts': 'export const n = 2, m = 3;\n',
};
const AT = { index: 'file:///index.ts', middle: 'file:///middle.ts', b: 'file:///b.ts', c: 'file:///c.ts' };

/** @param {string} module @param {string} name @param {number} symbol @param {string[][]} chain */
const row = (module, name, symbol, chain) => ({ chain, module, name, symbol });
/** @param {string[][]} way @returns {any} to `n` from where `way` ends in middle.ts */
const sharedOf = (way) => [{ name: 'n', owners: [
  { chain: [...way, [AT.middle, './b.ts']], module: AT.b, symbol: 1 }, { chain: [...way, [AT.middle, './c.ts']], module: AT.c, symbol: 1 }] }];
const WAY = [[AT.index, './middle.ts']];
/** @param {string} module @param {number} symbol @param {number} start @param {number} end */
const leaf = (module, symbol, start, end) => ({ leaves: [{ decl: [symbol, 0], end, module, start, symbol }] });
/** What symq answers by strict rules. @type {[unknown[], unknown][]} */
const ANSWERS = [
  [['exports', AT.index], { exports: [row(AT.index, 'own', 1, []), row(AT.b, 'n', 1, [...WAY, [AT.middle, './b.ts']]), row(AT.c, 'm', 2, [...WAY, [AT.middle, './c.ts']])],
    shared: sharedOf(WAY), unresolved: [] }],
  [['exports', AT.middle], { exports: [row(AT.b, 'n', 1, [[AT.middle, './b.ts']]), row(AT.c, 'm', 2, [[AT.middle, './c.ts']])], shared: sharedOf([]), unresolved: [] }],
  [['exports', AT.b], { exports: [row(AT.b, 'n', 1, [])], shared: [], unresolved: [] }],
  [['exports', AT.c], { exports: [row(AT.c, 'n', 1, []), row(AT.c, 'm', 2, [])], shared: [], unresolved: [] }],
  [['leaves', AT.index, 1], leaf(AT.index, 1, 42, 49)],
  [['leaves', AT.b, 1], leaf(AT.b, 1, 13, 18)],
  [['leaves', AT.c, 2], leaf(AT.c, 2, 20, 25)],
];

/** @returns {string} a program that answers these lines alone, and only with --strict */
function stored() {
  const known = JSON.stringify(Object.fromEntries(ANSWERS.map(([query, it]) => [JSON.stringify(query), JSON.stringify(it)])));
  return program({}, 'symq', `#!${process.execPath}
const known = ${known};
if (process.argv.length !== 4 || process.argv[2] !== '--strict') process.exit(2);
require('node:readline').createInterface({ input: process.stdin }).on('line', (line) => {
  if (known[line] === undefined) throw new Error('no answer is stored for ' + line);
  console.log(known[line]);
});
`);
}

/** @returns {string[]} the programs that strict rules are asked of */
function programs() {
  const graph = folderOf({ 'graph.json': '{}' });
  const { status } = spawnSync(findSymq(undefined), ['--strict', `${graph}/graph.json`], { input: '' });
  return status === 0 ? [stored(), findSymq(undefined)] : [stored()];
}

for (const symq of programs()) {
  const words = ['--symq', symq, '--strict'];
  const by = symq === findSymq(undefined) ? 'by symq' : 'by stored answers';

  test(`api: a shared name is told with the files that it comes from, ${by}`, () => {
    const folder = folderOf(FILES);
    assert.deepEqual(symdir(['api', folder, ...words]), { status: 1, stderr: '', stdout: `index.ts: 3 public names, defined in 3 files
  m    const  c.ts:1:21  export * from "./middle.ts" > "./c.ts"
  n    const  b.ts:1:14  export * from "./middle.ts" > "./b.ts"
  own  const  index.ts:2:14
  n is re-exported via export * from 2 modules: b.ts, c.ts
` });
    const through = (/** @type {string} */ text) => [{ file: 'index.ts', text: './middle.ts' }, { file: 'middle.ts', text }];
    assert.deepEqual(answer(['api', folder, ...words]).shared, [{ module: 'index.ts', name: 'n', owners: [
      { file: 'b.ts', through: through('./b.ts') }, { file: 'c.ts', through: through('./c.ts') }] }]);
  });

  test(`missing: a shared name is a finding where its ways part, ${by}`, () => {
    const folder = folderOf(FILES);
    assert.deepEqual(symdir(['missing', folder, ...words]), { status: 1, stderr: '', stdout: `ambiguous names, re-exported via \`export *\` from several modules: 1
  n  from b.ts, c.ts  middle.ts:2:1
3 imports in 4 modules: nothing is missing, 1 shared
` });
    assert.deepEqual(answer(['missing', folder, ...words]).missing, [
      { what: 'shared', file: 'middle.ts', line: 2, column: 1, text: 'n', how: 'b.ts, c.ts' }]);
  });
}

test('without --strict nothing is told of shared names', () => {
  const folder = folderOf(FILES);
  assert.doesNotMatch(symdir(['api', folder]).stdout, /is re-exported/);
  assert.ok(!('shared' in answer(['api', folder])));
  assert.deepEqual(answer(['missing', folder]).missing, []);
});
