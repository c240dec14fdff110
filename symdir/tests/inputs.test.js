// What answers rest on, as the command takes it from symq.
import assert from 'node:assert/strict';
import test from 'node:test';

import { begin } from '../lib/folder/begin.js';
import { Folder } from '../lib/folder/folder.js';
import { publicNames } from '../lib/commands/api.js';
import { findLeaks } from '../lib/commands/leaks.js';
import { findMissing } from '../lib/commands/missing.js';
import { Failure } from '../lib/failure.js';
import { askInputs, keyOf } from '../lib/inputs/inputs.js';
import { partOf, reachedFrom } from '../lib/inputs/part.js';
import { changedBetween, statesOf } from '../lib/inputs/states.js';
import { findSymq } from '../lib/program.js';
import { folderOf } from './helper.js';

/** @param {string} folder @param {(folder: Folder) => Promise<void>} work */
async function opened(folder, work) {
  const reading = { folder, skip: [], bodies: false, ambient: true, javascript: false, packages: false, cache: false, progress: () => {} };
  const begun = await begin(reading, { symq: findSymq(undefined) });
  const made = await Folder.read(begun, { entry: [] });
  try {
    made.open({ symq: findSymq(undefined) });
    await work(made);
  } finally {
    await made.close();
  }
}

const FILES = {
  'index.ts': 'import d, { a as b } from "./a";\nimport * as all from "./c";\nexport * from "./a";\nexport * from "./gone";\nexport { b, d, all };\nexport type T = import("./c").C;\n',
  'a.ts': 'export { c } from "./c";\nimport type { C } from "./c";\nexport const a: C = 1;\nexport default class {}\n', 'c.ts': 'export type C = D;\ninterface D {}\nexport const c: D = 1;\n',
  'x.js': 'export const x = 1;\n', 'x.d.ts': 'export declare const x: Y;\ninterface Y {}\n', 'y.ts': 'import { x, z } from "./x.js";\nimport "far";\nexport { x, z };\n',
};

test('queries of one key have the same inputs, and a graph has all that they name under what they lead to', () => opened(folderOf(FILES), async (folder) => {
  await publicNames(folder);
  await findLeaks(folder);
  await findMissing(folder, true);
  const { known } = /** @type {import('../lib/symq.js').Symq} */ (folder.symq);
  const queries = [...known.keys()].map((it) => JSON.parse(it));
  const kinds = new Set(queries.map(([what]) => what));
  assert.deepEqual([...kinds].sort(), ['deps', 'exports', 'leaves', 'name', 'paths', 'resolve']);
  const answers = await folder.ask(queries.map((it) => ['inputs', it]));
  /** @type {Map<string, Set<string>>} */
  const byKey = new Map();
  queries.forEach((query, i) => {
    const mine = new Set(answers[i].inputs.map((/** @type {any} */ it) => it.specifier));
    assert.equal(answers[i].inputs[0].specifier, query[1]);
    assert.deepEqual(byKey.get(keyOf(query)) ?? mine, mine, JSON.stringify(query));
    byKey.set(keyOf(query), mine);
    const reached = reachedFrom(folder.sources, [query[1]]);
    assert.deepEqual([...mine].filter((it) => !reached.has(it) && folder.sources.modules.has(it)), []);
  });
  assert.ok(byKey.size < queries.length);
}));

test('the part of a graph that some modules lead to, with types beside JavaScript', () => opened(folderOf(FILES), async ({ sources }) => {
  const reached = reachedFrom(sources, ['file:///a.ts', 'file:///none.ts']);
  assert.deepEqual([...reached].sort(), ['file:///a.ts', 'file:///c.ts']);
  const { modules, rows } = partOf(sources, reached);
  assert.deepEqual(modules.map(({ it }) => it.specifier), ['file:///a.ts', 'file:///c.ts']);
  assert.deepEqual(rows, ['["file:///a.ts","./c","file:///c.ts"]']);
}));

test('where two graphs differ', () => {
  const before = new Map([['a', '1'], ['b', '1'], ['c', '1']]);
  assert.deepEqual([...changedBetween(before, new Map([['d', '1'], ['b', '2'], ['c', '1']]))].sort(), ['a', 'b', 'd']);
  assert.deepEqual([...changedBetween(before, before)], []);
});

test('a module differs by its text, by what it imports and by its place; not by when it was read', async () => {
  const folder = folderOf(FILES);
  /** @type {Map<string, string>} */
  let first = new Map();
  await opened(folder, async ({ sources }) => void (first = statesOf(sources)));
  await opened(folder, async ({ sources }) => assert.deepEqual(statesOf(sources), first));
  await opened(folderOf({ ...FILES, 'gone.ts': '', 'c.ts': `${FILES['c.ts']}// c\n` }), async ({ sources }) => {
    assert.deepEqual([...changedBetween(first, statesOf(sources))].sort(), ['file:///c.ts', 'file:///gone.ts', 'file:///index.ts']);
  });
});

test('a symq that has no inputs is told as older; one that meets a limit leaves them unknown', async () => {
  const queries = new Map([['key', ['exports', 'a']]]);
  await assert.rejects(askInputs({ ask: async () => [{ fault: 'bad query' }] }, queries), (error) => error instanceof Failure && error.status === 3 && /older than symdir/.test(error.message));
  assert.deepEqual(await askInputs({ ask: async () => [{ fault: 'limit' }] }, queries), new Map([['key', null]]));
});
