import assert from 'node:assert/strict';
import test from 'node:test';

import { openFolder } from '../lib/library/index.js';
import { lackingBy } from './definitions.js';
import { answer, folderOf, symdir } from './helper.js';
import { Language } from './language.js';

/** @param {Record<string, string>} files @param {string[]} words @returns {string[]} */
function missing(files, ...words) {
  const out = answer(['missing', folderOf(files), ...words]);
  return out.missing.map((/** @type {any} */ it) => `${it.what} ${it.file}:${it.line}:${it.column} ${it.how} ${it.text}`);
}

test('imports that lead to no file, by each form', () => {
  const text = 'import "./a1";\nexport * from "./a2";\nexport { x } from "./a3";\nimport r = require("./a4");\nlet t: import("./a5").T;\nfunction f() { return import("./a6"); }\n';
  assert.deepEqual(missing({ 'index.ts': text }), [
    'file index.ts:1:1 import ./a1', 'file index.ts:2:1 export * ./a2', 'file index.ts:3:1 export ./a3',
    'file index.ts:4:1 require ./a4', 'file index.ts:5:8 import type ./a5', 'file index.ts:6:23 import() ./a6']);
});

test('packages that nobody knows, and what is outside', () => {
  const files = { 'index.ts': 'import "lodash";\nimport "known";\nimport "node:fs";\nimport "https://x.org/a.ts";\nimport "jsr:@a/b";\n', 'package.json': '{"dependencies":{"known":"1"}}' };
  assert.deepEqual(missing(files), ['package index.ts:1:1 import lodash']);
  assert.deepEqual(answer(['missing', folderOf(files)]).external, ['https://x.org/a.ts', 'jsr:@a/b', 'node:fs', 'npm:known']);
});

test('names of files that configuration files give, where no file is there', () => {
  const files = {
    'index.ts': 'import "lib/gone.ts";\nimport "@u/gone";\nimport "#gone";\n',
    'deno.json': '{"imports":{"lib/":"./lib/"}}', 'tsconfig.json': '{"compilerOptions":{"paths":{"@u/*":["./u/*"]}}}',
  };
  assert.deepEqual(missing(files), ['file index.ts:1:1 import lib/gone.ts', 'file index.ts:2:1 import @u/gone', 'file index.ts:3:1 import #gone']);
});

test('imported names that aren\'t there', () => {
  assert.deepEqual(missing({
    'index.ts': 'import d, { a, b as c } from "./m";\nexport { e } from "./m";\nlet t: import("./m").T;\n',
    'm.ts': 'export const a = 1;\n',
  }), ['name index.ts:1:8 m.ts default', 'name index.ts:1:16 m.ts b', 'name index.ts:2:10 m.ts e', 'name index.ts:3:22 m.ts T']);
});

test('a name that comes along `export *` is there; `default` doesn\'t come along it', () => {
  const files = { 'index.ts': 'import { a } from "./m";\nimport d from "./m";\n', 'm.ts': 'export * from "./n";\n', 'n.ts': 'export const a = 1;\nexport default 1;\n' };
  assert.deepEqual(missing(files), ['name index.ts:2:8 m.ts default']);
});

test('`default` doesn\'t come along `export *`, whatever asks for it, as by TypeScript', async () => {
  const files = {
    'index.ts': 'import d, { default as e, other } from "./m";\nexport { default } from "./m";\nexport { default as f } from "./m";\nexport { d, e, other };\nlet t: typeof import("./m").default;\n',
    'm.ts': 'export * from "./n";\n', 'n.ts': 'export const other = 1;\nexport default class {}\n',
  };
  const folder = folderOf(files);
  const wanted = lackingBy(new Language(folder, Object.keys(files)));
  assert.deepEqual([...wanted.exports].map(([place]) => place), ['index.ts:1:8', 'index.ts:1:13', 'index.ts:2:10', 'index.ts:3:10']);
  for (const strict of [false, true]) {
    const opened = await openFolder(folder, { strict, entry: ['index.ts'] });
    const lacking = (await opened.missing()).map((it) => `${it.file}:${it.line}:${it.column} ${it.text} of ${it.how}`);
    assert.deepEqual(lacking, [...wanted.exports.keys(), 'index.ts:5:29'].map((it) => `${it} default of m.ts`));
    for (const [line, name] of /** @type {[number, string][]} */ ([[1, 'd'], [1, 'e'], [1, 'default'], [2, 'default'], [3, 'f'], [4, 'd'], [4, 'e']])) {
      const [{ ways: [{ defined, unresolved }] }] = await opened.where({ file: 'index.ts', line, name });
      assert.deepEqual([defined, unresolved], [null, { what: 'name', file: 'm.ts', name: 'default' }], name);
    }
    const names = (await opened.names()).map((it) => `${it.name} ${it.unresolved.map(({ what }) => what)}`);
    assert.deepEqual(names.sort(), ['d name', 'default name', 'e name', 'f name', 'other ']);
    const [{ uses }] = await opened.uses({ file: 'n.ts', line: 2, column: 8 });
    assert.deepEqual(uses, []);
    await opened.close();
  }
  const { status, stdout } = symdir(['where', folder, 'index.ts:1', 'd']);
  assert.deepEqual([status, stdout], [1, 'd  at index.ts:1:8\n  unresolved: m.ts has no export default    via index.ts\n']);
});

test('a name is reported where it is lacking first, and not where that leads by a re-export', () => {
  const files = {
    'index.ts': 'import { gone } from "./m";\nimport { two } from "./r";\nexport { gone, two };\n', 'r.ts': 'export { one as two } from "./m";\n',
    'm.ts': 'export * from "./n";\n', 'n.ts': 'export const a = 1;\n', 'z.ts': 'import { gone, two } from "./index";\nimport { one } from "./m";\n',
  };
  const wanted = lackingBy(new Language(folderOf(files), Object.keys(files)));
  assert.deepEqual([...wanted.exports], [['index.ts:1:10', 'gone'], ['r.ts:1:10', 'one'], ['z.ts:2:10', 'one']]);
  assert.deepEqual(missing(files), [...wanted.exports].map(([place, name]) => `name ${place} m.ts ${name}`));
});

test('a name that a package lacks in its own files is reported where this directory imports it', () => {
  const files = {
    'index.ts': 'export { one } from "p";\n', 'node_modules/p/package.json': '{ "types": "p.d.ts" }',
    'node_modules/p/p.d.ts': 'export { one } from "./q";\n', 'node_modules/p/q.d.ts': 'export declare const two: 2;\n',
  };
  assert.deepEqual(missing(files, '--packages'), ['name index.ts:1:10 node_modules/p/q.d.ts one']);
});

test('nothing is said of names that may come from what isn\'t read, or that no `export` tells', () => {
  assert.deepEqual(missing({ 'index.ts': 'import { a } from "./m";\n', 'm.ts': 'export * from "npm:far";\n' }), []);
  assert.deepEqual(missing({ 'index.ts': 'import { a } from "./m";\n', 'm.ts': 'export * from "./gone";\n' }), ['file m.ts:1:1 export * ./gone']);
  assert.deepEqual(missing({ 'index.ts': 'import a, { b } from "./m.cjs";\n', 'm.cjs': 'module.exports = { b: 1 };\n' }), []);
  assert.deepEqual(missing({ 'index.ts': 'import a, { b } from "./m";\n', 'm.d.ts': 'declare namespace m { const b: number }\nexport = m;\n' }), []);
  assert.deepEqual(missing({ 'index.ts': 'import a, { b } from "./m.json";\n', 'm.json': '{"b":1}' }), []);
  assert.deepEqual(missing({ 'index.ts': 'import { b } from "./m";\n', 'm.d.ts': 'import "./n";\ndeclare const b: number;\n', 'n.ts': '' }), []);
  assert.deepEqual(missing({ 'index.ts': 'import { b } from "./l";\n', 'l.ts': 'export * from "./m";\n', 'm.d.ts': 'import "./n";\ndeclare const b: number;\n', 'n.ts': '' }), []);
});

test('a name that is declared without `export` is lacking, but for a declaration file without `export {}`', () => {
  const files = (/** @type {string} */ end) => ({ 'index.ts': 'import { a, b } from "./m";\n', [`m${end}`]: 'export declare const b: 1;\ndeclare const a: 1;\n' });
  for (const words of [[], ['--no-ambient-exports']]) {
    assert.deepEqual(missing(files('.ts'), ...words), ['name index.ts:1:10 m.ts a']);
    assert.deepEqual(missing(files('.d.ts'), ...words), []);
  }
});

test('syntax errors, and the status', () => {
  const folder = folderOf({ 'index.ts': 'import { a } from "./b";\n', 'b.ts': 'export const a = ;\n' });
  const { status, stdout } = symdir(['missing', folder]);
  assert.equal(status, 1);
  assert.equal(stdout, `files with a syntax error, not analyzed: 1
  Expression expected.  b.ts:1:18
1 import in 2 modules: nothing is missing, 1 file not analyzed
`);
});

test('nothing is missing', () => {
  const { status, stdout } = symdir(['missing', folderOf({ 'index.ts': 'import "./a";\nimport "node:fs";\n', 'a.ts': '' })]);
  assert.deepEqual([status, stdout], [0, '2 imports in 2 modules: nothing is missing; 1 external module not checked\n']);
});
