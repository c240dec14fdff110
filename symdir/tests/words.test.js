// What is told of names agrees with TypeScript's checker: what it finds is found, at the same places, and nothing is told as lacking
// that it finds.
import assert from 'node:assert/strict';
import { spawnSync } from 'node:child_process';
import { readFileSync, writeFileSync } from 'node:fs';
import path from 'node:path';
import test from 'node:test';
import { fileURLToPath } from 'node:url';

import { answer, folderOf, symdir } from './helper.js';

const CHECKER = fileURLToPath(new URL('../packages/checker.js', import.meta.url));

/** @param {string} folder @param {string} entry @returns {Record<string, string[]>} the places of each name that TypeScript's checker finds */
function theirs(folder, entry) {
  const { status, stdout, stderr } = spawnSync(process.execPath, [CHECKER, path.join(folder, entry)], { encoding: 'utf8' });
  assert.equal(status, 0, stderr);
  const { names } = JSON.parse(stdout);
  return Object.fromEntries(Object.entries(names).map(([name, places]) => [
    name, places.map((/** @type {any} */ [file, line, column]) => `${path.relative(folder, file)}:${line}:${column}`).sort()]));
}

/** @param {string} folder @returns {Record<string, string[]>} */
function ours(folder, /** @type {string[]} */ ...words) {
  return Object.fromEntries(answer(['api', folder, ...words]).names.map((/** @type {any} */ it) => [
    it.name, it.defined.map((/** @type {any} */ at) => `${at.file}:${at.line}:${at.column}`).sort()]));
}

/** @param {Record<string, string>} files of which the first is the entry @param {string[]} [apart] names that symdir tells beside TypeScript's */
function agree(files, apart = []) {
  const folder = folderOf(files);
  const wanted = theirs(folder, Object.keys(files)[0]);
  const found = ours(folder);
  for (const it of apart) {
    assert.ok(it in found && !(it in wanted), it);
    delete found[it];
  }
  assert.deepEqual(found, wanted);
  assert.ok(Object.keys(found).length > 0);
  return folder;
}

const EQUALS = `declare function c(): c.I;
declare namespace c {
  interface I { x: number }
  function f(): void;
  const one: number, two: number;
  namespace inner { const deep: 1; }
}
export = c;
`;

test('names through `export =` are those of the namespace behind it', () => {
  const folder = agree({ 'index.ts': 'export { I, f as g, inner } from "./c";\nimport { two } from "./c";\nexport { two };\n', 'c.d.ts': EQUALS });
  assert.deepEqual(answer(['missing', folder]).missing, []);
  assert.deepEqual(answer(['web', folder]).lost, []);
  const [{ ways }] = answer(['where', folder, 'index.ts:1', 'I']);
  assert.deepEqual(ways.map((/** @type {any} */ it) => it.defined), [{ kind: 'interface', file: 'c.d.ts', line: 3, column: 13 }]);
});

test('a name through `export =` that isn\'t among them is told as not known, everywhere', () => {
  const folder = folderOf({ 'index.ts': 'export { gone } from "./c";\n', 'c.d.ts': EQUALS });
  const end = { what: 'unknown', file: 'c.d.ts', name: 'gone', why: 'has export =' };
  const { status, stdout } = symdir(['api', folder]);
  assert.deepEqual([status, stdout], [0, 'index.ts: 1 public name\n  gone    not known: c.d.ts has export =\n']);
  assert.deepEqual(answer(['api', folder]).names[0].unresolved, [end]);
  assert.deepEqual(answer(['where', folder, 'index.ts:1']).map((/** @type {any} */ it) => it.ways[0].unresolved), [end]);
  assert.deepEqual(answer(['missing', folder]).missing, []);
  assert.deepEqual(answer(['web', folder]).lost, []);
});

test('names of CommonJS, JSON and an `export *` that isn\'t read are told as not known, everywhere', () => {
  const folder = folderOf({
    'index.mjs': 'import a from "./a.js";\nimport { b } from "./b.json";\nexport { a, b };\nexport { d } from "./d.mjs";\n',
    'a.js': 'module.exports = class A {};\n', 'b.json': '{ "b": 1 }', 'd.mjs': 'export * from "npm:far";\n' });
  const found = answer(['api', folder]).names.map((/** @type {any} */ it) => [it.name, it.unresolved.map((/** @type {any} */ end) => `${end.what} ${end.file} ${end.why}`)]);
  assert.deepEqual(found, [['a', ['unknown a.js is CommonJS']], ['b', ['unknown b.json is JSON']], ['d', ['unknown d.mjs has an export * whose names aren\'t known']]]);
  assert.equal(symdir(['api', folder]).status, 0);
  assert.deepEqual(answer(['missing', folder]).missing, []);
  assert.deepEqual(answer(['web', folder]).lost, []);
  assert.deepEqual(answer(['where', folder, 'index.mjs:1', 'a']).map((/** @type {any} */ it) => it.ways[0].unresolved.what), ['unknown']);
});

test('`default` of a declaration file that may be one of CommonJS is told as not known, and of a source as lacking', () => {
  const folder = folderOf({ 'index.mts': 'import a from "./a.js";\nexport { a };\nexport { default as b } from "./b.ts";\n', 'a.d.ts': 'export const x: 1;\n', 'b.ts': 'export const x = 1;\n' });
  assert.deepEqual(answer(['api', folder]).names.map((/** @type {any} */ it) => it.unresolved[0].what), ['unknown', 'name']);
  assert.deepEqual(answer(['missing', folder]).missing.map((/** @type {any} */ it) => `${it.line} ${it.text}`), ['3 default']);
});

test('`default` of other declaration files: that of a module of ECMAScript lacks it, and CommonJS may have it', () => {
  const text = 'export const x: 1;\n';
  const folder = folderOf({ 'index.mts': 'export { default as a } from "./a.cjs";\nexport { default as b } from "./b.mjs";\nexport { default as c } from "./c.d.js";\n', 'a.d.cts': text, 'b.d.mts': text, 'c.d.tsx': 'export const x = 1;\n' });
  // the last one is a source, whatever stands before its ending
  assert.deepEqual(answer(['api', folder]).names.map((/** @type {any} */ it) => it.unresolved[0].what), ['unknown', 'name', 'name']);
});

test('names along several modules with `export =`, each of which passes on the next', () => {
  // symq follows the one import itself, and the other is followed up to sixteen times
  for (const [count, next] of /** @type {[number, (to: string) => string][]} */ ([[9, (to) => `import x = require("./${to}");\n`], [15, (to) => `import * as x from "./${to}";\n`]])) {
    const chain = Object.fromEntries(Array.from({ length: count }, (_, i) => [`m${i}.d.ts`, `${next(i < count - 1 ? `m${i + 1}` : 'c')}export = x;\n`]));
    const folder = agree({ 'index.ts': 'export { I, f, inner } from "./m0";\n', ...chain, 'c.d.ts': EQUALS });
    assert.deepEqual(answer(['missing', folder]).missing, []);
  }
});

test('a name that a namespace of a module with `export =` lacks isn\'t looked for behind it', () => {
  const folder = folderOf({ 'c.d.ts': 'declare namespace c { const q: 1; namespace n { const r: 1; } }\nimport x = c.n.q;\nexport = c;\n' });
  const ends = answer(['where', folder, 'c.d.ts:2', 'x'])[0].ways.map((/** @type {any} */ it) => it.unresolved?.what);
  assert.deepEqual(ends, ['name']);
});

test('`export =` of a namespace lists its members, as TypeScript does, with `default` beside', () => {
  agree({ 'index.d.ts': EQUALS }, ['default']);
  agree({ 'index.d.ts': 'export = a.b;\ndeclare namespace a { namespace b { interface I {} class C {} type T = 1; enum E { x } } namespace other { const z: 1; } }\n' }, []);
  agree({ 'index.d.ts': 'import x = require("./c");\nexport = x;\n', 'c.d.ts': EQUALS }, ['default']);
  agree({ 'index.d.ts': 'import * as x from "./c";\nexport = x;\n', 'c.d.ts': 'export const a: 1;\nexport * from "./d";\n', 'd.d.ts': 'export const b: 1;\n' }, ['default']);
  agree({ 'index.ts': 'namespace n { export const seen = 1; const own = 2; export { own as other }; }\nexport = n;\n' }, ['default']);
  agree({ 'index.d.ts': 'declare namespace n { const seen: 1; const own: 2; interface I {} export { own as other, I }; }\nexport = n;\n' }, ['default']);
  agree({ 'index.d.ts': 'declare namespace n { const a: 1; }\ndeclare namespace n { const b: 1; interface a {} }\nexport = n;\n' }, ['default']);
  agree({ 'index.ts': 'namespace n { interface a {} class own {} }\nnamespace n { export const a = 1; }\nnamespace n { type a = 1; export class c {} }\nexport = n;\n' }, ['default']);
});

test('`import a = require(..)` of a module without `export =` is all of it, and of one with it what stands behind that', () => {
  const c = 'export interface I { x: number }\nexport default class D {}\n';
  const folder = agree({ 'index.ts': 'import c = require("./c");\nexport { c };\nexport import d = require("./c");\nexport type T = c.I;\n', 'c.ts': c });
  assert.deepEqual(answer(['missing', folder]).missing, []);
  const [{ ways }] = answer(['where', folder, 'index.ts:4', 'c.I']);
  assert.deepEqual(ways.map((/** @type {any} */ it) => it.defined), [{ kind: 'interface', file: 'c.ts', line: 1, column: 18 }]);
  agree({ 'index.ts': 'import c = require("./c");\nexport { c };\n', 'c.d.ts': EQUALS });
  // what it is follows the other module, though the one that imports it is what it was
  const later = folderOf({ 'index.ts': 'import c = require("./c");\nexport { c };\n', 'c.d.ts': EQUALS });
  assert.deepEqual(ours(later), theirs(later, 'index.ts'));
  writeFileSync(path.join(later, 'c.d.ts'), 'export const other: 1;\n');
  assert.deepEqual(ours(later), theirs(later, 'index.ts'));
  assert.deepEqual(ours(later), theirs(later, 'index.ts'));
});

test('declaration files export by TypeScript\'s rule, and by Deno\'s where that is asked for', () => {
  const files = { 'index.d.ts': 'import "./a";\ndeclare const b: number;\nexport declare const c: number;\n', 'a.ts': '' };
  const folder = agree(files);
  assert.deepEqual(Object.keys(ours(folder, '--ambient-exports')), ['b', 'c']);
  assert.deepEqual(Object.keys(ours(folder, '--no-ambient-exports')), ['c']);
  const entry = folderOf({ 'index.ts': 'export { b } from "./m";\n', 'm.d.ts': files['index.d.ts'], 'a.ts': '' });
  assert.equal(symdir(['api', entry]).status, 0);
  assert.deepEqual(answer(['api', entry, '--no-ambient-exports']).names[0].unresolved, [
    { what: 'unknown', file: 'm.d.ts', name: 'b', why: 'declares it without export' }]);
});

test('each name of a pattern has its own place', () => {
  agree({ 'index.ts': 'export const { a, b: { c, d = 1 }, ...rest } = { a: 1, b: { c: 1 }, e: 1 };\nexport let [x, , y] = [1, 2, 3];\nconst { p, q } = { p: 1, q: 2 };\nexport { p as r, q };\n' });
  agree({ 'index.ts': 'export const { aa, a, aaa: a1 } = { a: 1, aa: 2, aaa: 3 };\n' });
});

test('a type of the same name that isn\'t exported isn\'t told as the public one', () => {
  const map = 'declare type AnyMap = { new (x: string): AnyMap };\nexport declare const AnyMap: AnyMap;\nexport {};\n';
  const folder = agree({ 'index.d.ts': map });
  assert.deepEqual(answer(['api', folder]).names[0].kind, 'const');
  const other = agree({ 'index.ts': 'export { AnyMap } from "./map";\n', 'map.d.ts': map });
  assert.deepEqual(answer(['where', other, 'index.ts:1']).map((/** @type {any} */ it) => it.ways.map((/** @type {any} */ way) => way.defined.line)), [[2]]);
  // where both are exported, both are told
  agree({ 'index.ts': 'type A = 1;\nconst A = 1;\nexport { A };\nexport type B = 1;\nexport const B = 1;\n' });
  agree({ 'index.d.ts': 'import "./a";\nexport declare const A: 1;\ndeclare type A = 1;\n', 'a.ts': '' });
});

test('`export * as ns` leads to the module, with the statement beside', () => {
  const folder = agree({
    'index.ts': 'export * as ns from "./b";\nimport * as all from "./b";\nexport { all };\nimport { deep } from "./c";\nexport { deep };\n',
    'b.ts': '// a comment\nexport const b = 1;\n', 'c.ts': 'import * as deep from "./b";\nexport { deep };\n' });
  assert.equal(symdir(['api', folder]).stdout, `index.ts: 3 public names, defined in 1 file
  all   namespace  b.ts:2:1  import * as all from "./b" in index.ts:2:8
  deep  namespace  b.ts:2:1  import * as deep from "./b" in c.ts:1:8
  ns    namespace  b.ts:2:1  export * as ns from "./b" in index.ts:1:8
`);
  assert.deepEqual(answer(['api', folder]).names[0].defined, [
    { kind: 'namespace', file: 'b.ts', line: 2, column: 1, by: { text: 'export * as ns from "./b"', file: 'index.ts', line: 1, column: 8 } }]);
  const outside = folderOf({ 'index.ts': 'export * as far from "npm:far";\nexport * as gone from "./gone";\n' });
  assert.deepEqual(answer(['api', outside]).names.map((/** @type {any} */ it) => it.unresolved), [
    [{ what: 'external', file: 'index.ts', name: 'npm:far' }], [{ what: 'import', file: 'index.ts', name: './gone' }]]);
});

test('a declaration file that declares modules alone says so', () => {
  const folder = folderOf({ 'index.d.ts': 'declare module "x" { export const a: 1; }\ndeclare module "y/*";\n' });
  const { status, stdout } = symdir(['api', folder]);
  assert.deepEqual([status, stdout], [0, `index.d.ts: 0 public names
  declare module "x" in index.d.ts: its names aren't listed
  declare module "y/*" in index.d.ts: its names aren't listed
`]);
  assert.deepEqual(answer(['api', folder]).declared, [{ entry: 'index.d.ts', module: 'x' }, { entry: 'index.d.ts', module: 'y/*' }]);
});

test('names that aren\'t known stand below one another', () => {
  const folder = folderOf({ 'm.mjs': 'import { q } from "./y.js";\nexport { q as longer, q };\n', 'y.js': 'exports.q = 1;\n' });
  assert.equal(symdir(['api', folder, '--entry', 'm.mjs']).stdout, 'm.mjs: 2 public names\n  longer    not known: y.js is CommonJS\n  q         not known: y.js is CommonJS\n');
});

test('an entry of CommonJS says that its names aren\'t known', () => {
  const folder = folderOf({ 'index.js': 'module.exports = { a: 1 };\n', 'other.js': 'import "./index.js";\n' });
  assert.deepEqual(symdir(['api', folder, '--entry', 'index.js']), { status: 0, stderr: '', stdout: 'index.js: 0 public names\n  not known: index.js is CommonJS\n' });
  assert.deepEqual(answer(['api', folder, '--entry', 'index.js']).unlisted, [{ entry: 'index.js', why: 'is CommonJS' }]);
  assert.deepEqual(symdir(['api', folder, '--entry', 'other.js']).stdout, 'other.js: 0 public names\n');
});

test('a snapshot tells names apart that have spaces', () => {
  const folder = folderOf({ 'index.ts': 'const a = 1;\nexport { a as "x y", a as "x z", a as \'say "it"\', a as "k: l" };\n' });
  const file = path.join(folderOf({}), 'api.txt');
  assert.equal(symdir(['api', folder, '--save', file]).status, 0);
  assert.equal(symdir(['api', folder, '--check', file]).status, 0);
  writeFileSync(path.join(folder, 'index.ts'), 'const a = 1;\nexport { a as "x y", a as \'say "it"\', a as "k: l" };\n');
  const { status, stdout } = symdir(['api', folder, '--check', file]);
  assert.equal(status, 1);
  assert.match(stdout, /^major {2}- {2}index\.ts: x z {2}const index\.ts\n.*\nmajor: 1 removed, 0 added, 0 changed/);
  assert.equal(readFileSync(file, 'utf8').split('\n').length, 6);
});

test('a leak is named by what refers to it, where it has no name of its own', () => {
  const folder = folderOf({
    'index.ts': 'import * as ns from "./b";\nimport d from "./d";\nexport declare const x: typeof ns;\nexport declare const y: typeof d;\n',
    'b.ts': 'export const b = 1;\n', 'd.ts': 'export default { a: 1 };\n' });
  const { leaks } = answer(['leaks', folder]);
  assert.deepEqual(leaks.map((/** @type {any} */ it) => `${it.name} ${it.file}:${it.line} ${it.neededBy}`), ['d d.ts:1 y', 'ns b.ts:1 x']);
});

test('what is exported with a whole module is no leak', () => {
  const b = 'export interface I { x: J }\nexport interface J {}\ninterface K {}\nexport declare const k: K;\n';
  const folder = folderOf({ 'index.ts': 'export * as ns from "./b";\nimport { I } from "./b";\nexport declare const i: I;\n', 'b.ts': b });
  assert.deepEqual(answer(['leaks', folder]).leaks.map((/** @type {any} */ it) => it.name), ['K']);
});
