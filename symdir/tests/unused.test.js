import assert from 'node:assert/strict';
import test from 'node:test';

import { answer, folderOf, symdir } from './helper.js';
import { Language } from './language.js';
import { unusedBy } from './wanted.js';

const FILES = {
  'package.json': '{\n  "exports": "./index.ts",\n  "dependencies": {\n    "used": "1",\n    "typed": "1",\n    "lost": "1"\n  }\n}\n',
  'index.ts': `export * from "./shapes";
export { area as size } from "./sums";
import * as all from "./taken";
import * as passed from "./passed";
import type { T } from "typed";
import { run } from "used";
import Box, { Point } from "./box";
import { x } from "./barrel";
const { apart, gone } = all;
export const n: T = run(all.one, all["two"], passed, x, gone as all.Three);
export let b: Box | Point;
`,
  'shapes.ts': 'export interface Shape { sides: number }\nexport class Circle {}\nexport default class Square {}\n',
  'sums.ts': 'export const area = 1, other = 2;\nexport function own() { return other; }\n',
  'taken.ts': 'export const one = 1, two = 2, four = 4;\nexport type Three = 3;\nexport const apart = 1, gone = 1;\n',
  'passed.ts': 'export const p = 1;\nexport const q = 2;\n',
  'box.ts': 'export default class Box {}\nexport class Point {}\nclass Inner {}\nexport { Inner as Outer, Inner };\n',
  'barrel.ts': 'export { x, y } from "./xy";\nexport { z as w } from "./xy";\n',
  'xy.ts': 'export const x = 1, y = 2, z = 3, v = 4;\n',
  'dead.ts': 'import { v } from "./xy";\nexport const d = v;\n',
  'lazy.ts': 'export const l = 1;\n',
  'a.test.ts': 'import { other } from "./sums";\nimport { helped } from "./helper";\nother + helped;\nimport("./lazy");\n',
  'helper.ts': 'export const helped = 1, unhelped = 2;\n',
};

/** @param {any} out @returns {{ files: string[], exports: string[] }} */
function ours(out) {
  return { files: out.files, exports: out.exports.map((/** @type {any} */ it) => `${it.file} ${it.name}`).sort() };
}

const CODE = Object.keys(FILES).filter((it) => it.endsWith('.ts'));

test('exports and files that nothing uses are those of TypeScript\'s references', () => {
  const folder = folderOf(FILES);
  const wanted = unusedBy(new Language(folder, CODE), ['index.ts'], ['index.ts', 'a.test.ts']);
  assert.deepEqual(wanted, { files: ['dead.ts'], exports: [
    'barrel.ts w', 'barrel.ts y', 'box.ts Inner', 'box.ts Outer', 'helper.ts unhelped', 'shapes.ts default', 'sums.ts own', 'taken.ts four'] });
  assert.deepEqual(ours(answer(['unused', folder])), wanted);
});

test('--production leaves tests out, and what they alone reach', () => {
  const folder = folderOf(FILES);
  const wanted = unusedBy(new Language(folder, CODE.filter((it) => it !== 'a.test.ts')), ['index.ts'], ['index.ts']);
  assert.deepEqual(wanted.files, ['dead.ts', 'helper.ts', 'lazy.ts']);
  assert.ok(wanted.exports.includes('sums.ts other'));
  assert.deepEqual(ours(answer(['unused', folder, '--production'])), wanted);
});

test('below a directory of examples alone these are sources as any, and are roots beside others', () => {
  const examples = {
    'examples/data.json': '{}', 'examples/a.ts': 'import { used } from "./lib/b";\nimport data from "./data.json";\nexport const a = [used, data];\n',
    'examples/lib/b.ts': 'export const used = 1, lost = 2;\n', 'examples/lib/c.test.ts': 'import "./d";\n', 'examples/lib/d.ts': 'export const d = 1;\n' };
  const folder = folderOf(examples);
  const names = Object.keys(examples).filter((it) => it.endsWith('.ts'));
  const entries = ['examples/a.ts', 'examples/lib/c.test.ts'];
  const wanted = unusedBy(new Language(folder, names), entries, entries);
  assert.deepEqual(wanted, { files: [], exports: ['examples/lib/b.ts lost', 'examples/lib/d.ts d'] });
  for (const words of [[], ['--production']]) assert.deepEqual(ours(answer(['unused', folder, ...words])), wanted);
  const beside = folderOf({ ...examples, 'index.ts': 'export {};\n' });
  assert.deepEqual(unusedBy(new Language(beside, [...names, 'index.ts']), ['index.ts'], ['index.ts', ...names]), { files: [], exports: [] });
  assert.deepEqual(ours(answer(['unused', beside])), { files: [], exports: [] });
  const production = unusedBy(new Language(beside, ['index.ts']), ['index.ts'], ['index.ts']);
  assert.deepEqual(ours(answer(['unused', beside, '--production'])), production);
});

test('kinds and places, what the file uses itself, values that are used as types', () => {
  const out = answer(['unused', folderOf(FILES)]);
  assert.deepEqual(out.entries, ['index.ts']);
  const of = (/** @type {string} */ name) => out.exports.find((/** @type {any} */ it) => it.name === name);
  assert.deepEqual(of('own'), { name: 'own', kind: 'function', file: 'sums.ts', line: 2, column: 17, inFile: false });
  assert.deepEqual(of('w'), { name: 'w', kind: 'const', file: 'barrel.ts', line: 2, column: 15, inFile: false });
  assert.deepEqual(of('default'), { name: 'default', kind: 'class', file: 'shapes.ts', line: 3, column: 22, inFile: false });
  assert.deepEqual(out.typesOnly.map((/** @type {any} */ it) => `${it.file} ${it.name}`), ['box.ts default', 'box.ts Point']);
  const inFile = answer(['unused', folderOf({ 'index.ts': 'import "./a";', 'a.ts': 'export const a = 1;\nexport const b = a;\nconst c = 1;\nexport { c as d };\nc;\n' })]);
  assert.deepEqual(inFile.exports.map((/** @type {any} */ it) => [it.name, it.inFile]), [['a', true], ['b', false], ['d', true]]);
});

test('a module that imports itself uses no export of its own', () => {
  const { exports } = answer(['unused', folderOf({ 'index.ts': 'import "./a";\n', 'a.ts': 'import * as self from "./a";\nimport { b } from "./a";\nexport const a = () => self.a, b = 1, c = b;\n' })]);
  assert.deepEqual(exports.map((/** @type {any} */ it) => it.name), ['a', 'b', 'c']);
});

test('each kind of value that others use as a type alone, and no type', () => {
  const out = answer(['unused', folderOf({
    'index.ts': 'import d, { C, f, E, N, c, l, v, u, I, T } from "./a";\nexport let x: C | typeof f | E | N.Inner | typeof c | typeof l | typeof v | typeof u | I | T | typeof d;\n',
    'a.ts': 'using u = null!;\nexport { u };\nexport class C {}\nexport function f() {}\nexport enum E { x }\nexport namespace N { export class Inner {} }\nexport const c = 1;\nexport let l = 1;\nexport var v = 1;\nexport interface I {}\nexport type T = 1;\nexport default 1;\n' })]);
  assert.deepEqual(out.typesOnly.map((/** @type {any} */ it) => `${it.kind} ${it.name}`).sort(), ['class C', 'const c', 'default default', 'enum E', 'function f', 'let l', 'namespace N', 'using u', 'var v']);
});

test('dependencies: imported, for types alone, by nothing, and by what isn\'t read', () => {
  const dependencies = (/** @type {Record<string, string>} */ files, /** @type {string[]} */ ...words) => answer(['unused', folderOf(files), ...words]).dependencies;
  assert.deepEqual(dependencies(FILES), [
    { name: 'typed', file: 'package.json', line: 5, column: 5, use: 'types' }, { name: 'lost', file: 'package.json', line: 6, column: 5, use: 'nothing' }]);
  const names = (/** @type {any[]} */ list) => list.map((it) => `${it.name} ${it.use}`);
  const json = (/** @type {string[]} */ ...list) => `{"scripts":{"build":"run-it --all"},"dependencies":${JSON.stringify(Object.fromEntries(list.map((it) => [it, '1'])))}}`;
  const built = { 'package.json': json('a', '@s/b', 'c'), 'index.d.ts': 'import "a";', 'index.js': 'const b = require("@s/b/deep");\n' };
  assert.deepEqual(names(dependencies(built)), ['@s/b unknown', 'c unknown']);
  assert.deepEqual(names(dependencies(built, '--js')), ['a types', 'c nothing']);
  assert.deepEqual(names(dependencies({ 'package.json': json('run-it', '@types/a', '@types/s__b', '@types/n'), 'index.ts': 'import { a } from "a";\na;\nimport "@s/b";\n' })), ['@types/n nothing']);
  assert.deepEqual(names(dependencies({ 'package.json': json('n'), 'index.ts': '/// <reference types="n" />\nexport {};\n' })), []);
  assert.deepEqual(names(dependencies({ 'package.json': json('a'), 'index.ts': 'import { a } from "a";\nlet b: a;\n' })), ['a types']);
  assert.deepEqual(names(dependencies({ 'package.json': json('react'), 'index.tsx': 'import React from "react";\nexport const a = <a/>;\n' })), []);
});

test('what is reached: what package.json runs or exports by a pattern, paths in strings, comments, ambient declarations', () => {
  const files = (/** @type {Record<string, string>} */ more) => answer(['unused', folderOf({ 'index.ts': 'export {};\n', ...more })]).files;
  assert.deepEqual(files({ 'a.ts': 'export {};\n' }), ['a.ts']);
  assert.deepEqual(files({ 'package.json': '{"main":"index.ts","bin":{"x":"./cli.js"},"scripts":{"y":"node tools/y.js"}}', 'cli.ts': 'export {};', 'tools/y.js': '' }), []);
  assert.deepEqual(answer(['unused', folderOf({ 'index.ts': 'export {};', 'package.json': '{"main":"index.ts","scripts":{"y":"node tools/y.js"}}', 'tools/y.js': '' }), '--production']).files, ['tools/y.js']);
  assert.deepEqual(files({ 'package.json': '{"exports":{".":"./index.ts","./f/*":"./dist/f/*.js"}}', 'src/f/a.ts': '', 'src/g/a.ts': '' }), ['src/g/a.ts']);
  assert.deepEqual(files({ 'index.ts': 'new Worker(new URL("./worker.js", import.meta.url));\n', 'worker.ts': '' }), []);
  assert.deepEqual(files({ 'index.ts': '/// <reference path="more.ts" />\n', 'more.ts': '' }), []);
  assert.deepEqual(files({ 'globals.d.ts': 'declare const g: number;\n', 'more.d.ts': 'export const m: number;\n', 'adds.d.ts': 'export {};\ndeclare module "x" { const y: 1 }\n' }), ['more.d.ts']);
  assert.deepEqual(files({ 'index.js': '/** @type {import("./types.js").T} */\nexport let t;\n', 'types.ts': 'export type T = 1;\nexport type U = 2;\n', 'index.ts': '' }), ['types.ts']);
});

test('what package.json runs and what its patterns mean, built or not, in each place that a source may have', () => {
  const names = ['dist/lib/a.ts', 'src/lib/b.ts', 'lib/c/d.ts', 'lib.d.ts', 'src/e.ts', 'other/f.ts', 'src/libs/g.ts', 'x.y/z/h.ts', 'xzy/z/i.ts', 'run/one.ts', 'src/two.mts', 'tools/three.ts', 'tools/four.tsx', 'tools/five.ts', 'six.ts', 'un/seven.ts'];
  const json = { exports: { '.': './index.ts', './*': './dist/lib/*.js', './z/*': { types: './x.y/z/*.d.ts' }, './none/*': null }, bin: { one: './run/one.js', two: 'dist/two.mjs' },
    scripts: { a: 'node tools/three.js --x=tools/four.tsx && echo', b: 'tools/five.tsc', c: './six' } };
  const inner = { 'in/package.json': '{"exports":{"./x/*":"./x/z/*.js"},"bin":"./cli.js","scripts":{"a":"node ../un/seven.ts"}}', 'in/cli.ts': '', 'in/more.ts': '', 'in/x/z/y.ts': '', 'on/x/z/y.ts': '' };
  const folder = folderOf({ 'index.ts': 'export {};\n', 'package.json': JSON.stringify(json), ...Object.fromEntries(names.map((it) => [it, ''])), ...inner });
  const files = (/** @type {string[]} */ ...words) => answer(['unused', folder, '--entry', 'index.ts', ...words]).files;
  const unreached = ['in/more.ts', 'on/x/z/y.ts', 'other/f.ts', 'six.ts', 'src/e.ts', 'src/libs/g.ts', 'src/two.mts', 'tools/five.ts', 'xzy/z/i.ts'];
  assert.deepEqual(files().sort(), unreached);
  // without tests and scripts, what only a script runs isn't reached
  assert.deepEqual(files('--production').sort(), [...unreached, 'tools/four.tsx', 'tools/three.ts', 'un/seven.ts'].sort());
});

test('data isn\'t told as unused, though an unused file alone imports it', () => {
  const folder = folderOf({ 'index.ts': 'export {};\n', 'dead.ts': 'import data from "./data.json";\nexport const all = data;\n', 'data.json': '{}' });
  assert.deepEqual(answer(['unused', folder]).files, ['dead.ts']);
});

test('types that comments of JavaScript import are used', () => {
  const out = answer(['unused', folderOf({ 'index.js': '/** @type {import("./types").T} */\nexport let t;\n', 'types.ts': 'export type T = 1;\nexport type U = 2;\n' })]);
  assert.deepEqual([out.files, out.exports.map((/** @type {any} */ it) => it.name)], [[], ['U']]);
  const whole = answer(['unused', folderOf({ 'index.js': '/** @type {typeof import("./types")} */\nexport let t;\n', 'types.ts': 'export type T = 1;\n' })]);
  assert.deepEqual([whole.files, whole.exports], [[], []]);
});

test('types that comments of TypeScript import aren\'t used, as they aren\'t by TypeScript', () => {
  for (const name of ['index.ts', 'index.tsx', 'index.mts', 'index.js']) {
    const folder = folderOf({ [name]: '/** @type {import("./types").T} */\nexport let t = 1;\n/** @see import("./types") */\n', 'types.ts': 'export type T = 1;\n' });
    const isRead = new Language(folder, [name]).program.getSourceFile(`${folder}/types.ts`) !== undefined;
    assert.equal(isRead, name === 'index.js', name);
    assert.deepEqual(answer(['unused', folder, '--entry', name]).files, isRead ? [] : ['types.ts'], name);
  }
});

test('`export =`: what is required of it is all', () => {
  const files = { 'index.ts': 'import a = require("./a");\na.b;\nimport c from "./c";\nc;\n', 'a.d.ts': 'declare namespace a { const b: number }\nexport = a;\n', 'c.d.ts': 'declare const c: number;\nexport = c;\n' };
  assert.deepEqual(ours(answer(['unused', folderOf(files)])), { files: [], exports: [] });
});

test('what people read, and the status', () => {
  const { status, stdout } = symdir(['unused', folderOf(FILES)]);
  assert.equal(status, 1);
  assert.equal(stdout, `unreachable files: 1
  dead.ts
unused exports: 8
  y         const     barrel.ts:1:13
  w         const     barrel.ts:2:15
  Outer     class     box.ts:4:19
  Inner     class     box.ts:4:26
  unhelped  const     helper.ts:1:26
  default   class     shapes.ts:3:22
  own       function  sums.ts:2:17
  four      const     taken.ts:1:32
unused dependencies: 1
  lost  package.json:6:5
values that are used as types only: 2
  default  class  box.ts:1:22
  Point    class  box.ts:2:14
dependencies that are imported for types only: 1
  typed  package.json:5:5
12 modules, 1 entry: 1 file, 8 exports, 1 dependency unused
`);
  const fine = symdir(['unused', folderOf({ 'index.ts': 'export const a = 1;\n' })]);
  assert.deepEqual(fine, { status: 0, stdout: '1 module, 1 entry: nothing is unused\n', stderr: '' });
});
