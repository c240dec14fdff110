import assert from 'node:assert/strict';
import test from 'node:test';

import { answer, folderOf, symdir } from './helper.js';

const FILES = {
  'index.ts': `import { Shape as S, gone } from "./passing.ts";
import * as all from "./passing.ts";
export { Shape } from "./passing.ts";
export const s: S = make();
let t: all.Shape;
function make(): S { const inner = 1; return inner; }
`,
  'passing.ts': 'export * from "./shapes.ts";\n',
  'shapes.ts': 'export interface Shape {}\nexport class Shape {}\n',
};

test('a type that is exported from elsewhere is one name of its line', () => {
  const folder = folderOf({ 'index.ts': 'export { type Shape } from "./shapes.ts";\nimport { type Shape as S } from "./shapes.ts";\n', 'shapes.ts': 'export interface Shape {}\n' });
  const at = (/** @type {string} */ line) => answer(['where', folder, line]).map((/** @type {any} */ it) => `${it.at.column} ${it.name} ${it.ways[0].defined?.line}`);
  assert.deepEqual(at('index.ts:1'), ['15 Shape 1']);
  assert.deepEqual(at('index.ts:2'), ['15 Shape 1', '24 S 1']);
});

/** @param {string} place @param {string[]} words @returns {string[]} */
function where(place, ...words) {
  const out = answer(['where', folderOf(FILES), place, ...words]);
  return out.flatMap((/** @type {any} */ { name, at, ways }) => ways.map((/** @type {any} */ it) => {
    const to = it.defined ? `${it.defined.kind} ${it.defined.file}:${it.defined.line}:${it.defined.column}` : `${it.unresolved.what} ${it.unresolved.name}`;
    return `${at.column} ${name} ${to}${it.through.length > 0 ? ` through ${it.through.join(' > ')}` : ''}`;
  }));
}

test('an imported name, and each definition of it', () => {
  assert.deepEqual(where('index.ts:1:10'), ['10 Shape interface shapes.ts:1:18', '10 Shape class shapes.ts:2:14']);
  assert.deepEqual(where('index.ts:4:17'), ['17 S interface shapes.ts:1:18 through index.ts', '17 S class shapes.ts:2:14 through index.ts']);
});

test('a name that isn\'t there', () => {
  assert.deepEqual(where('index.ts:1', 'gone'), ['22 gone name gone']);
});

test('a dotted name, a name in `export .. from`, a local name', () => {
  assert.deepEqual(where('index.ts:5:12').map((it) => it.split(' through')[0]), ['12 all.Shape interface shapes.ts:1:18', '12 all.Shape class shapes.ts:2:14']);
  assert.deepEqual(where('index.ts:3:10'), ['10 Shape interface shapes.ts:1:18', '10 Shape class shapes.ts:2:14']);
  assert.deepEqual(where('index.ts:6', 'inner'), ['28 inner local index.ts:6:28', '46 inner local index.ts:6:28'].slice(0, 1));
  assert.deepEqual(where('index.ts:4', 'make'), ['21 make function index.ts:6:10']);
});

test('a name behind `as` in an export, by its column and by its name, and that of a whole module', () => {
  const folder = folderOf({ 'index.ts': 'export { Shape as Form, default as Main } from "./b";\nimport { Shape } from "./b";\nexport { Shape as Own };\nexport * as all from "./b";\nexport * as none from "./c";\n',
    'b.ts': 'export class Shape {}\nexport default class {}\n' });
  const at = (/** @type {string[]} */ ...words) => answer(['where', folder, ...words]).flatMap((/** @type {any} */ it) => it.ways.map((/** @type {any} */ { defined, unresolved }) => (
    `${it.at.column} ${it.name} ${defined ? `${defined.kind} ${defined.file}:${defined.line}` : unresolved.what}`)));
  assert.deepEqual(at('index.ts:1', 'Form'), ['19 Form class b.ts:1']);
  assert.deepEqual(at('index.ts:1:36'), ['36 Main class b.ts:2']);
  assert.deepEqual(at('index.ts:3', 'Own'), ['19 Own class b.ts:1']);
  // what leads to the same is one name of its line
  assert.deepEqual(at('index.ts:1'), ['10 Shape class b.ts:1', '25 default class b.ts:2']);
  assert.deepEqual(at('index.ts:4'), ['13 all namespace b.ts:1']);
  assert.deepEqual(at('index.ts:5', 'none'), ['13 none import']);
  const [{ defined }] = answer(['uses', folder, 'index.ts:1', 'Form']);
  assert.deepEqual(defined, [{ kind: 'class', file: 'b.ts', line: 1, column: 14 }]);
});

test('members that may be there aren\'t told as lacking: of JSON, a const, an enum, a class; of a namespace they are', () => {
  const folder = folderOf({
    'index.ts': 'import json from "./a.json";\nimport { c, E, K, N, f } from "./b";\nexport default [json.x, c.x, E.x, K.x, N.x, f.x, f.y];\n',
    'a.json': '{ "x": 1 }', 'b.ts': 'export const c = { x: 1 };\nexport enum E { x }\nexport class K {}\nexport namespace N { export const y = 1 }\nexport function f() {}\nf.y = 1;\n' });
  const ends = ['json.x', 'c.x', 'E.x', 'K.x', 'N.x', 'f.x', 'f.y'].map((it) => {
    const [{ ways: [{ defined, unresolved }] }] = answer(['where', folder, 'index.ts:3', it]);
    return defined ? `${defined.kind} ${defined.line}` : `${unresolved.what} ${unresolved.why ?? ''}`;
  });
  const open = (/** @type {string} */ it) => `unknown declares ${it}, whose members aren't all known`;
  assert.deepEqual(ends, ['unknown is JSON', open('a const'), open('an enum'), open('a class'), 'name ', open('a function'), 'property 6']);
  for (const it of ['where', 'uses']) {
    assert.deepEqual(symdir([it, folder, 'a.json:1']), { status: 2, stdout: '', stderr: 'symdir: a.json is JSON: names are looked up in modules that import it\n' });
  }
});

test('each name behind `import("x")` is one of that module, and none of the module that it stands in', () => {
  const folder = folderOf({
    'a.ts': 'type T = import("./b").Y.Z;\ntype U = typeof import("./b").Y.c;\ntype V = import("./b").Y.none;\n'
      + 'namespace Y { export interface Z {}\nexport const c = 1; export const none = 1; }\n',
    'b.ts': 'export namespace Y {\n  export type Z = 1;\n  export const c = 1;\n}\n' });
  const wayOf = (/** @type {any} */ it) => (it.defined ? `${it.defined.file}:${it.defined.line}` : it.unresolved.what);
  const at = (/** @type {string} */ place, /** @type {string} */ name) => answer(['where', folder, place, name])
    .flatMap((/** @type {any} */ it) => it.ways.map((/** @type {any} */ way) => `${it.at.column} ${wayOf(way)}`));
  assert.deepEqual([at('a.ts:1', 'Y'), at('a.ts:1', 'Y.Z'), at('a.ts:2', 'Y'), at('a.ts:2', 'Y.c'), at('a.ts:3', 'Y.none')],
    [['24 b.ts:1'], ['26 b.ts:2'], ['31 b.ts:1'], ['33 b.ts:3'], ['26 name']]);
});

test('what people read', () => {
  const { status, stdout } = symdir(['where', folderOf(FILES), 'index.ts:4', 'S']);
  assert.equal(status, 0);
  assert.equal(stdout, `S  at index.ts:4:17
  interface  shapes.ts:1:18  via index.ts
  class      shapes.ts:2:14  via index.ts
`);
});

test('a terminal is given colours, and only what is unresolved is red; elsewhere there are none', () => {
  const folder = folderOf({ ...FILES, 'terminal.cjs': 'Object.defineProperty(process.stdout, "isTTY", { value: true });\n' });
  const on = (/** @type {Record<string, string>} */ env, /** @type {string[]} */ ...words) => symdir(['where', folder, ...words], { env }).stdout;
  const terminal = { NODE_OPTIONS: `--require ${folder}/terminal.cjs`, NO_COLOR: '' };
  const [lost, found] = [['index.ts:1', 'gone'], ['index.ts:4', 'S']];
  const plain = (/** @type {string} */ it) => it.replace(/\x1b\[\d+m/g, '');
  const red = (/** @type {string} */ it) => [...it.matchAll(/\x1b\[31m(.*?)\x1b\[0m/g)].map(([, text]) => text.trim());
  assert.deepEqual(red(on(terminal, ...lost)), ['unresolved: passing.ts has no export gone']);
  assert.deepEqual([red(on(terminal, ...found)), on(terminal, ...found).includes('\x1b[')], [[], true]);
  for (const words of [lost, found]) {
    assert.equal(plain(on(terminal, ...words)), on({ NO_COLOR: '' }, ...words));
    assert.equal(on({ ...terminal, NO_COLOR: '1' }, ...words), on({ NO_COLOR: '' }, ...words));
  }
});

test('a column is of the name that stands there, and not of the one that ends before it', () => {
  assert.deepEqual(where('index.ts:1:14').map((it) => it.split(' ')[1]), ['Shape', 'Shape']);
  const folder = folderOf(FILES);
  assert.equal(symdir(['where', folder, 'index.ts:1:15']).stdout, 'no name of a variable or a type at index.ts:1:15\n');
  assert.equal(symdir(['where', folder, 'index.ts:1:9']).stdout, 'no name of a variable or a type at index.ts:1:9\n');
});

test('where no name stands, and places that aren\'t there', () => {
  const folder = folderOf(FILES);
  assert.deepEqual(symdir(['where', folder, 'index.ts:4:1']), { status: 1, stdout: 'no name of a variable or a type at index.ts:4:1\n', stderr: '' });
  assert.deepEqual(symdir(['where', folder, 'index.ts:1', 'none']), { status: 1, stdout: 'no name none at index.ts:1\n', stderr: '' });
  assert.deepEqual(symdir(['where', folder, 'index.ts:40']), { status: 2, stdout: '', stderr: 'symdir: index.ts has 7 lines\n' });
  assert.deepEqual(symdir(['where', folder, 'none.ts:1']), { status: 2, stdout: '', stderr: `symdir: no such module: none.ts in ${folder}\n` });
  const typed = folderOf({ 'a.js': 'exports.a = 1;\n', 'a.d.ts': 'export const a: number;\n', 'b.ts': 'export const b = 1;\n', 'c.txt': '' });
  const refused = (/** @type {string} */ command, /** @type {string} */ spot, /** @type {string[]} */ ...more) => symdir([command, typed, spot, ...more]).stderr;
  for (const it of ['where', 'uses']) assert.equal(refused(it, 'a.js:1'), "symdir: a.js isn't read: a file with its types is read in its place (--js reads both)\n");
  assert.equal(symdir(['where', typed, 'a.js:1', '--js']).status, 1);
  assert.equal(refused('where', 'b.ts:1', '--skip', 'b'), "symdir: b.ts isn't read: --skip leaves it out\n");
  assert.equal(refused('where', 'c.txt:1'), `symdir: no such module: c.txt in ${typed}\n`);
  assert.equal(symdir(['where', folder]).stderr, 'symdir: where takes FILE:LINE or FILE:LINE:COLUMN, as `symdir where . src/a.ts:3:14`\n');
});

test('what a path ends at that is no definition, in words, and the modules before it', () => {
  const folder = folderOf({
    'index.ts': 'import { a, b, c, d } from "./m";\nexport { e } from "npm:far";\nlet t: nowhere;\n', 'm.ts': 'export { a } from "far";\nexport { b } from "./gone";\nexport { c } from "./n";\nexport { d } from "./o.cjs";\n',
    'n.ts': 'export {};\n', 'o.cjs': 'exports.d = 1;\n', 'package.json': '{"dependencies":{"far":"1"}}' });
  assert.deepEqual(symdir(['where', folder, 'index.ts:1']), { status: 1, stderr: '', stdout: `a  at index.ts:1:10
  in npm:far, an external module    via m.ts
b  at index.ts:1:13
  unresolved: m.ts imports "./gone", which resolves to no file    via m.ts
c  at index.ts:1:16
  unresolved: n.ts has no export c    via m.ts
d  at index.ts:1:19
  not known: o.cjs is CommonJS    via m.ts
` });
  assert.equal(symdir(['where', folder, 'index.ts:2']).stdout, 'e  at index.ts:2:10\n  in npm:far, an external module\n');
  assert.equal(symdir(['where', folder, 'index.ts:3', 'nowhere']).stdout, 'nowhere  at index.ts:3:8\n  a global\n');
});
