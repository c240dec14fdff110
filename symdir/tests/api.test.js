import assert from 'node:assert/strict';
import { readFileSync, writeFileSync } from 'node:fs';
import path from 'node:path';
import test from 'node:test';

import { answer, folderOf, symdir } from './helper.js';

const SHAPES = {
  'index.ts': 'export * from "./shapes.ts";\nexport { area as size, gone } from "./sums.ts";\nexport * as sums from "./sums.ts";\nexport default class Box {}\n',
  'shapes.ts': 'export interface Shape { sides: number }\nexport * from "./deep/points.ts";\nexport declare function make(): Shape;\nexport declare function make(sides: number): Shape;\n',
  'deep/points.ts': 'export type Point = [number, number];\nexport namespace Point { export const origin: Point = [0, 0]; }\nexport enum Axis { x, y }\n',
  'sums.ts': 'export const a = 1, area = 2;\nexport let { b, c } = { b: 1, c: 2 };\n',
};

/** @param {any} out @returns {Record<string, string>} kind and place of the first definition, by name */
function places(out) {
  return Object.fromEntries(out.names.map((/** @type {any} */ it) => [it.name, it.defined.length > 0
    ? `${it.kind} ${it.defined[0].file}:${it.defined[0].line}:${it.defined[0].column}` : '']));
}

test('each public name, with kind and place', () => {
  const out = answer(['api', folderOf(SHAPES)]);
  // what is told of some names and files alone isn't there without them
  assert.deepEqual([Object.keys(out), out.entries], [['entries', 'names', 'open'], ['index.ts']]);
  assert.deepEqual(places(out), {
    Shape: 'interface shapes.ts:1:18',
    make: 'function shapes.ts:3:25',
    Point: 'type+namespace deep/points.ts:1:13',
    Axis: 'enum deep/points.ts:3:13',
    size: 'const sums.ts:1:21',
    gone: '',
    sums: 'namespace sums.ts:1:1',
    default: 'class index.ts:4:22',
  });
  assert.deepEqual(out.open, []);
});

test('by which `export *` a name comes, and where a name ends that isn\'t there', () => {
  const { names } = answer(['api', folderOf(SHAPES)]);
  const of = (/** @type {string} */ name) => names.find((/** @type {any} */ it) => it.name === name);
  assert.deepEqual(of('Axis').through, [{ file: 'index.ts', text: './shapes.ts' }, { file: 'shapes.ts', text: './deep/points.ts' }]);
  assert.deepEqual(of('default').through, []);
  assert.deepEqual(of('gone').unresolved, [{ what: 'name', file: 'sums.ts', name: 'gone' }]);
  assert.equal(of('make').defined.length, 2);
});

test('what people read', () => {
  const { stdout, status } = symdir(['api', folderOf({
    'index.ts': 'export * from "./b.ts";\nexport { x } from "./b.ts";\nexport * from "./gone.ts";\nexport * from "far";\n', 'b.ts': 'export const n = 1;\n',
    'package.json': '{ "dependencies": { "far": "1" } }' })]);
  assert.equal(status, 1);
  assert.equal(stdout, `index.ts: 2 public names, defined in 1 file
  n  const  b.ts:1:14  export * from "./b.ts"
  x         unresolved: b.ts has no export x
  index.ts:3:1: export * from "./gone.ts": unresolved
  index.ts:4:1: export * from "far": npm:far is external, and its names are public too
`);
});

test('names of packages: external, and with --packages read', () => {
  const folder = folderOf({
    'index.ts': 'export { a } from "far";\nexport * from "far/more";\n',
    'node_modules/far/package.json': '{ "types": "index.d.ts" }',
    'node_modules/far/index.d.ts': 'export declare const a: number;\n',
    'node_modules/far/more.d.ts': 'export declare const b: number;\n',
  });
  const plain = answer(['api', folder]);
  assert.deepEqual(plain.names.map((/** @type {any} */ it) => [it.name, it.unresolved]), [['a', [{ what: 'external', file: 'index.ts', name: 'npm:far' }]]]);
  assert.deepEqual(plain.open, [{ entry: 'index.ts', file: 'index.ts', line: 2, column: 1, text: 'far/more', external: 'npm:far/more' }]);
  const all = answer(['api', folder, '--packages']);
  assert.deepEqual(places(all), { a: 'const node_modules/far/index.d.ts:1:22', b: 'const node_modules/far/more.d.ts:1:22' });
});

test('places count lines and columns as editors do', () => {
  const out = answer(['api', folderOf({ 'index.ts': '\ufeff// €😀\r\nexport const é = "😀", after = 1;\n' })]);
  assert.deepEqual(places(out), { é: 'const index.ts:2:14', after: 'const index.ts:2:24' });
});

test('entries: what package.json says', () => {
  const entries = (/** @type {Record<string, string>} */ files, /** @type {string[]} */ ...words) => answer(['api', folderOf(files), ...words]).entries;
  const text = 'export const a = 1;';
  assert.deepEqual(entries({ 'package.json': '{"types":"t.d.ts","main":"m.js"}', 't.d.ts': text, 'm.js': text }), ['t.d.ts']);
  assert.deepEqual(entries({ 'package.json': '{"exports":{".":{"types":"./t.d.ts"},"./sub":"./s.ts","./x.json":"./x.json","./*":"./*.ts"}}', 't.d.ts': text, 's.ts': text }), ['t.d.ts', 's.ts']);
  assert.deepEqual(entries({ 'package.json': '{"main":"./dist/index.js"}', 'src/index.ts': text, 'src/b.ts': text }), ['src/index.ts']);
  assert.deepEqual(entries({ 'package.json': '{"module":"m.mjs","main":"n.cjs"}', 'm.mjs': text, 'n.cjs': text }), ['m.mjs']);
  assert.deepEqual(entries({ 'package.json': '{"exports":{"require":"./dist/a.js"},"types":"types/t.d.ts"}', 'dist/a.js': text, 'types/t.d.ts': text, 'src/index.ts': text }), ['types/t.d.ts']);
  assert.deepEqual(entries({ 'deno.json': '{"exports":{".":"./mod.ts","./b":"./b.ts"}}', 'mod.ts': text, 'b.ts': text }), ['mod.ts', 'b.ts']);
  assert.deepEqual(entries({ 'deno.json': '{"exports":"./b.ts"}', 'mod.ts': text, 'b.ts': text }), ['b.ts']);
});

test('entries: where types aren\'t built yet, the source that they will be built from', () => {
  const entries = (/** @type {Record<string, string>} */ files) => answer(['api', folderOf(files)]).entries;
  const text = 'export const a = 1;';
  assert.deepEqual(entries({ 'package.json': '{"types":"./dist/main.d.ts"}', 'src/main.ts': text, 'index.ts': text }), ['src/main.ts']);
  assert.deepEqual(entries({ 'package.json': '{"types":"dist/main.d.mts"}', 'src/main.mts': text, 'index.ts': text }), ['src/main.mts']);
  assert.deepEqual(entries({ 'package.json': '{"exports":{".":{"types":"./lib/main.d.ts"}}}', 'main.ts': text, 'index.ts': text }), ['main.ts']);
});

test('entries: packages in the folder, but none of tests and examples', () => {
  const entries = (/** @type {Record<string, string>} */ files) => answer(['api', folderOf(files)]).entries;
  const one = (/** @type {string} */ folder) => ({ [`${folder}/package.json`]: '{"types":"x.d.ts"}', [`${folder}/x.d.ts`]: 'export declare const a: 1;' });
  assert.deepEqual(entries({ ...one('one'), ...one('examples/demo'), ...one('example/demo'), ...one('tests/fixture'), ...one('one/test') }), ['one/x.d.ts']);
  assert.deepEqual(entries({ ...one('packages/examples-of-use'), ...one('scripts') }), ['packages/examples-of-use/x.d.ts']);
});

test('entries: the usual module, packages in the folder, modules that no other imports, and --entry', () => {
  const entries = (/** @type {Record<string, string>} */ files, /** @type {string[]} */ ...words) => answer(['api', folderOf(files), ...words]).entries;
  const text = 'export const a = 1;';
  assert.deepEqual(entries({ 'mod.ts': text, 'a.ts': text }), ['mod.ts']);
  assert.deepEqual(entries({ 'src/index.ts': text, 'a.ts': text }), ['src/index.ts']);
  assert.deepEqual(entries({ 'one/package.json': '{"types":"x.d.ts"}', 'one/x.d.ts': text, 'two/package.json': '{}', 'two/index.ts': text, 'app/package.json': '{"private":true}', 'app/index.ts': text }), ['one/x.d.ts', 'two/index.ts']);
  assert.deepEqual(entries({ 'a.ts': 'export * from "./b.ts";', 'b.ts': text, 'c.test.ts': 'import "./a.ts";' }), ['c.test.ts']);
  assert.deepEqual(entries({ 'a.ts': 'export * from "./b.ts";', 'b.ts': text, 'c.test.ts': 'import "./b.ts";' }), ['a.ts']);
  assert.deepEqual(entries({ 'a.ts': text, 'b.ts': text }, '--entry', 'b.ts'), ['b.ts']);
  assert.deepEqual(entries({ 'a.ts': text, 'b.ts': text, 'c.ts': text }, '--entry', 'b', '--entry', './a.ts'), ['b.ts', 'a.ts']);
});

test('JavaScript is left out where declarations or sources stand for it, but for --js', () => {
  const files = { 'a.js': 'export const a = 1;', 'a.d.ts': 'export declare const a: number;', 'b.js': 'export const b = 1;' };
  assert.deepEqual(answer(['api', folderOf(files)]).entries, ['a.d.ts', 'b.js']);
  assert.deepEqual(answer(['api', folderOf(files), '--js']).entries, ['a.d.ts', 'a.js', 'b.js']);
  assert.deepEqual(answer(['api', folderOf({ 'package.json': '{"types":"t.d.ts"}', 't.d.ts': 'export declare const a: 1;', 'dist/x.js': 'export const a = 1;' }), '--entry', 't.d.ts']).names.length, 1);
});

test('--skip leaves modules out, and --entry names what is left', () => {
  const folder = folderOf({ 'index.ts': 'export * from "./a.ts";\nexport * from "./gen/b.ts";\n', 'a.ts': 'export const a = 1;', 'gen/b.ts': 'export const b = 1;' });
  const out = answer(['api', folder, '--skip', '^gen/']);
  assert.deepEqual(out.names.map((/** @type {any} */ it) => it.name), ['a']);
  assert.deepEqual(out.open, [{ entry: 'index.ts', file: 'index.ts', line: 2, column: 1, text: './gen/b.ts', external: 'file:///gen/b.ts' }]);
});

test('a snapshot has no places, and tells what changed', () => {
  const folder = folderOf(SHAPES);
  const file = path.join(folder, 'api.txt');
  assert.deepEqual(symdir(['api', folder, '--save', file]), { status: 0, stdout: `${file}: 8 public names\n`, stderr: '' });
  assert.deepEqual(readFileSync(file, 'utf8').split('\n').slice(1), [
    'index.ts: Axis enum deep/points.ts', 'index.ts: Axis.x member deep/points.ts', 'index.ts: Axis.y member deep/points.ts',
    'index.ts: Point type+namespace deep/points.ts  = [number, number]', 'index.ts: Point.origin const deep/points.ts  : Point',
    'index.ts: Shape interface shapes.ts', 'index.ts: Shape#sides property shapes.ts  : number', 'index.ts: default class index.ts', 'index.ts: gone ? ?',
    'index.ts: make function shapes.ts  (): Shape & (sides: number): Shape', 'index.ts: size const sums.ts', 'index.ts: sums namespace sums.ts',
    'index.ts: sums.a const sums.ts', 'index.ts: sums.area const sums.ts', 'index.ts: sums.b let sums.ts', 'index.ts: sums.c let sums.ts', '']);
  writeFileSync(path.join(folder, 'shapes.ts'), `\n\n${SHAPES['shapes.ts']}`);
  assert.deepEqual(symdir(['api', folder, '--check', file]), { status: 0, stdout: `the public names are those of ${file}\n`, stderr: '' });
  writeFileSync(path.join(folder, 'shapes.ts'), 'export type Shape = 1;\nexport * from "./deep/points.ts";\nexport const added = 1;\n');
  const { status, stdout } = symdir(['api', folder, '--check', file]);
  assert.equal(status, 1);
  assert.deepEqual(stdout.split('\n').map((it) => it.replace(/ {2,}/g, '  ')), [
    'major  ~  index.ts: Shape  kind: interface shapes.ts  ->  type shapes.ts', '  a type alias can\'t be merged with, and not each can be implemented',
    'major  -  index.ts: Shape#sides  property shapes.ts', '  existing uses break', 'minor  +  index.ts: added  const shapes.ts', '  existing uses still work',
    'major  -  index.ts: make  function shapes.ts', '  existing uses break',
    `major: 2 removed, 1 added, 1 changed; \`symdir api DIR --save ${file}\` updates the snapshot`, '']);
  const { advice, changes } = answer(['api', folder, '--check', file]);
  assert.deepEqual([advice, changes[0]], ['major', { what: 'kind', entry: 'index.ts', name: 'Shape', from: 'interface shapes.ts', to: 'type shapes.ts', advice: 'major',
    reason: 'a type alias can\'t be merged with, and not each can be implemented' }]);
});

test('a name that modules pass to one another in a ring has no definition, and stays in a snapshot', () => {
  const folder = folderOf({ 'index.ts': 'export { x } from "./b";\nexport const a = 1;\n', 'b.ts': 'export { x } from "./index";\n' });
  const [, { name, kind, defined }] = answer(['api', folder]).names.sort((/** @type {any} */ one, /** @type {any} */ other) => (one.name < other.name ? -1 : 1));
  assert.deepEqual([name, kind, defined], ['x', '', []]);
  const file = path.join(folder, 'api.txt');
  symdir(['api', folder, '--save', file]);
  assert.equal(symdir(['api', folder, '--check', file]).stdout, `the public names are those of ${file}\n`);
});

test('a snapshot of names alone is compared by names alone', () => {
  const head = '# public names: entry, name, what it is and where it is defined; `symdir api FOLDER --check` compares, `--save` writes\n';
  const folder = folderOf({ 'index.ts': 'export class A { a = 1 }\nexport function f(a: 1) {}\n', 'old.txt': `${head}index.ts: A class index.ts\nindex.ts: f function index.ts\n` });
  assert.equal(symdir(['api', folder, '--check', path.join(folder, 'old.txt')]).status, 0);
  writeFileSync(path.join(folder, 'old.txt'), `${head}index.ts: A class index.ts\nindex.ts: g function index.ts\n`);
  assert.deepEqual(answer(['api', folder, '--check', path.join(folder, 'old.txt')]).changes.map((/** @type {any} */ it) => `${it.what} ${it.name}`), ['added f', 'removed g']);
});

test('names with spaces stand in snapshots', () => {
  const folder = folderOf({ 'index.ts': 'const a = 1;\nexport { a as "b c", a as "d, e" };\nexport interface I { (a: 1): 2 }\n' });
  const file = path.join(folder, 'names.txt');
  assert.equal(symdir(['api', folder, '--save', file]).status, 0);
  assert.deepEqual(readFileSync(file, 'utf8').split('\n').slice(1), [
    'index.ts: "I call" call index.ts  (a: 1): 2', 'index.ts: "b c" const index.ts', 'index.ts: "d, e" const index.ts', 'index.ts: I interface index.ts', '']);
  assert.equal(symdir(['api', folder, '--check', file]).status, 0);
  writeFileSync(path.join(folder, 'index.ts'), 'export {};');
  assert.deepEqual(answer(['api', folder, '--check', file]).changes.map((/** @type {any} */ it) => `${it.what} ${it.name}`), ['removed I', 'removed b c', 'removed d, e']);
});

test('a snapshot that isn\'t there, and one that is none', () => {
  const folder = folderOf({ ...SHAPES, 'bad.txt': '# names\nwhat is this\n' });
  const absent = symdir(['api', folder, '--check', 'none.txt']);
  assert.deepEqual([absent.status, absent.stderr], [3, 'symdir: no such file: none.txt; `symdir api DIR --save none.txt` writes it\n']);
  const bad = symdir(['api', folder, '--check', path.join(folder, 'bad.txt')]);
  assert.equal(bad.status, 3);
  assert.match(bad.stderr, /bad\.txt:2:1: not a line of a snapshot, `ENTRY: NAME KIND FILES`\n$/);
});

test('--save overwrites snapshots and empty files alone', () => {
  const files = { 'index.ts': 'export const a = 1;\n', 'package.json': '{"name":"a"}\n', 'empty.txt': '', 'api.txt': '# public names\nindex.ts: b const index.ts\n' };
  const folder = folderOf(files);
  const save = (/** @type {string} */ name) => symdir(['api', folder, '--save', name], { cwd: folder });
  assert.deepEqual(save('package.json'), { status: 2, stdout: '', stderr: 'symdir: package.json isn\'t a snapshot, and isn\'t overwritten\n' });
  assert.equal(readFileSync(path.join(folder, 'package.json'), 'utf8'), files['package.json']);
  for (const name of ['empty.txt', 'api.txt']) assert.equal(save(name).status, 0, name);
  assert.equal(readFileSync(path.join(folder, 'empty.txt'), 'utf8'), readFileSync(path.join(folder, 'api.txt'), 'utf8'));
});

test('each member of an enum has its own place', () => {
  const folder = folderOf({ 'index.ts': 'export enum Axis {\n  x,\n  /** Up. */\n  y = 2,\n  "z",\n}\n' });
  const [{ members }] = answer(['api', folder, '--docs']).names;
  assert.deepEqual(members.map((/** @type {any} */ it) => `${it.name} ${it.line}:${it.column} ${it.doc}`), ['Axis.x 2:3 ', 'Axis.y 4:3 Up.', 'Axis.z 5:3 ']);
});
