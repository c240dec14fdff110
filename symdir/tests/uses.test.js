import assert from 'node:assert/strict';
import path from 'node:path';
import test from 'node:test';

import { openFolder } from '../lib/library/index.js';
import { answer, folderOf, symdir } from './helper.js';
import { Language, ts } from './language.js';
import { referencesTo } from './wanted.js';

const FILES = {
  'shapes.ts': `export interface Shape { sides: number }
export class Shape { static make(): Shape { return new Shape(); } }
export const unit = 1;
export default function draw(it: Shape) { return [it, unit, draw]; }
namespace inner { export type Size = typeof unit; export class Deep {} }
export import sizes = inner;
enum Axis { x, y }
export { Axis as Direction, Axis };
let again: inner.Deep | sizes.Deep = new inner.Deep();
export = 1;
`.replace('export = 1;\n', ''),
  'passing.ts': 'export * from "./shapes";\nexport { Shape as Form, default as paint } from "./shapes";\nexport * as shapes from "./shapes";\n',
  'index.ts': `import draw, { Shape as S, unit, Direction } from "./shapes";
import * as all from "./passing";
import type { Form } from "./passing";
import { paint, sizes, shapes } from "./passing";
import { type Axis } from "./shapes";
export { unit as one };
export { Axis as A } from "./shapes";
export default S;
const { unit: uno, Shape } = all;
let f: Form | all.Form | import("./passing").Form | typeof all.unit = new all.Shape();
let deep: sizes.Deep | all.sizes.Deep | shapes.Shape;
class Box extends all["Shape"] implements S { made = S.make(); }
export function run(unit: S, { one = all.unit }) {
  const s: S = draw(unit), t = all.unit;
  return { unit, s, t, paint, x: Direction.x, f(S: number) { return S; } };
}
const object = { unit, [unit]: unit };
let axis: Axis;
let far: import("./passing").sizes.Deep | import("./passing").shapes.Shape;
`,
  'more.ts': 'import Made, { one, A } from "./index";\nlet m: Made = new Made(), o = one, a = A.x;\n',
};
const NAMES = Object.keys(FILES);
const folder = folderOf(FILES);
const language = new Language(folder, NAMES);

/** @param {string} spot @param {string[]} words @returns {string[]} places of what leads there by a name */
function ours(spot, ...words) {
  const [found] = answer(['uses', folder, spot, ...words]);
  return found.uses.filter((/** @type {any} */ it) => it.how !== 'export *').map((/** @type {any} */ it) => `${it.file}:${it.line}:${it.column}`).sort();
}

for (const spot of ['shapes.ts:1:18', 'shapes.ts:3:14', 'shapes.ts:4:25', 'shapes.ts:5:11', 'shapes.ts:5:64', 'shapes.ts:7:6']) {
  test(`what leads to ${spot} is what TypeScript's references are, with bodies and without`, () => {
    const [file, line, column] = spot.split(':');
    const all = referencesTo(language, path.join(folder, file), Number(line), Number(column));
    assert.ok(all.length > 1);
    assert.deepEqual(ours(spot, '--bodies'), all.map((it) => it.place));
    assert.deepEqual(ours(spot), all.filter((it) => !it.isInBody).map((it) => it.place));
  });
}

test('what leads to a module with `export =` is what TypeScript\'s references are: each import of it', () => {
  const files = {
    'old.ts': 'namespace Old { export interface Options { a: 1 } export function run(it: Options) {} }\nexport = Old;\n',
    'index.ts': 'import old = require("./old");\nimport same from "./old";\nexport { old, same };\nlet it: old.Options;\n',
  };
  const made = folderOf(files);
  const service = new Language(made, Object.keys(files), { module: ts.ModuleKind.CommonJS });
  for (const [line, column] of [[1, 11], [1, 34]]) {
    const wanted = referencesTo(service, path.join(made, 'old.ts'), line, column).map((it) => it.place);
    const [{ uses }] = answer(['uses', made, `old.ts:${line}:${column}`, '--bodies']);
    assert.deepEqual(uses.map((/** @type {any} */ it) => `${it.file}:${it.line}:${it.column}`).sort(), wanted);
    assert.equal(wanted.includes('index.ts:1:8'), column === 11);
  }
  const { stdout } = symdir(['uses', made, 'old.ts:1', 'Old']);
  assert.match(stdout, /^ {2}index\.ts:1:8 +import +import old = require/m);
});

test('from each place that leads there, by an alias too', () => {
  const places = ours('shapes.ts:3:14', '--bodies');
  for (const spot of ['index.ts:1:29', 'index.ts:6:10', 'more.ts:1:16', 'more.ts:2:31', 'index.ts:10:65']) assert.deepEqual(ours(spot, '--bodies'), places, spot);
});

test('statements `export *` that pass it on, and how each use stands', () => {
  const [{ name, defined, uses }] = answer(['uses', folder, 'shapes.ts:2', 'Shape']);
  assert.deepEqual([name, defined], ['Shape', [{ kind: 'interface', file: 'shapes.ts', line: 1, column: 18 }, { kind: 'class', file: 'shapes.ts', line: 2, column: 14 }]]);
  const how = Object.fromEntries(uses.map((/** @type {any} */ it) => [`${it.file}:${it.line}:${it.column}`, [it.how, it.isType]]));
  assert.deepEqual([how['passing.ts:1:1'], how['passing.ts:2:10'], how['index.ts:1:16']], [['export *', false], ['re-export', false], ['import', false]]);
  assert.deepEqual([how['index.ts:3:15'], how['index.ts:10:46'], how['index.ts:10:79'], how['index.ts:8:16']],
    [['import', true], ['import type', true], ['reference', false], ['reference', false]]);
  const exported = answer(['uses', folder, 'shapes.ts:7', 'Axis'])[0].uses;
  assert.deepEqual(exported.slice(-2).map((/** @type {any} */ it) => [it.line, it.column, it.how]), [[8, 10, 'export'], [8, 29, 'export']]);
});

test('what default values in patterns and shorthands refer to is what TypeScript\'s references are', () => {
  // the last two aren't told by the parser, but by the checker alone
  const lines = ['({ a = b } = c);', '({ x: { a = b } } = c);', '[{ a = b } = { a }] = c;', 'for ({ a = b } of c);', 'export const { d = b } = c, f = ({ e = b }) => e;', '(({ a = b }) = c);', 'export const o = [{ a = b }];'];
  const files = { 'index.ts': `import { b } from "./b";\nlet a: number, c: any;\n${lines.join('\n')}\nexport function g() { ${lines.join(' ').replaceAll('export ', '')} }\n`, 'b.ts': 'export const b = 1;\n' };
  const made = folderOf(files);
  const wanted = referencesTo(new Language(made, Object.keys(files)), path.join(made, 'b.ts'), 1, 14).map((it) => it.place);
  assert.deepEqual([wanted.length, new Set(wanted.map((it) => it.split(':')[1])).size], [17, 9]);
  const [{ uses }] = answer(['uses', made, 'b.ts:1', 'b', '--bodies']);
  assert.deepEqual(uses.map((/** @type {any} */ it) => `${it.file}:${it.line}:${it.column}`).sort(), wanted);
});

test('an `import a = require(..)` is for types alone where no value is needed of it', () => {
  const old = 'declare namespace old { interface O {} const v: 1 }\nexport = old;\n';
  for (const [use, isType] of /** @type {const} */ ([['let it: old.O;', true], ['export const it = old.v;', false]])) {
    const folder = folderOf({ 'old.d.ts': old, 'index.ts': `import old = require("./old");\n${use}\n` });
    const [{ uses }] = answer(['uses', folder, 'old.d.ts:1:19', '--bodies']);
    assert.deepEqual(uses.slice(0, 2).map((/** @type {any} */ it) => [it.line, it.column, it.how, it.isType]), [[1, 8, 'import', isType], [2, use.indexOf('old') + 1, 'reference', isType]]);
  }
});

test('an import is for types alone where no body needs it, if bodies are read', () => {
  const files = { 'index.ts': 'import { a, b } from "./a";\nlet c: b;\nexport function f() { return a; }\n', 'a.ts': 'export const a = 1; export class b {}\n' };
  const isType = (/** @type {string} */ name, /** @type {string[]} */ ...words) => answer(['uses', folderOf(files), 'a.ts:1', name, ...words])[0].uses[0].isType;
  assert.deepEqual([isType('a'), isType('a', '--bodies'), isType('b'), isType('b', '--bodies')], [false, false, false, true]);
});

test('a default export without a name is found where `api` has it, and at `default`, as by TypeScript', () => {
  const files = {
    'f.ts': 'export default function (a: number) { return a; }\n', 'c.ts': '  export default class { it = 1 }\n', 'e.ts': 'export default [1];\n',
    'index.ts': 'import f, { default as g } from "./f";\nimport C from "./c";\nimport e from "./e";\nexport { default as again } from "./f";\nexport const all = [f(1), g, e, new C()];\nexport let t: typeof import("./f").default, c: import("./c").default;\n',
  };
  const made = folderOf(files);
  const service = new Language(made, Object.keys(files));
  for (const [file, column] of /** @type {[string, number][]} */ ([['f.ts', 8], ['c.ts', 10], ['e.ts', 8]])) {
    const wanted = referencesTo(service, path.join(made, file), 1, column).map((it) => it.place);
    assert.deepEqual(wanted.filter((it) => it.startsWith('index.ts:6:')), { 'f.ts': ['index.ts:6:36'], 'c.ts': ['index.ts:6:62'] }[file] ?? []);
    const [{ name, defined: [{ column: at }], uses }] = answer(['uses', made, `${file}:1:${column}`, '--bodies']);
    assert.deepEqual([name, uses.map((/** @type {any} */ it) => `${it.file}:${it.line}:${it.column}`).sort()], ['default', wanted]);
    for (const words of [[`${file}:1:${at}`], [`${file}:1`, 'default'], [`${file}:1`]]) assert.deepEqual(answer(['uses', made, ...words, '--bodies'])[0].uses, uses, words.join(' '));
  }
  assert.deepEqual(answer(['uses', made, 'f.ts:1:26'])[0].name, 'a');
  assert.equal(symdir(['uses', made, 'index.ts:1', 'default']).stdout.split('\n')[0], 'default  function  f.ts:1:16: 6 uses in 1 file');
});

test('a local name, and a name that nothing uses', () => {
  const files = { 'index.ts': 'export function f(a: number) {\n  const b = a;\n  return b + b;\n}\n' };
  const at = (/** @type {string} */ spot) => answer(['uses', folderOf(files), spot]).map((/** @type {any} */ it) => [it.name, it.defined.map((/** @type {any} */ one) => one.column), it.uses.map((/** @type {any} */ one) => `${one.line}:${one.column}`)]);
  assert.deepEqual(at('index.ts:2:9'), [['b', [9], ['3:10', '3:14']]]);
  assert.deepEqual(at('index.ts:1:19'), [['a', [19], ['2:13']]]);
  assert.deepEqual(at('index.ts:1:17'), [['f', [17], []]]);
  assert.equal(symdir(['uses', folderOf(files), 'index.ts:1:17']).status, 1);
});

test('of the names in a line those are asked that are declared there, and not one of another file\'s line of that number', () => {
  const folder = folderOf({ 'index.ts': 'import { a } from "./a"; export const b = a;\nexport { a };\n', 'a.ts': 'export const a = 1;\n' });
  const asked = (/** @type {string} */ spot) => answer(['uses', folder, spot]).map((/** @type {any} */ it) => it.name);
  assert.deepEqual([asked('index.ts:1'), asked('index.ts:2'), asked('index.ts:1:10')], [['b'], ['a'], ['a']]);
});

test('uses are told by file, line and column, however they lead there', () => {
  const many = folderOf({ 'a.ts': 'export * from "./d";\nimport { d } from "./d";\n', 'b.ts': 'import { d } from "./d";\nexport { d as e, d as f };\n', 'c.ts': 'export * from "./d";\n', 'd.ts': 'export const d = 1;\n' });
  const [{ uses }] = answer(['uses', many, 'd.ts:1:14']);
  assert.deepEqual(uses.map((/** @type {any} */ it) => `${it.file}:${it.line}:${it.column}`), ['a.ts:1:1', 'a.ts:2:10', 'b.ts:1:10', 'b.ts:2:10', 'b.ts:2:18', 'c.ts:1:1']);
});

test('two names that share a declaration are told with its uses each', () => {
  const shared = folderOf({ 'index.ts': 'import { A, A as B } from "./a";\nconst A = 1;\nexport { A, B };\n', 'a.ts': 'export interface A {}\n' });
  const places = ['1:10', '1:13', '3:10', '3:13'];
  assert.deepEqual(answer(['uses', shared, 'index.ts:3']).map((/** @type {any} */ it) => [it.name, ...it.uses.map((/** @type {any} */ one) => `${one.line}:${one.column}`)]), [['A', ...places], ['B', ...places]]);
});

test('what people read', () => {
  const small = folderOf({ 'index.ts': 'export * from "./a";\nimport { a } from "./a";\nexport function f() { return a; }\n', 'a.ts': 'export const a = 1;\n' });
  assert.deepEqual(symdir(['uses', small, 'a.ts:1']), { status: 0, stderr: '', stdout: `a  const  a.ts:1:14: 2 uses in 1 file
  index.ts:1:1   export *  export * from "./a";
  index.ts:2:10  import    import { a } from "./a";
  function bodies aren't searched: --bodies searches them
` });
  assert.deepEqual(symdir(['uses', small, 'index.ts:3', 'a', '--bodies']).stdout.split('\n').slice(3), ['  index.ts:3:30  reference  export function f() { return a; }', '']);
  assert.deepEqual(symdir(['uses', small, 'a.ts:1:1']), { status: 1, stdout: 'no name of a variable or a type at a.ts:1:1\n', stderr: '' });
  assert.deepEqual(symdir(['uses', small, 'a.ts:1', 'b']), { status: 1, stdout: 'no name b at a.ts:1\n', stderr: '' });
  assert.deepEqual(symdir(['uses', small, 'a.ts']), { status: 2, stdout: '', stderr: 'symdir: uses takes FILE:LINE or FILE:LINE:COLUMN, as `symdir uses . src/a.ts:3:14`\n' });
});

/** @param {string} text @param {string} name @returns {string[]} where it stands, as `LINE:COLUMN` and whether as a type: behind `typeof`, or in a line that begins so */
function standsIn(text, name) {
  return text.split('\n').flatMap((line, i) => [...line.matchAll(new RegExp(`(typeof )?\\b${name}\\b`, 'g'))].map(({ index = 0, 1: word = '' }) => (
    `${i + 1}:${index + word.length + 1} ${word !== '' || line.startsWith('/*type*/')}`)));
}

/** Each way to declare a name in a function, or in a type: `l` and a number stand for values, `L` and a number for types. */
const LOCAL = `export function all(l1: number, [l2, , l3 = l1]: any, { l4, a: l5, ["b"]: l6 = l4, c: [l7], d: { l8 }, ...l9 }: any, ...l10: any[]) {
  let l11 = l1, [l12, [l13 = l11]] = l2, { l14, e: l15, f: { l16 = l14 } = l15 } = l6;
  const { [l11]: l17, ...l18 } = l9;
  var l19 = l3;
  for (const l20 of l10) l20;
  for (let l21 = 0; l21 < l11; l21++) l21;
  for (const l22 in l9) l22;
  try { l5; } catch (l23) { l23; }
  try { l7; } catch ({ l24, g: [l25] }) { l24; l25; }
  class l26 { static h = l26; constructor(readonly l27 = l8, private l28: any, l29 = l27) { l28; l29; } set i(l30: any) { l30; } m(l31: any, [l32]: any) { return l31 + l32; } }
  function l33(l34: any) { return l33(l34); }
  const l35 = function l36(l37: any) { return l36(l37); }, l38 = (l39: any, { l40 }: any) => l39 + l40, l41 = class l42 { static j = l42; };
  enum l43 { k = l16 }
/*type*/  interface L1 { n: L1; o(l44: any): typeof l44; (l45: any): typeof l45; new (l46: any): typeof l46 }
/*type*/  type L2 = L1 | ((l47: any) => typeof l47);
/*type*/  type L3 = L2;
/*type*/  let l48: L3;
  return [new l26(l12, l13), l17, l18, l19, l35, l38, l41, l43.k];
}
`;

test('each way to declare a local name: it is found where it is declared, and wherever else it stands', async (t) => {
  const made = await openFolder(folderOf({ 'index.ts': LOCAL }));
  t.after(() => made.close());
  const names = [...new Set(LOCAL.match(/\b[lL]\d+\b/g))];
  for (const name of names) {
    const [declared, ...used] = standsIn(LOCAL, name);
    const [line, column] = declared.split(' ')[0].split(':').map(Number);
    assert.deepEqual((await made.uses({ file: 'index.ts', line, column })).map((it) => [it.name, it.defined, it.uses.map((one) => `${one.line}:${one.column} ${one.isType}`)]),
      [[name, [{ kind: 'local', file: 'index.ts', line, column }], used]], name);
    for (const it of [declared, ...used]) {
      const [atLine, atColumn] = it.split(' ')[0].split(':').map(Number);
      const [{ ways }] = await made.where({ file: 'index.ts', line: atLine, column: atColumn });
      assert.deepEqual(ways, [{ through: [], defined: { kind: 'local', file: 'index.ts', line, column }, unresolved: null }], `${name} ${it}`);
    }
  }
  assert.equal(names.length, 51);
});

/** Each way to declare a name of a module, and, in lines of values and of types, what refers to it. */
const DECLARED = {
  'd.ts': `export class Decl1 {}
export abstract class Decl2 {}
export function Decl3(...it: any) {}
export interface Decl4 {}
export type Decl5 = 1;
export enum Decl6 { x }
export namespace Decl7 { export const y = 1; export type Q = 1 }
export namespace Decl8.E { export const y = 1; }
export import Decl9 = E9;
namespace E9 { export const y = 1; }
export const Decl10 = 1, [Decl11, { z: Decl12 }] = [1, { z: 1 }] as any, { Decl13, ...Decl14 } = {} as any;
export let Decl15 = 1;
export var Decl16 = 1;
export declare const Decl17: number;
`,
  'index.ts': `import { Decl1, Decl2, Decl3, Decl4, Decl5, Decl6, Decl7, Decl8, Decl9, Decl10, Decl11, Decl12, Decl13, Decl14, Decl15, Decl16, Decl17 } from "./d";
export class A1 extends Decl1 { [Decl10] = Decl11; static b = Decl12; m(a = Decl13) {} @Decl3 c = 1; }
export enum A2 { a = Decl10 }
export const a3 = [new Decl2(), Decl3(), Decl6.x, Decl7.y, Decl8.E.y, Decl9.y, \`\${Decl14}\`, Decl15 ? Decl16 : Decl17, { Decl10, d: Decl11, [Decl12]: 1 }];
export default Decl1;
/*type*/ export let a4: Decl1 = null!;
/*type*/ export interface A5 extends Decl4 { a: Decl5; b: typeof Decl10; [c: string]: Decl1 | any }
/*type*/ export type A6<T extends Decl4 = Decl4> = Decl5 | Decl7.Q;
/*type*/ export class A7 implements Decl4 { [a: string]: Decl1 }
/*type*/ export const a8 = null! as Decl4, a9 = f<Decl5>(), a10 = <Decl4>null!;
/*type*/ export let a11: import("./d").Decl4, a12: (it: Decl5) => Decl4;
/*type*/ declare function f<T extends Decl4>(): T | Decl5;
`,
};

test('each way to declare a name of a module: its uses are where else it stands, those in types told as such', async (t) => {
  const made = await openFolder(folderOf(DECLARED), { entry: ['index.ts'] });
  t.after(() => made.close());
  for (const name of new Set(DECLARED['d.ts'].match(/\bDecl\d+\b/g))) {
    const [declared, ...more] = standsIn(DECLARED['d.ts'], name);
    // what an alias is made of refers to the same
    const own = name === 'Decl9' ? standsIn(DECLARED['d.ts'], 'E9').slice(0, 1) : more;
    const [imported, ...used] = standsIn(DECLARED['index.ts'], name);
    const [line, column] = declared.split(' ')[0].split(':').map(Number);
    const [found] = await made.uses({ file: 'd.ts', line, column });
    // an import is of types alone where no value is needed
    const isType = used.every((it) => it.endsWith('true'));
    const wanted = [...own.map((it) => `d.ts:${it}`), `index.ts:${imported.replace('false', String(isType))}`, ...used.map((it) => `index.ts:${it}`)];
    assert.deepEqual(found.uses.map((it) => `${it.file}:${it.line}:${it.column} ${it.isType}`), wanted, name);
    assert.deepEqual(found.uses.map((it) => it.how).filter((it) => it !== 'reference').sort(), name === 'Decl4' ? ['import', 'import type'] : ['import'], name);
  }
});

test('names that stand close together are found one by one', async (t) => {
  const [head, count] = ['import{a}from"./a";export type T=[', 80];
  const made = await openFolder(folderOf({ 'index.ts': `${head}${'a,'.repeat(count)}];`, 'a.ts': 'export type a=1' }), { entry: ['index.ts'] });
  t.after(() => made.close());
  const [{ uses }] = await made.uses({ file: 'a.ts', line: 1, column: 13 });
  assert.deepEqual(uses.map((it) => it.column), [8, ...Array.from({ length: count }, (_, i) => head.length + 1 + i * 2)]);
});
