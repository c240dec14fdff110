import assert from 'node:assert/strict';
import test from 'node:test';

import { answer, folderOf, symdir } from './helper.js';
import { Language, ts } from './language.js';
import { leaksBy } from './leaking.js';

const FILES = {
  'index.ts': 'export * from "./shapes.ts";\n',
  'shapes.ts': `import { Point } from "./points.ts";
interface Hidden { a: number }
export class Shape {
  at: Point;
  private own: Secret;
  #mine: Secret;
  constructor(readonly hidden: Hidden, private readonly more: Secret) {}
  draw<T extends Hidden>(to: T): Point { return this.at; }
}
interface Secret {}
export interface Named { name: string; shape: Shape; far: import("./points.ts").Far }
`,
  'points.ts': 'export interface Point { x: number }\nexport type Far = 1;\n',
};

test('types that public declarations need, and by what', () => {
  const { entries, leaks } = answer(['leaks', folderOf(FILES)]);
  assert.deepEqual(entries, ['index.ts']);
  assert.deepEqual(leaks, [
    { name: 'Hidden', kind: 'interface', file: 'shapes.ts', line: 2, column: 11, exported: false, neededBy: ['Shape constructor', 'Shape.hidden', 'Shape.draw'] },
    { name: 'Point', kind: 'interface', file: 'points.ts', line: 1, column: 18, exported: true, neededBy: ['Shape.at', 'Shape.draw'] },
    { name: 'Far', kind: 'type', file: 'points.ts', line: 2, column: 13, exported: true, neededBy: ['Named.far'] },
    // whoever calls the constructor needs the type of each parameter, whatever it becomes in the class
    { name: 'Secret', kind: 'interface', file: 'shapes.ts', line: 10, column: 11, exported: false, neededBy: ['Shape constructor'] },
  ]);
});

test('what people read, and the status', () => {
  const { status, stdout } = symdir(['leaks', folderOf({ 'index.ts': 'export declare function f(a: A): B;\ninterface A {}\nexport interface B {}\n' })]);
  assert.equal(status, 1);
  assert.equal(stdout, `A  interface  index.ts:2:11  (exported by no file)
    referenced by f
2 public names of index.ts: 1 declaration that they reference can't be imported
`);
});

test('nothing to tell', () => {
  const { status, stdout } = symdir(['leaks', folderOf({ 'index.ts': 'export declare function f(a: A): void;\nexport interface A { b: A }\n' })]);
  assert.deepEqual([status, stdout], [0, '2 public names of index.ts: all types that they reference are exported\n']);
});

test('a type that another entry exports is no leak, and neither is one of a package', () => {
  const folder = folderOf({
    'package.json': '{"exports":{".":"./a.ts","./b":"./b.ts"},"dependencies":{"far":"1"}}',
    'a.ts': 'import { B } from "./b.ts";\nimport { Far } from "far";\nexport declare const a: B | Far;\n', 'b.ts': 'export interface B {}\n' });
  assert.deepEqual(answer(['leaks', folder]).leaks, []);
});

test('of a value that is exported as `default` the types count that are written in it, as by TypeScript', () => {
  const files = {
    'index.ts': 'export { default as a } from "./a";\nexport { default as b } from "./b";\nexport { default as c } from "./c";\nexport { default } from "./d";\n',
    'a.ts': 'function make(x: number) { return x; }\nconst one = 1;\nexport default make(one);\n',
    'b.ts': 'interface Shown {}\nclass Made implements Shown {}\nexport default new Made() as Shown;\n',
    'c.ts': 'interface Taken {}\nnamespace Inner { export interface Deep {} }\nconst value = 1;\nexport default (it: Taken, more: Inner.Deep, last: typeof value) => it;\n',
    'd.ts': 'interface Own {}\nexport default function (it: Own) {}\n',
  };
  const folder = folderOf(files);
  const wanted = leaksBy(new Language(folder, Object.keys(files)), ['index.ts']);
  assert.deepEqual(wanted, ['b.ts:1:11', 'c.ts:1:11', 'c.ts:2:36', 'c.ts:3:7', 'd.ts:1:11']);
  const { leaks } = answer(['leaks', folder]);
  assert.deepEqual(leaks.map((/** @type {any} */ it) => `${it.file}:${it.line}:${it.column}`).sort(), wanted);
});

test('modules that export each other as a whole are each looked at once', () => {
  const folder = folderOf({ 'index.ts': 'export * as n from "./n";\n', 'n.ts': 'export * as m from "./m";\nexport declare const a: H;\ninterface H {}\n', 'm.ts': 'export * as n from "./n";\nexport * as i from "./index";\n' });
  assert.deepEqual(answer(['leaks', folder]).leaks.map((/** @type {any} */ it) => [it.name, it.neededBy]), [['H', ['a']]]);
});

test('an import type counts, and a type within another that leaks doesn\'t, as by TypeScript', () => {
  const files = {
    'index.ts': 'import B from "./b";\nexport declare const all: { f: typeof import("./a").f; d: import("./d").Deep.Inner; b: B; options: B.Options };\n',
    'a.ts': 'export declare function f(): void;\n', 'd.ts': 'export namespace Deep { export interface Inner {} }\n',
    'b.ts': 'export default B;\ndeclare class B {}\ndeclare namespace B { export interface Options {} }\n',
  };
  const folder = folderOf(files);
  const wanted = leaksBy(new Language(folder, Object.keys(files)), ['index.ts']);
  assert.deepEqual(wanted, ['a.ts:1:25', 'b.ts:2:15', 'd.ts:1:42']);
  const { leaks } = answer(['leaks', folder]);
  assert.deepEqual(leaks.map((/** @type {any} */ it) => `${it.file}:${it.line}:${it.column}`).sort(), wanted);
});

test('what is private needs no type, by each way to say so', () => {
  const text = `interface T {}\ninterface S {}\nexport class A { private a: T; #b: T; private c(x: T) {} #d(x: T) {} private static e: T; accessor #f: T; private accessor g: T; private get h(): T; private constructor(x: T); }
export class B { protected a: S; }\n`;
  assert.deepEqual(answer(['leaks', folderOf({ 'index.ts': text })]).leaks.map((/** @type {any} */ it) => [it.name, it.neededBy]), [['S', ['B.a']]]);
});

test('members without a name are called what they are', () => {
  const { leaks } = answer(['leaks', folderOf({ 'index.ts': 'interface T {}\nexport interface A { (a: T): 1; new (a: T): 1; [a: string]: T }\nexport class B { constructor(a: T) {} }\n' })]);
  assert.deepEqual(leaks.map((/** @type {any} */ it) => it.neededBy), [['A call', 'A new', 'A index', 'B constructor']]);
});

/** Initializers whose types TypeScript puts into the declaration: in each, `H` stands for a type of its own. */
const SHOWN = [
  '(): H => null!', '(a: H) => 1', '(...a: H[]) => 1', '<T extends H>(a: T) => 1', '<T = H>(a: T) => 1', 'async (a: H) => {}', 'function (a: H): void {}', 'function (): H { return null!; }',
  '(a: number) => (b: H) => 1', '() => null! as H', '(a: string, b = null! as H) => 1', '(a = (b: H) => 1) => 1', '({ a }: H) => 1', '([a]: H[] = []) => 1', 'null! as H', '(null! as H)',
  '<H>null!', '[null! as H]', '[...(null! as H[])]', '{ a: null! as H }', '{ a: [{ b: (c: H) => 1 }] }', '{ f(a: H) {} }', '{ get g(): H { return null!; } }', '{ set s(a: H) {} }', '{ ["a"](b: H) {} }',
  '[(a: H) => 1] as const', '{ a: (b: H) => 1 } as const',
  '[(a: H) => 1] /* as */ as /* const */ const', '<const>[(a: H) => 1]', '< /* const */ const > { a: (b: H) => 1 }', 'class { a!: H }', 'class { m(a: H) {} }', 'class { get g(): H { return null!; } }', 'class { static s = (a: H) => 1 }',
  'class { constructor(a: H) {} }', 'class { constructor(readonly a: H) {} }', 'class { [a: string]: H }', 'class<T extends H> { t!: T }', 'new Box<H>()', 'new Box<Box<H>>(null!)',
  'null! as { a: (b: H) => 1 }', '(a: keyof H) => 1', '(a: Box<H>) => 1',
];
/** Initializers with types that no declaration has. */
const HIDDEN = [
  '(): number => { const a: H = null!; return 1; }', 'function (): void { let a: H; }', 'count(null! as H)', 'count<H>()', '{ ...(null! as H) }', '`${null! as H}`', '[null! as H].length', '(null! as H).a', '!(null! as H)',
  'count(null! as H) + 1', '{ a: count(null! as H) }', '[count<H>()]', '{ [`${null! as H}`]: 1 }', '(): void => count(null! as H)', 'typeof (null! as H)', '(a?: number): void => { (b: H) => 1; }',
];
/** What TypeScript takes from its own library, in short. */
const GLOBALS = `interface Array<T> { length: number; [at: number]: T }\ninterface ReadonlyArray<T> { readonly [at: number]: T }\ninterface Promise<T> { value: T }\n${
  ['Boolean', 'Function', 'CallableFunction', 'NewableFunction', 'IArguments', 'Number', 'Object', 'RegExp', 'String'].map((it) => `interface ${it} {}\n`).join('')}`;

test('types in an initializer count that TypeScript puts into the declaration', () => {
  const rows = [...SHOWN, ...HIDDEN].map((it, i) => `export const v${i} = ${it.replace(/\bH\b/g, `H${i}`)};\n`);
  const types = rows.map((_, i) => `interface H${i} { a: string }\n`);
  const box = 'export class Box<T> { t!: T; constructor(a?: T) {} }\nexport declare function count<T>(a?: T): number;\n';
  const files = { 'index.ts': [...types, box, ...rows].join(''), 'globals.d.ts': GLOBALS };
  const folder = folderOf(files);
  const { service } = new Language(folder, Object.keys(files), { declaration: true });
  const [{ text }] = service.getEmitOutput(`${folder}/index.ts`, true, true).outputFiles;
  // it leaves a type out that no declaration needs
  const wanted = rows.map((_, i) => `H${i}`).filter((it) => text.includes(`interface ${it} {`));
  assert.deepEqual(wanted, SHOWN.map((_, i) => `H${i}`), text);
  // what `make packages` compares with says the same
  const places = leaksBy(new Language(folder, Object.keys(files)), ['index.ts']);
  assert.deepEqual(places, wanted.map((it) => `index.ts:${Number(it.slice(1)) + 1}:11`).sort());
  const { leaks } = answer(['leaks', folder, '--entry', 'index.ts']);
  assert.deepEqual(leaks.map((/** @type {any} */ it) => [it.name, it.neededBy]).sort(), wanted.map((it) => [it, [it.replace('H', 'v')]]).sort());
});

test('of several declarations of a name an initializer counts where TypeScript puts its types into one of them', () => {
  const rows = ['export function v(it = (x: H) => 1) {}\nexport namespace v { export const y = 1 }', 'export var v = (it: H) => 1;\nexport var v: (it: any) => number;',
    'export var v: (it: any) => number;\nexport var v = (it: H) => 1;', 'export function v(it: any): void;\nexport function v(it = (x: H) => 1) {}', 'export class v { m(it: any): void; m(it = (x: H) => 1) {} }',
    'export class v { constructor(it: any); constructor(it = (x: H) => 1) {} }', 'export class v { a = (x: H) => 1 }\nexport namespace v { export const y = 1 }', 'export interface v { y: 1 }\nexport const v = (it: H) => 1;'];
  const text = rows.map((it, i) => `${it.replace(/\bH\b/g, `H${i}`).replace(/\bv\b/g, `v${i}`)}\ninterface H${i} { a: string }\n`).join('');
  const files = { 'index.ts': text, 'globals.d.ts': GLOBALS };
  const folder = folderOf(files);
  const { service } = new Language(folder, Object.keys(files), { declaration: true });
  const [{ text: declared }] = service.getEmitOutput(`${folder}/index.ts`, true, true).outputFiles;
  const wanted = rows.map((_, i) => `H${i}`).filter((it) => declared.includes(`interface ${it} {`));
  assert.deepEqual(wanted, ['H0', 'H1', 'H6', 'H7'], declared);
  assert.deepEqual(answer(['leaks', folder, '--entry', 'index.ts']).leaks.map((/** @type {any} */ it) => it.name).sort(), wanted);
});

/** @param {string} text of index.ts, where types that users can't import are called `H` and a number @param {Record<string, string>} [files] */
function leaking(text, files = {}) {
  return answer(['leaks', folderOf({ 'index.ts': text, ...files }), '--entry', 'index.ts']).leaks.map((/** @type {any} */ it) => `${it.name} ${it.neededBy}`).sort();
}

test('of an initializer dotted names, import types and types of values count, too', () => {
  const text = 'namespace N { export interface H1 {} }\nconst H2 = 1;\nexport const a = (it: N.H1) => 1;\nexport const b = (it: typeof H2) => 1;\nexport const c = (it: import("./b").H3) => 1;\n'
    + 'export const d = (it: import("./b").M.H4<import("./b").H5>) => 1;\nexport const e = (it: typeof import("./b")) => 1;\n';
  assert.deepEqual(leaking(text, { 'b.ts': 'export interface H3 {}\nexport namespace M { export interface H4<T> { t: T } }\nexport interface H5 {}\n' }), [
    'H2 b', 'H3 c', 'H5 d', 'M.H4 d', 'N.H1 a']);
});

test('an initializer counts behind let and var, of members and parameters, and not where a type stands before it', () => {
  const types = Array.from({ length: 20 }, (_, i) => `interface H${i} {}\n`).join('');
  assert.deepEqual(leaking(`${types}export let a = (it: H1) => 1;\nexport var b = null! as H2;\nexport function c(it = (x: H3) => 1) {}
export class C { d = (it: H4) => 1; static e = null! as H5; m(it = null! as H6) {} constructor(it = (x: H7) => 1, readonly f = (x: H8) => 1) {} }
export namespace N { export const g = (it: H9) => 1 }\nexport default (it: H10) => [null! as H11, class { h!: H12 }];
export class D { accessor i = (it: H13) => 1 }\nusing j = (it: H14) => 1;\nexport { j };\n`), [
    'H1 a', 'H10 default', 'H11 default', 'H12 default', 'H13 D.i', 'H14 j', 'H2 b', 'H3 c', 'H4 C.d', 'H5 C.e', 'H6 C.m', 'H7 C constructor', 'H8 C constructor', 'H9 N.g'].sort());
  assert.deepEqual(leaking(`${types}export const a: () => void = (it?: H1) => {};\nconst b = (it: H2) => 1;\nexport function c(it: () => void = (x?: H3) => {}) {}
export class C { e: () => void = (it?: H5) => {}; private f = (it: H6) => 1; #g = (it: H7) => 1; private m(it = null! as H8) {} }
export function o(it: string): void;\nexport function o(it = (x: H9) => 1) {}\nexport const p = class { private q!: H10; #r!: H11; private s(it: H12) {} };\n`), []);
});

test('of a default value each type counts that is written in it, to its very end, and none of what stands around it', () => {
  const types = 'interface H1 {}\ninterface H2 {}\nconst x = null! as H2;\n';
  assert.deepEqual(leaking(`${types}export default x ? x : null! as H1`), ['H1 default']);
  assert.deepEqual(leaking(`${types}export default x ? null! as H1 : x\nlet y: H2;\n`), ['H1 default']);
  assert.deepEqual(leaking(`${types}let z: H2; export default f(null! as H1, z); function f(...it: H2[]) {}`), ['H1 default']);
});

test('a type in an initializer is needed by what it initializes, and not by other names of that', () => {
  const [hidden, make] = ['interface H1 {}\n', 'const make = (it: H1) => 1;\n'];
  for (const it of ['export { make as x };', 'export { make as default };', 'export default make;', 'export { make, make as x };']) assert.deepEqual(leaking(hidden + make + it), ['H1 make'], it);
  // TypeScript writes the type into the declaration of `make` alone
  assert.deepEqual(leaking(`${hidden}namespace N { export ${make}}\nexport import x = N.make;\n`), ['H1 N.make']);
});

test('what `satisfies` says counts, and so does what it stands behind', () => {
  const text = 'interface H1 {}\ninterface H2 {}\ninterface H3 {}\nexport const a = { b: (it: H1) => 1 } satisfies H2;\nexport const c = [f(1 satisfies H3)];\ndeclare function f(it: 1): 1;\n';
  assert.deepEqual(leaking(text), ['H1 a', 'H2 a']);
});

test('an initializer counts however deep a type stands in it', () => {
  const nested = (/** @type {string} */ open, /** @type {string} */ inner, /** @type {string} */ close) => open.repeat(1200) + inner + close.repeat(1200);
  const text = `interface H1 {}\ninterface H2 {}\ninterface H3 {}\nexport const a = ${nested('[', 'null! as H1', ']')};\nexport const b = (it: ${nested('Array<', 'H2', '>')}) => 1;\nexport const c = ${'() => '.repeat(400)}null! as H3;\n`;
  assert.deepEqual(leaking(text), ['H1 a', 'H2 b', 'H3 c']);
});
