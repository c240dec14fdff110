import assert from 'node:assert/strict';
import { spawnSync } from 'node:child_process';
import { mkdirSync, readdirSync, symlinkSync, writeFileSync } from 'node:fs';
import path from 'node:path';
import test from 'node:test';

import { answer, folderOf, symdir } from './helper.js';
import { surfaceFor } from '../lib/commands/diff.js';
import { begin } from '../lib/folder/begin.js';
import { Sources } from '../lib/folder/sources.js';
import { findSymq } from '../lib/program.js';
import { parametersOf } from '../lib/surface/parameters.js';
import { oneLine } from '../lib/surface/signature.js';
import { Tree } from '../lib/uses/tree.js';

/** @param {string | Record<string, string>} before @param {string | Record<string, string>} now texts of index.ts, or files @returns {string[]} */
function diff(before, now) {
  const [old, fresh] = [before, now].map((it) => folderOf(typeof it === 'string' ? { 'index.ts': it } : it));
  const { advice, changes } = answer(['diff', old, fresh]);
  const highest = ['major', 'minor', 'patch'].find((it) => changes.some((/** @type {any} */ one) => one.advice === it));
  assert.equal(advice, highest ?? null);
  return changes.map((/** @type {any} */ it) => `${it.advice} ${it.what} ${it.name}`);
}

test('names that came, went, moved or are something else', () => {
  assert.deepEqual(diff('export const a = 1, b = 2;', 'export const b = 2, c = 3;'), ['major removed a', 'minor added c']);
  assert.deepEqual(diff({ 'index.ts': 'export * from "./a";', 'a.ts': 'export class A {}' }, { 'index.ts': 'export * from "./b";', 'b.ts': 'export class A {}' }), ['patch moved A']);
  assert.deepEqual(diff('export class A {}', 'export interface A {}'), ['major kind A']);
  assert.deepEqual(diff('export interface A {}', 'export class A {}'), ['minor kind A']);
  assert.deepEqual(diff('export interface A {}', 'export type A = {};'), ['major kind A']);
  assert.deepEqual(diff('export const a: () => void;', 'export let a: () => void;'), ['patch kind a']);
  assert.deepEqual(diff('export class A {}', 'export class A {}\nexport namespace A { export const b = 1 }'), ['minor kind A', 'minor added A.b']);
  assert.deepEqual(diff('export const a = 1;', 'export const a = 1;'), []);
});

test('names that became types alone, by each word that does so', () => {
  const a = 'export class A {}\nexport default A;\n';
  const index = { 'index.ts': 'export { A } from "./a";', 'a.ts': a };
  for (const text of ['export type { A } from "./a";', 'export { type A } from "./a";', 'import type { A } from "./a";\nexport { A };', 'import { type A } from "./a";\nexport { A };',
    'import type B from "./a";\nexport { B as A };', 'export * from "./b";', 'export type * from "./a";', 'export * from "./e";', 'export { B as A } from "./c";', 'export { "x y" as A } from "./d";']) {
    const files = { 'index.ts': text, 'a.ts': a, 'b.ts': 'export type { A } from "./a";', 'c.ts': 'import { A } from "./a";\nexport type { A as B };', 'd.ts': 'export type { A as "x y" } from "./a";', 'e.ts': 'export type * from "./a";' };
    assert.deepEqual(diff(index, files), ['major type-only A'], text);
    assert.deepEqual(diff(files, index), ['minor type-only A'], text);
  }
  assert.deepEqual(diff(index, { 'index.ts': 'import { A } from "./a";\nexport { A };', 'a.ts': a }), []);
});

test('members: of classes, interfaces, namespaces and enums, but for what is private', () => {
  assert.deepEqual(diff('export class A { a = 1; static b() {} private c = 1; #d = 1; protected e = 1; }', 'export class A { f = 1; private g = 1; }'),
    ['major removed A#a', 'major removed A#e', 'minor added A#f', 'major removed A.b']);
  assert.deepEqual(diff('export class A {}', 'export abstract class A { abstract a(): void; }'), ['major signature A', 'major added A#a']);
  assert.deepEqual(diff('export interface I { a: 1 }', 'export interface I { b: 1; c?: 1; d(): void; readonly e?: 1 }'),
    ['major removed I#a', 'major added I#b', 'minor added I#c', 'major added I#d', 'minor added I#e']);
  assert.deepEqual(diff('export namespace N { export const a = 1; const b = 1; }', 'export namespace N { const a = 1; export namespace M { export const c = 1 } }'), ['minor added N.M', 'major removed N.a']);
  assert.deepEqual(diff('export enum E { a, "b c" = 2 }', 'export enum E { a = 1, d }'), ['major signature E.a', 'major removed E.b c', 'minor added E.d']);
  assert.deepEqual(diff('export class A { get a() { return 1; } set a(x) {} }', 'export class A { get a() { return 1; } }'), ['major kind A#a']);
  assert.deepEqual(diff('export class A { a = 1 }', 'export class A { get a() { return 1; } set a(x) {} }'), ['patch kind A#a']);
  assert.deepEqual(diff('export class A { static a(): 1; a(): 2 }', 'export class A { a(): 2 }'), ['major removed A.a']);
  assert.deepEqual(diff({ 'index.ts': 'export * as n from "./n";', 'n.ts': 'export * as m from "./index";\nexport const a = 1;' },
    { 'index.ts': 'import * as n from "./n";\nexport { n };', 'n.ts': 'export * as m from "./index";\nexport const b = 1;' }), ['major removed n.a', 'minor added n.b']);
  assert.deepEqual(diff('class B { x = 1 }\nexport { B as A };', 'class C { y = 1 }\nexport { C as A };'), ['major removed A#x', 'minor added A#y']);
});

test('members of a declaration file are all that it declares, with `export` or without', () => {
  const text = 'export declare class A { a: 1; static b: 1 }\nexport declare namespace N { const c: 1, d: 2; export function e(): void; namespace M { const f: 1 } interface I { g: 1 } }\nexport declare enum E { h }\n';
  const bare = 'export declare class A {}\nexport declare namespace N { namespace M {} interface I {} }\nexport declare enum E {}\n';
  assert.deepEqual(diff({ 'index.d.ts': text }, { 'index.d.ts': bare }), ['A#a', 'A.b', 'E.h', 'N.I#g', 'N.M.f', 'N.c', 'N.d', 'N.e'].map((it) => `major removed ${it}`));
});

test('words that change nothing for who uses a name are no part of its signature', () => {
  const rows = [['export async function f(a: 1): P {}', 'export function f(a: 1): P {}'], ['export declare function f(a: 1): 1;', 'export function f(a: 1): 1;'], ['export declare const f: 1;', 'export const f: 1 = 1;'],
    ['export class f { public a: 1; public b(): 1 {} }', 'export class f { a: 1; b(): 1 {} }'], ['export class f extends B { override a: 1; override b(): 1 {} }', 'export class f extends B { a: 1; b(): 1 {} }'],
    ['export class f { async a(): P {} }', 'export class f { a(): P {} }'], ['export class f { declare a: 1 }', 'export class f { a: 1 }']];
  const others = [['export class f { readonly a: 1 }', 'export class f { a: 1 }'], ['export class f { protected a: 1 }', 'export class f { a: 1 }']];
  const [before, now] = [0, 1].map((i) => [...rows, ...others].map((it, k) => it[i].replace(/\bf\b/, `f${k}`)).join('\n'));
  const wanted = others.map((_, i) => `major signature f${rows.length + i}#a`);
  assert.deepEqual([diff(before, now), diff(now, before)], [wanted, wanted]);
  assert.deepEqual(diff('export default async function (a: 1): P {}', 'export default function (a: 1): P {}'), []);
});

test('signatures, as they are written', () => {
  const of = (/** @type {string} */ before, /** @type {string} */ now) => diff(before, now).join();
  assert.equal(of('export function f(a: number): void {}', 'export function f(a: number, b?: X, c = 1, ...d: X[]): void {}'), 'minor signature f');
  assert.equal(of('export function f(a: number): void {}', 'export function f(a: number, b: X): void {}'), 'major signature f');
  assert.equal(of('export function f(a: number): void {}', 'export function f(it: number): void { return; }'), 'patch signature f');
  assert.equal(of('export function f(a: number): void {}', 'export function f(a: string): void {}'), 'major signature f');
  assert.equal(of('export function f(a: number): void {}', 'export function f(a: number): string {}'), 'major signature f');
  assert.equal(of('export function f(a: { b: 1 , c?: [X , Y] }) {}', 'export async function f( // comment\n a: { b: 1, c?: [X, Y] },\n) {}'), '');
  assert.equal(of('export function f(a: 1): 1;', 'export function f(a: 1): 1;\nexport function f(a: 2): 2;\nexport function f(a: any): any { return a; }'), 'minor signature f');
  assert.equal(of('export function f(a: 1): 1;\nexport function f(a: 2): 2;\nexport function f(a: any) {}', 'export function f(a: 1): 1;\nexport function f(a: 3): 2;\nexport function f(a: unknown) {}'), 'major signature f');
  assert.equal(of('export const f = <T>(a: T): T => a;', 'export const f = <T>(a: T, b?: T): T => { return a; };'), 'minor signature f');
  // of a function without a written result what it does is no part of its signature
  const bodies = [['{ return 1; }', '{ return 2; }'], ['a + 1', 'a + 2'], ['({ b: 1 })', '({ b: 2 })'], ['[a]', '{ return [a, a]; }']];
  const [one, other] = [0, 1].map((k) => bodies.map((it, i) => `export const f${i} = (a: 1) => ${it[k]};\nexport class A${i} { b = async (a: 1) => ${it[k]} }\n`).join(''));
  assert.equal(of(one, other), '');
  assert.equal(of('export const f = (a: 1) => 1;', 'export const f = (a: 2) => 1;'), 'major signature f');
  assert.equal(of('export const a: "x, y" = 1;', 'export const a: "x,y" = 1;'), 'major signature a');
  assert.equal(of('export const a = 1;', 'export const a: number = 1;'), 'patch signature a');
  assert.equal(of('export type A = 1 | 2;', 'export type A<T> = 1 | 2;'), 'major signature A');
  assert.equal(of('export class A extends B<1> implements C {}', 'export class A extends B<2> implements C {}'), 'major signature A');
  assert.equal(of('export interface A extends B {}', 'export interface A extends B, C {}'), 'major signature A');
  assert.equal(of('export class A { constructor(a: 1) {} }', 'export class A { constructor(a: 1, b?: 2) {} }'), 'minor signature A constructor');
  // behind overloads the implementation isn't seen
  for (const it of ['class A { constructor(a: 1); constructor(B) {} }', 'class A { b(a: 1): void; b(B) {} }', 'function b(a: 1): void;\nexport function b(B) {}']) {
    assert.equal(of(`export ${it.replace('B', 'a: any')}`, `export ${it.replace('B', 'a: unknown, ...b: any[]')}`), '', it);
  }
  assert.equal(of('export class A { readonly a?: 1; b(): 1 { } }', 'export class A { a?: 1; b(): 2 { } }'), 'major signature A#a,major signature A#b');
  assert.equal(of('export interface A { a: 1; [b: string]: 2; (c: 3): 4; new (d: 5): 6 }', 'export interface A { a?: 1; [b: string]: 3; (c: 4): 4; new (d: 6): 6 }'),
    'major signature A call,major signature A index,major signature A new,major signature A#a');
  assert.equal(of('export class A { static a: 1; async b(x: 1) {} protected c: 1; d = (x: 1) => 2 }', 'export class A { a: 1; b(x: 1) {} protected c: 1; d = (x: 2) => 2 }'),
    'minor added A#a,major signature A#d,major removed A.a');
});

test('a `<` in a default value compares, and parameters behind it are told from it', () => {
  const of = (/** @type {string} */ before, /** @type {string} */ now) => diff(`export function f${before} {}`, `export function f${now} {}`).join();
  assert.equal(of('(a = 1 < 2)', '(a = 1 < 2, b = 2)'), 'minor signature f');
  assert.equal(of('(a = 1 < 2)', '(b = 1 < 2)'), 'patch signature f');
  assert.equal(of('(a = 1 < 2)', '(a = 1 < 2, b: number)'), 'major signature f');
  assert.equal(of('(a = 1 < 2)', '(a = 1 < 3)'), 'major signature f');
  assert.equal(of('(a: 1): Map<1, 2>', '(a: 1, b = [1 << 2], { c } = { c: 1 < 2 }, d?: Map<1, 2>): Map<1, 2>'), 'minor signature f');
  assert.equal(of('(a = 1 < 2): 1', '(a = 1 < 2, b = 3 > 2): 1'), 'minor signature f');
  assert.equal(of('(a = f(1 < 2), b?: 1): 1', '(a = f(1 < 2), b?: 1, c?: Map<1, 2>): 1'), 'minor signature f');
});

test('words before a class and an enum, its constructor and its heritage, as they are written in all sorts of exports', () => {
  const before = `export class A {}
export abstract class B<T> { abstract m(): 1; }
class C {}
export { C };
export default class {}
export declare class D {}
export enum E { a }
export declare const enum F { a }
export class G extends A {}
export interface H {}
export class I {}
export class J { constructor(a?: 1); constructor(a: 2, b: 3); constructor(...a: any[]) {} }
export class K { private constructor(a: 1) { } }
`;
  const now = `export abstract class A {}
export class B<T> { m(): 1 { return 1; } }
abstract /* class */ class C {}
export { C };
export default abstract class {}
export declare abstract class D {}
export const enum E { a }
export declare enum F { a }
export class G {}
export interface H extends A {}
export class I { private constructor() {} }
export class J { protected constructor(a?: 1); protected constructor(a: 2, b: 3); protected constructor(...a: any[]) {} }
export class K { private constructor(b: 2) {} }
`;
  assert.deepEqual(diff(before, now), ['major signature A', 'minor signature B', 'minor signature B#m', 'major signature C', 'major signature D', 'major signature E', 'minor signature F', 'major signature G', 'major signature H',
    'major added I constructor', 'major signature J constructor', 'major signature default']);
});

test('a value that can\'t be called or constructed any more, though it is a value still', () => {
  const before = 'export function a() {}\nexport function b() {}\nexport function c(): void {}\nexport class d {}\nexport class e {}\nexport function f() {}\n';
  const now = 'export class a {}\nexport enum b {}\nexport const c: () => void;\nexport enum d {}\nexport interface e {}\nexport declare const e: { new (): e };\nexport class f {}\nexport function f() {}\n';
  assert.deepEqual(diff(before, now), ['major kind a', 'major kind b', 'patch kind c', 'major kind d', 'minor kind e', 'minor kind f']);
});

test('overloads that were added or are in another order, and what is an intersection', () => {
  const written = (/** @type {string[]} */ all) => all.map((it, i) => `export declare function f${String.fromCharCode(97 + i)}${it.split('; ').join(`;\nexport declare function f${String.fromCharCode(97 + i)}`)};`).join('\n');
  const types = ['B & C', 'B & (C)', 'B & ((c: C) => D)', 'B & { a: 1 }', 'B & ({ [c: string]: C })'];
  const wider = ['(): C', '<T>(a: T)', '({ a }: C)', '(a?: C): B & D', '(...a: C)', '(a, b)'];
  const [narrow, added] = [types.map((it) => `(a: A): ${it}`), wider.map((it) => `(a: A & B): B & C; ${it}`)];
  const before = [...types.map(() => '(a: A): B'), ...wider.map(() => '(a: A & B): B & C'), '(a: 1): 1; (a: 2): 2'];
  const now = [...narrow, ...added, '(a: 2): 2; (a: 1): 1'];
  const rest = ['export type T = A & B;\nexport declare const c: A;\nexport declare class K { static m(a: A): B }\n',
    'export type T = A & B & C;\nexport declare const c: A & B;\nexport declare class K { static m(a: A): B; static m(b: B): A }\n'];
  const wanted = ['major signature fl', 'major signature T', 'major signature c', 'minor signature K.m',
    ...types.map((_, i) => `major signature f${'abcde'[i]}`), ...wider.map((_, i) => `minor signature f${'fghijk'[i]}`)];
  assert.deepEqual(diff(`${rest[0]}${written(before)}`, `${rest[1]}${written(now)}`).sort(), wanted.sort());
});

test('texts of signatures', () => {
  assert.equal(oneLine(' ( a : "//  x" , // y\n b: [ 1, ], /* z */ c = `/* ${1}  */`, ) '), '(a: "//  x", b: [1], c = `/* ${1}  */`)');
  const found = parametersOf('<T extends { a: (b: 1, c) => 2 }>(a: [1, 2], b: (c: 1, d: 2) => "x,)", e = {f: 1, g}): (h, i) => 1');
  assert.deepEqual([found?.before, found?.params.map((it) => it.text), found?.behind], ['<T extends { a: (b: 1, c) => 2 }>', ['a: [1, 2]', 'b: (c: 1, d: 2) => "x,)"', 'e = {f: 1, g}'], ': (h, i) => 1']);
  assert.deepEqual(parametersOf('()'), { before: '', params: [], behind: '' });
  assert.equal(parametersOf(': number'), null);
});

const VERSION = 'export function f(a: number): void {}\nexport const gone = 1;\n';

test('snapshots, git revisions and folders go together', () => {
  const folder = folderOf({ 'lib/index.ts': VERSION, 'lib/package.json': '{}' });
  const git = (/** @type {string[]} */ ...words) => assert.equal(spawnSync('git', ['-C', folder, '-c', 'user.name=a', '-c', 'user.email=a@b', ...words]).status, 0, words.join(' '));
  git('init', '-q');
  git('add', '.');
  git('commit', '-q', '-m', 'one');
  git('tag', 'v1');
  const at = path.join(folder, 'lib');
  const file = path.join(folder, 'names.txt');
  assert.equal(symdir(['api', at, '--save', file]).status, 0);
  writeFileSync(path.join(at, 'index.ts'), 'export function f(a: number, b?: number): void {}\n');
  const wanted = ['minor signature f', 'major removed gone'];
  for (const old of ['v1', 'HEAD:lib', 'v1:./lib/', file]) {
    const cwd = old === 'v1' ? at : folder;
    const { stdout, status, stderr } = symdir(['diff', old, at, '--json'], { cwd });
    assert.deepEqual([status, stderr], [1, ''], old);
    assert.deepEqual(JSON.parse(stdout).changes.map((/** @type {any} */ it) => `${it.advice} ${it.what} ${it.name}`), wanted, old);
  }
  assert.deepEqual(symdir(['diff', 'v1:lib', file], { cwd: folder }), { status: 0, stdout: 'the 2 public names and their members are the same\n', stderr: '' });
  const failed = (/** @type {string[]} */ ...words) => symdir(['diff', ...words], { cwd: folder });
  for (const it of ['v2', ':lib', 'v2:lib', '--all:lib']) assert.deepEqual(failed('--', it, at), { status: 2, stdout: '', stderr: `symdir: no such directory, snapshot or git revision: ${it}\n` });
  assert.deepEqual(failed('v1:none', at), { status: 3, stdout: '', stderr: 'symdir: git archive v1: fatal: pathspec \'none\' did not match any files\n' });
  // a revision has a file of that name, and REVISION:DIR names a directory
  assert.deepEqual(failed('v1:lib/index.ts', at), { status: 2, stdout: '', stderr: 'symdir: no directory lib/index.ts in revision v1\n' });
  assert.equal(failed(at).stderr, 'symdir: diff takes OLD and NEW: directories, snapshots or git revisions, as in `symdir diff v1.0.0 .`\n');
  assert.equal(failed(at, at, at).stderr.includes('diff takes OLD and NEW, not'), true);
});

test('one entry that moved is the same entry', () => {
  const files = { 'package.json': '{"types":"a.ts"}', 'a.ts': 'export class A {}', 'b.ts': 'export class A {}' };
  assert.deepEqual(diff(files, { ...files, 'package.json': '{"types":"b.ts"}' }), ['patch moved A']);
});

test('what people read', () => {
  const [old, fresh] = ['export function f(a: number): void {}\nexport const gone = 1;', 'export function f(a: number, b?: 1): void {}\nexport class A {}'].map((it) => folderOf({ 'index.ts': it }));
  assert.deepEqual(symdir(['diff', old, fresh]), { status: 1, stderr: '', stdout: `minor  +  index.ts: A     class index.ts
         existing uses still work
minor  ~  index.ts: f     signature: (a: number): void  ->  (a: number, b?: 1): void
         the added parameters are optional
major  -  index.ts: gone  const index.ts
         existing uses break
major: 1 removed, 1 added, 1 changed
` });
  mkdirSync(path.join(old, 'empty'));
  assert.equal(symdir(['diff', path.join(old, 'empty'), fresh]).status, 3);
});

test('a snapshot that is none, or can\'t be read, is told as such', () => {
  const folder = folderOf({ 'index.ts': 'export const a = 1;\n', 'bad.txt': 'no line\n' });
  const said = (/** @type {string[]} */ ...words) => symdir(['diff', ...words], { cwd: folder });
  for (const words of [['bad.txt', '.'], ['.', 'bad.txt']]) {
    const { status, stdout, stderr } = said(...words);
    assert.deepEqual([status, stdout, /^symdir: bad\.txt:1:1: not a line of a snapshot, [^\n]*\n$/.test(stderr)], [3, '', true], stderr);
  }
  // it is there, and a read of it fails for whoever reads
  symlinkSync('/proc/self/mem', path.join(folder, 'mem.txt'));
  assert.deepEqual(said('mem.txt', '.'), { status: 3, stdout: '', stderr: 'symdir: mem.txt can\'t be read (EIO)\n' });
});

const READING = { skip: [], bodies: false, ambient: true, javascript: true, packages: false, cache: false, progress: () => {} };

/** @param {string} folder @param {import('../lib/folder/begin.js').Trees} trees of folders before @param {object} [how] @returns {Promise<{ parsed: string[], texts: Record<string, string> }>} the files that are parsed, and the trees of all */
async function read(folder, trees, how = {}) {
  const begun = await begin({ ...READING, folder, ...how }, null, trees);
  /** @type {string[]} */
  const parsed = [];
  const pool = await begun.pool();
  const parse = pool.parse.bind(pool);
  pool.parse = (jobs, done) => {
    parsed.push(...jobs.map((it) => path.relative(folder, it.file)));
    return parse(jobs, done);
  };
  const sources = new Sources(begun);
  await sources.read();
  await sources.keep();
  return { parsed, texts: Object.fromEntries([...sources.modules].map(([it, { parsed: { text } }]) => [it, text.toString()])) };
}

test('trees of files that both sides have alike are made once', async () => {
  const old = { 'index.ts': 'export * from "./a";\nimport b = require("./b");\nexport { b };\n', 'a.ts': 'export const a = 1;\n', 'b.ts': 'export const c = 1;\n', 'd.js': 'export const d = 1;\n' };
  const [before, now] = [old, { ...old, 'a.ts': 'export const a = 2;\n', 'b.ts': 'const c = 1;\nexport = c;\n', 'd.ts': old['d.js'] }].map(folderOf);
  const trees = new Map();
  assert.deepEqual((await read(before, trees)).parsed.sort(), ['a.ts', 'b.ts', 'd.js', 'index.ts', 'index.ts']);
  const { parsed, texts } = await read(now, trees);
  // what an import stands for may differ where its file doesn't
  assert.deepEqual(parsed.sort(), ['a.ts', 'b.ts', 'd.ts', 'index.ts']);
  assert.deepEqual(texts, (await read(now, new Map())).texts);
  assert.deepEqual((await read(now, trees)).parsed, []);
  for (const how of [{ bodies: true }, { ambient: false }]) assert.equal((await read(now, trees, how)).parsed.length, 5);
});

test('trees of files that both sides have alike are looked through once', async (t) => {
  const old = { 'index.ts': 'export * from "./a";\nexport * from "./b";\n', 'a.ts': 'export const a: 1;\n', 'b.ts': 'export class B { b(c: 1): 2 }\n' };
  const [before, now] = [old, { ...old, 'a.ts': 'export const a: 2;\n' }].map(folderOf);
  const run = /** @type {any} */ ({ options: {}, report: {}, warn: () => assert.fail('a fault is told') });
  const how = (/** @type {import('../lib/folder/begin.js').Trees} */ trees) => ({ read: (/** @type {string} */ folder) => ({ ...READING, folder }), asked: { symq: findSymq(undefined) }, trees });
  const { items: alone } = await surfaceFor(run, now, how(new Map()));
  const read = t.mock.method(Tree, 'of');
  const both = how(new Map());
  const signatures = [];
  for (const it of [before, now]) signatures.push((await surfaceFor(run, it, both)).items.map((one) => `${one.name}${one.signature}`));
  assert.deepEqual(signatures, [['a: 1', 'B', 'B#b(c: 1): 2'], alone.map((one) => `${one.name}${one.signature}`)]);
  // three of the first one, and the one that differs
  assert.deepEqual(read.mock.calls.length, 4);
});

test('trees of files that the other side has alike are cached for each side', () => {
  const [cache, old, now] = [folderOf({}), folderOf({ 'index.ts': 'export const a = 1;\n' }), folderOf({ 'index.ts': 'export const a = 1;\n' })];
  const { status, stdout } = symdir(['diff', old, now], { env: { XDG_CACHE_HOME: cache } });
  assert.deepEqual([status, stdout], [0, 'the 1 public name and their members are the same\n']);
  assert.equal(readdirSync(path.join(cache, 'symdir')).filter((it) => it.endsWith('.trees')).length, 2);
});
