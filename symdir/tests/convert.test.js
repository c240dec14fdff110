import assert from 'node:assert/strict';
import { readFileSync } from 'node:fs';
import { createRequire } from 'node:module';
import path from 'node:path';
import test from 'node:test';
import { fileURLToPath } from 'node:url';
import v8 from 'node:v8';

import { convert, nodesOf } from '../lib/tree/convert.js';
import { Files } from '../lib/folder/files.js';
import { TreeNode, numbered } from '../lib/tree/node.js';
import { inAscii, parserOf, ts } from '../lib/tree/typescript.js';
import { KINDS, PRIVATE } from '../lib/kinds.js';
import { languageOf } from '../lib/language.js';
import { findTypeScript } from '../lib/typescript.js';
import { parsedBy } from './parsing.js';

const PLAIN = { bodies: false, ambient: false };

/** @param {string} text @param {string} [name] @param {object} [how] @returns {any[]} */
function nodes(text, name = 'a.ts', how = {}) {
  const made = convert(name, text, { ...languageOf(name), ...PLAIN, ...how });
  assert.equal(made.fault, null);
  return JSON.parse(String(Buffer.concat(made.tree ?? [])));
}

/** @param {any[]} list @param {string} name @returns {number[]} the scopes of the names, in order */
function scopes(list, name) {
  return list.filter((it) => it.sym?.[0] === name).map((it) => it.sym[1]);
}

test('the graphs of docs/GRAPH.md are those of their texts', () => {
  const blocks = readFileSync(new URL('../../docs/GRAPH.md', import.meta.url), 'utf8').split('```json\n').slice(1).map((it) => it.split('```')[0]);
  const graphs = blocks.filter((it) => it.startsWith('{')).map((it) => JSON.parse(it));
  assert.equal(graphs.length, 2);
  for (const { text, tree } of graphs.flatMap((it) => it.modules).filter((it) => it.tree)) assert.deepEqual(nodes(text), tree.nodes);
});

test('the graph of examples/first is that of its folder', () => {
  const graph = JSON.parse(readFileSync(new URL('../../examples/first/graph.json', import.meta.url), 'utf8'));
  for (const { specifier, text, tree } of graph.modules) {
    const file = new URL(`../../examples/first/${specifier.slice('file:///'.length)}`, import.meta.url);
    assert.equal(readFileSync(file, 'utf8'), text);
    assert.deepEqual(nodes(text), tree.nodes);
  }
});

test('ranges count bytes', () => {
  const [program, , , declarator, name] = nodes('export const é = "€";');
  assert.deepEqual(program.range, [0, 24]);
  assert.deepEqual(declarator.range, [13, 23]);
  assert.deepEqual(name.range, [13, 15]);
  assert.deepEqual(nodes('"😀"; x').find((it) => it.kind === 'Ident').range, [8, 9]);
});

test('ranges count bytes behind each sort of character, at the borders between them', () => {
  for (const it of ['\u007f', '\u0080', '\u07ff', '\u0800', '\ud7ff', '\ue000', '\uffff', '\u{10000}', '\u{103ff}', '\u{10ffff}']) {
    const text = `"é${it}"; x;`;
    const start = Buffer.byteLength(`"é${it}"; `);
    assert.deepEqual(nodes(text).find((one) => one.kind === 'Ident').range, [start, start + 1], JSON.stringify(it));
  }
});

test('an annotation begins with its colon or its arrow, and that of a predicate with the type', () => {
  const ranges = (/** @type {string} */ text) => nodes(text).filter((it) => it.kind === 'TsTypeAnn').map(({ range: [start, end] }) => text.slice(start, end));
  assert.deepEqual(ranges('let a: B; function f(g : H): I {}'), [': B', ': H', ': I']);
  assert.deepEqual(ranges('type A = () => B; type C = new () => D; type E = (f: G) => void;'), ['=> B', '=> D', ': G', '=> void']);
  assert.deepEqual(ranges('declare function f(a: unknown): a is B;'), [': unknown', ': a is B', 'B']);
});

test('a lone surrogate is written as U+FFFD', () => {
  const made = convert('a.ts', 'const a = "\ud800";', { ...languageOf('a.ts'), ...PLAIN });
  assert.equal(made.text, 'const a = "\ufffd";');
  assert.doesNotThrow(() => JSON.parse(String(Buffer.concat(made.tree ?? []))));
});

test('a name has the scope that declares it', () => {
  const list = nodes('const a = 1; function f(a: string) { return a; } namespace N { const a = 2; a; } a;', 'a.ts', { bodies: true });
  const [module, parameter, used, inNamespace, inNamespaceToo, last] = scopes(list, 'a');
  assert.equal(module, 1);
  assert.equal(last, 1);
  assert.notEqual(parameter, 1);
  assert.equal(used, parameter);
  assert.notEqual(inNamespace, parameter);
  assert.equal(inNamespaceToo, inNamespace);
});

test('`var` in a block is the function\'s, `let` the block\'s', () => {
  const list = nodes('function f() { { var a = 1; let b = 2; b; } a; b; }', 'a.ts', { bodies: true });
  const [inBlock, outside] = scopes(list, 'a');
  assert.equal(inBlock, outside);
  const [declared, used, other] = scopes(list, 'b');
  assert.equal(declared, used);
  assert.equal(other, 1);
});

test('a type parameter hides a type, and not a value', () => {
  const list = nodes('type T = 1; declare const T: T; interface I<T> { a: T; b: typeof T }');
  const [alias, value, annotation, own, queried] = scopes(list, 'T');
  assert.deepEqual([alias, value, annotation, queried], [1, 1, 1, 1]);
  assert.notEqual(own, 1);
});

test('a type parameter of a class, an interface or a function hides no value', () => {
  assert.deepEqual(scopes(nodes('class A<A> { b: A }'), 'A').map((it) => it === 1), [true, false]);
  assert.deepEqual(scopes(nodes('const T = 1; function f<T>(a = T, b: T) {}'), 'T').map((it) => it === 1), [true, true, false]);
  assert.deepEqual(scopes(nodes('declare const T: unique symbol; interface I<T> { [T]: T }'), 'T').map((it) => it === 1), [true, true, false]);
  assert.deepEqual(scopes(nodes('const T = 1; class C<T> { [T] = T; a: T; m(b = T) {} }'), 'T').map((it) => it === 1), [true, true, true, false, true]);
});

test('`var` in a function isn\'t that of the function around it, or of its parameters', () => {
  const [read, own] = scopes(nodes('function f() { x; function g() { var x; } }', 'a.ts', { bodies: true }), 'x');
  assert.deepEqual([read, own === 1], [1, false]);
  for (const it of ['class A { m() { var x; } }', 'namespace N { var x; }', 'const h = () => { var x; };']) {
    const all = scopes(nodes(`function f() { x; ${it} }`.replace(/^.*namespace.*$/, `namespace M { x; ${it} }`), 'a.ts', { bodies: true }), 'x');
    assert.deepEqual([all.length, all[0], all[1] === 1], [2, 1, false], it);
  }
});

test('what `import a = N.b` names in a namespace is the namespace\'s, and keys of an interface are in no scope of it', () => {
  const all = scopes(nodes('namespace M { import a = N.b; const c: a = 1; a; }'), 'a');
  assert.deepEqual([all.length, new Set(all).size, all[0] === 1], [3, 1, false]);
  assert.deepEqual(scopes(nodes('namespace M { const b = 1; interface A { b: 1; b(): 1 } }'), 'b').map((it) => it === 1), [false, true, true]);
});

test('a chain with a question mark is none of names alone', () => {
  const others = (/** @type {string} */ text) => nodes(text).filter((it) => it.kind === 'Other').map(({ range: [start, end] }) => text.slice(start, end));
  assert.deepEqual([others('a.b; a["b"];'), others('a?.b;'), others('a?.b.c;'), others('a.b?.["c"];')], [[], ['a?.b'], ['a?.b.c', 'a?.b'], ['a.b?.["c"]']]);
});

test('a key in brackets begins with its bracket, behind an object too', () => {
  const keys = (/** @type {string} */ text) => nodes(text).filter((it) => it.kind === 'Computed').map(({ range: [start, end] }) => text.slice(start, end));
  assert.deepEqual(['a["b"];', 'a?.["b"];', 'a /* [ */ [ b][c];', '({ [a]: b });', 'class A { [b] = 1; }'].map(keys), [['["b"]'], ['["b"]'], ['[ b]', '[c]'], ['[a]'], ['[b]']]);
});

test('a parameter of a signature has no default value in a tree', () => {
  const kinds = nodes('interface A { b(c = 1): 1; (d = 2): 1 } type E = (f = 3) => 1; declare class G { h(i?: 4): 1 }').map((/** @type {any} */ it) => it.kind);
  assert.deepEqual(kinds.filter((/** @type {string} */ it) => /^(AssignPat|Num)$/.test(it)), []);
  assert.equal(kinds.filter((/** @type {string} */ it) => it === 'BindingIdent').length, 4);
});

test('a module has `export =` where it stands at the top, and nowhere else', () => {
  const equals = (/** @type {string} */ text) => nodesOf('a.d.ts', text, { ...languageOf('a.d.ts'), ...PLAIN }).equals;
  assert.deepEqual(['export = a;', 'export = a.b.c;', 'export = 1;', 'export default a;', 'declare module "m" { export = a; }', 'export as namespace a;'].map(equals),
    [['a'], ['a', 'b', 'c'], [], null, null, null]);
});

test('what is private in a class is noted as such', () => {
  const text = 'class A { private a; protected b; c; public d; private e() {} f() {} private constructor(private g, public h, protected i, readonly j, k) {} private get l() { return 1; } private set l(m) {} static private n; }';
  const { declarations } = nodesOf('a.ts', text, { ...languageOf('a.ts'), ...PLAIN });
  const rows = Array.from({ length: declarations.length / 5 }, (_, i) => declarations.slice(5 * i, 5 * i + 5));
  const found = rows.filter(([, , , , flags]) => (flags & PRIVATE) !== 0).map(([, , kind, name]) => `${KINDS[kind]} ${/^\w+/.exec(text.slice(name))}`);
  assert.deepEqual(found.sort(), ['constructor private', 'getter l', 'method e', 'parameter g', 'property a', 'property n', 'setter l']);
});

test('a mapped type needs no type, and no name for its keys', () => {
  const names = (/** @type {string} */ text) => nodes(text).flatMap((/** @type {any} */ it) => (it.kind === 'Ident' ? [it.sym[0]] : []));
  assert.deepEqual([names('type A = { [K in B] };'), names('type A = { [K in B]: C };'), names('type A = { [K in B as D]: C };')],
    [['A', 'B'], ['A', 'B', 'C'], ['A', 'B', 'D', 'C']]);
});

test('what `infer` names holds in the true branch', () => {
  const list = nodes('type U = 1; type A<T> = T extends (infer U)[] ? U : U;');
  const [, yes, no] = scopes(list, 'U');
  assert.notEqual(yes, 1);
  assert.equal(no, 1);
});

test('scopes outside of bodies have their numbers with bodies and without', () => {
  const text = 'function f() { { let a; } } namespace N { export const b = 1; }';
  assert.deepEqual(scopes(nodes(text), 'b'), scopes(nodes(text, 'a.ts', { bodies: true }), 'b'));
});

test('a function behind a label is declared where the label stands', () => {
  const list = nodes('function g() { l: function f() {} f; } l: m: function f() {} f; function h() { l: m: n: function f() {} f; }', 'a.ts', { bodies: true });
  const [declared, used, outside, usedOutside, deep, usedDeep] = scopes(list, 'f');
  assert.notEqual(declared, 1);
  assert.equal(used, declared);
  assert.deepEqual([outside, usedOutside], [1, 1]);
  assert.notEqual(deep, 1);
  assert.equal(usedDeep, deep);
});

test('a tree may be 4,096 deep, and no deeper', () => {
  const treeOf = (/** @type {number} */ depth) => {
    let node = new TreeNode('TsModuleBlock', 0, 0, {});
    for (let i = 1; i < depth; i++) node = new TreeNode('TsNamespaceDecl', 0, 0, { body: node });
    return numbered(node);
  };
  assert.equal(treeOf(4096)?.length, 4096);
  assert.equal(treeOf(4097), null);
});

test('patterns that are assigned to hold others, default values and the rest', () => {
  const parts = (/** @type {string} */ text) => nodes(text).map((/** @type {any} */ it) => it.kind).filter((/** @type {string} */ it) => /Pat|BindingIdent|Assign|Num/.test(it));
  assert.deepEqual(parts('[a = 1] = b;'), ['Assign', 'AssignPat', 'BindingIdent', 'Num']);
  assert.deepEqual(parts('[[a = 1]] = b;'), ['Assign', 'ArrayPat', 'AssignPat', 'BindingIdent', 'Num']);
  assert.deepEqual(parts('[a, ...c] = b;'), ['Assign', 'BindingIdent', 'RestPat', 'BindingIdent']);
  assert.deepEqual(parts('[a.c, a += 1] = b;'), ['Assign', 'ExprPat', 'ExprPat', 'Assign', 'BindingIdent', 'Num']);
  assert.deepEqual(parts('({ a, c = 1, d: e, f: { g }, h: i = 2, ...k } = b);'), ['Assign', 'AssignPatProp', 'BindingIdent', 'AssignPatProp', 'BindingIdent', 'Num', 'KeyValuePatProp', 'BindingIdent',
    'KeyValuePatProp', 'ObjectPat', 'AssignPatProp', 'BindingIdent', 'KeyValuePatProp', 'AssignPat', 'BindingIdent', 'Num', 'RestPat', 'BindingIdent']);
  // what is written over a list or an object as a whole is none that takes it apart
  assert.deepEqual(parts('a = [c = 1];'), ['Assign', 'BindingIdent', 'Assign', 'BindingIdent', 'Num']);
  assert.deepEqual(parts('for ({ a = 1 } of b) {}'), ['ObjectPat', 'AssignPatProp', 'BindingIdent', 'Num']);
  assert.deepEqual(parts('for (a in b) {}'), ['BindingIdent']);
  assert.deepEqual(parts('for (a = 1;;) {}'), ['Assign', 'BindingIdent', 'Num']);
});

test('the key of a member is what stands there, in classes, objects, patterns and interfaces', () => {
  const KEYS = ['IdentName', 'Str', 'Num', 'Computed', 'PrivateName'];
  const keys = (/** @type {string} */ text) => nodes(text, 'a.ts', { bodies: true }).filter((it) => KEYS.includes(it.kind)).map((it) => `${it.kind} ${it.name ?? it.value ?? it.text ?? ''}`.trim());
  assert.deepEqual(keys('class A { a; "b c"; 1.5; [d] }'), ['IdentName a', 'Str b c', 'Num 1.5', 'Computed']);
  assert.deepEqual(keys('class A { a() {} "b c"() {} 1.5() {} get [d]() { return e; } #f() {} }'), ['IdentName a', 'Str b c', 'Num 1.5', 'Computed', 'PrivateName f']);
  assert.deepEqual(keys('f({ a: g, "b c": h, 1.5: i, [d]: j, k() {} });'), ['IdentName a', 'Str b c', 'Num 1.5', 'Computed', 'IdentName k']);
  assert.deepEqual(keys('const { a: g, "b c": h, 1.5: i, [d]: j } = k;'), ['IdentName a', 'Str b c', 'Num 1.5', 'Computed']);
  const elements = nodes('interface A { a: 1; "b c": 1; 1.5: 1; [d]: 1 }').filter((it) => it.kind === 'TsPropertySignature').map((it) => it.computed ?? false);
  assert.deepEqual([keys('interface A { a: 1; "b c": 1; 1.5: 1; [d]: 1 }'), elements], [['Str b c', 'Num 1.5'], [false, false, false, true]]);
});

test('who may use a member is told by the word before it, and a parameter with a word is a property too', () => {
  const text = 'class A { public a; protected b; private c; d; public e() {} protected get f() { return 1; } private set f(x) {} private constructor(public g, protected h, private i, readonly j, k, @l m, ...n) {} }';
  const found = nodes(text).filter((it) => /^(ClassProp|ClassMethod|Constructor|TsParamProp)$/.test(it.kind)).map((it) => `${it.kind} ${it.accessibility ?? ''}`.trim());
  assert.deepEqual(found, ['ClassProp public', 'ClassProp protected', 'ClassProp private', 'ClassProp', 'ClassMethod public', 'ClassMethod protected', 'ClassMethod private', 'Constructor private',
    'TsParamProp public', 'TsParamProp protected', 'TsParamProp private', 'TsParamProp']);
});

test('a setter without a parameter is a method, and an interface may be the default export', () => {
  assert.deepEqual(nodes('interface A { set b(c: 1); set d(); }').flatMap((/** @type {any} */ it) => it.kind.match(/^Ts.*Signature$/) ?? []), ['TsSetterSignature', 'TsMethodSignature']);
  const [, statement, declaration] = nodes('export default interface A {}');
  assert.deepEqual([statement.kind, statement.range, declaration.kind, declaration.range], ['ExportDefaultDecl', [0, 29], 'TsInterfaceDecl', [15, 29]]);
});

test('what stands in bodies is left out, and what it imports is noted', () => {
  const made = nodesOf('a.ts', 'function f() { import("./b"); let x: import("./c").X; }', { ...languageOf('a.ts'), ...PLAIN });
  assert.deepEqual(made.references.map((it) => [it.how, it.text]), [['import()', './b'], ['import type', './c']]);
  // what names no module by a text of its own is none
  const others = 'function f() { import(b); g("./b"); h.import("./b"); let x: import(5).X, y: import(T).X; import(`./d`); let z: typeof import("./e"); }';
  const { references } = nodesOf('a.ts', others, { ...languageOf('a.ts'), ...PLAIN });
  assert.deepEqual(references.map((it) => [it.how, it.text]), [['import()', './d'], ['import type', './e']]);
  assert.equal(made.nodes?.some((it) => it.kind === 'TsImportType'), false);
});

test('what refers to other modules is told with the names that it takes', () => {
  const text = 'import d, { a as b } from "./x";\nimport * as ns from "./x";\nexport * from "./y";\nexport { p as q } from "./y";\nexport * as all from "./y";\nimport r = require("./z");\nlet t: import("./t").T;';
  const { references } = nodesOf('a.ts', text, { ...languageOf('a.ts'), ...PLAIN });
  assert.deepEqual(references.map((it) => [it.how, it.text, it.names.map(([name, local]) => [name, local])]), [
    ['import', './x', [['default', 'd'], ['a', 'b']]],
    ['import', './x', [['*', 'ns']]],
    ['export *', './y', []],
    ['export', './y', [['p', 'q']]],
    ['export', './y', [['*', 'all']]],
    ['require', './z', [['*', 'r']]],
    ['import type', './t', [['T', '']]],
  ]);
});

test('newer syntax than TypeScript 4.8 knows', () => {
  const kinds = (/** @type {string} */ text) => nodes(text).map((/** @type {any} */ it) => it.kind);
  assert.ok(kinds('using a = b;').includes('UsingDecl'));
  assert.ok(kinds('await using a = b;').includes('UsingDecl'));
  assert.ok(kinds('class C { accessor a = 1; }').includes('AutoAccessor'));
  assert.deepEqual(kinds('using a = b; class C { d = 1; accessor e = 1; }').filter((it) => /^(ClassProp|AutoAccessor)$/.test(it)), ['ClassProp', 'AutoAccessor']);
  assert.deepEqual(kinds('const a = b satisfies C;').filter((it) => it === 'TsAsExpr' || it === 'Other'), ['Other']);
  assert.ok(kinds('export type * from "./a";').includes('ExportAll'));
  for (const it of ['import a from "./a.json" with { type: "json" };', "import a from './a.json' with { type: 'json' };", 'import * as a from "./a.json" with {\n  type: "json",\n};']) assert.ok(kinds(it).includes('Import'), it);
  assert.ok(kinds("export * from './a.json' with { type: 'json' };").includes('ExportAll'));
  assert.ok(kinds('{ using a = b; }\nfunction f() {}\nusing c = d;').includes('UsingDecl'));
  for (const it of ['accessor #a = 1', 'static accessor a = 1', 'accessor "a" = 1', "accessor 'a'", 'accessor [b]', 'accessor\n a']) assert.equal(kinds(`class C { ${it}; }`).filter((kind) => kind === 'AutoAccessor').length, it.endsWith('\n a') ? 0 : 1, it);
  for (const it of ['a satisfies B', '{} satisfies { b: 1 }', '[] satisfies [b: 1]', '(a) satisfies (B)', 'a satisfies "b"', "a satisfies 'b'", 'a satisfies B as C']) assert.equal(kinds(`x = ${it};`).filter((kind) => kind === 'TsAsExpr').length, it.endsWith('C') ? 1 : 0, it);
  for (const it of ['<const T>', '<const T extends U>', '<A, const T = 1>', '<const T, const U>', '< const T>']) assert.ok(kinds(`function f${it}() {}`).includes('TsTypeParam'), it);
  assert.ok(kinds('function f<const T>(a: T) {}').includes('TsTypeParam'));
  const [specifier] = nodes('export { "a b" as c } from "./a";').filter((/** @type {any} */ it) => it.kind === 'Str');
  assert.equal(specifier.value, 'a b');
  const strings = (/** @type {string} */ text) => nodes(text).flatMap((/** @type {any} */ it) => (it.kind === 'Str' ? [it.value] : it.imported ?? it.exported ?? (it.kind === 'ExportNamespace' ? it.name : [])));
  assert.deepEqual(strings('import { "a b" as c, \'d-e\' as f, g } from "./a";'), ['a b', 'd-e']);
  assert.deepEqual(strings('const a = 1; export { a as "b c", a as \'d\', a as "" };'), ['b c', 'd', '']);
  // words in strings and comments alone, which stay
  const quiet = 'const a = "x satisfies y", b = \'export type * from\', c = "class { accessor d }"; // using e = f;\n/* <const T> */ import g from "./h";\n';
  assert.deepEqual(strings(quiet), ['x satisfies y', 'export type * from', 'class { accessor d }']);
  // a word is none within another one, where a text has newer syntax elsewhere
  const within = nodes('using a = b; dissatisfies (c); preaccessor\n(d); let unusing = 1;').flatMap((/** @type {any} */ it) => it.sym?.[0] ?? []);
  assert.deepEqual(within, ['a', 'b', 'dissatisfies', 'c', 'preaccessor', 'd', 'unusing']);
  // words that mean nothing else there
  for (const it of ['const using = 1; using; accessor(using); type = satisfies * 2;', 'let a = "x satisfies y with { z: 1 }"; // using a = 1', 'class C { accessor; accessor() {} }']) assert.deepEqual(nodes(it).filter((/** @type {any} */ one) => /UsingDecl|AutoAccessor/.test(one.kind)), [], it);
});

test('a syntax error is told with its place', () => {
  const made = convert('a.ts', 'const a = 1;\nconst b = ;\n', { ...languageOf('a.ts'), ...PLAIN });
  assert.equal(made.tree, null);
  assert.deepEqual(made.fault, { line: 2, column: 11, text: 'Expression expected.' });
  const { nodes: none, fault: same } = nodesOf('a.ts', 'const a = 1;\nconst b = ;\n', { ...languageOf('a.ts'), ...PLAIN });
  assert.deepEqual([none, same], [null, made.fault]);
  // what the parser of TypeScript lets pass
  const texts = ['import { a } from b;', 'import a from `b`;', 'export * from b;', 'export { a } from b();', 'declare module "m" { export * from b; }'];
  for (const text of texts) {
    const { tree, fault } = convert('a.ts', `\n${text}`, { ...languageOf('a.ts'), ...PLAIN });
    assert.equal(nodesOf('a.ts', `\n${text}`, { ...languageOf('a.ts'), ...PLAIN }).nodes, null);
    assert.deepEqual([tree, fault], [null, { line: 2, column: text.search(/`b`|b(?=[;()])/) + 1, text: 'String literal expected.' }]);
  }
});

test('declarations of a declaration file without exports are exported where that is asked for', () => {
  const text = 'import { a } from "./a"; declare const b: number; interface C {} declare global { const d: 1 }';
  const count = (/** @type {object} */ how, /** @type {string} */ more = '') => (
    nodes(text + more, 'a.d.ts', how).filter((/** @type {any} */ it) => it.kind === 'ExportDecl').length);
  assert.equal(count({}), 0);
  assert.equal(count({ ambient: true }), 2);
  const more = ' declare function f(): 1; declare class G {} type H = 1; declare enum I {} declare namespace J {} declare module "k" {} declare module L {}';
  assert.equal(count({ ambient: true }, more), 8);
  assert.equal(count({ ambient: true }, 'export {};'), 0);
  assert.equal(nodes('declare const b: number;', 'a.d.ts', { ambient: true }).filter((/** @type {any} */ it) => it.kind === 'ExportDecl').length, 0);
  assert.deepEqual(nodesOf('a.d.ts', text, { ...languageOf('a.d.ts'), ...PLAIN }).implicit, ['b', 'C']);
});

test('each character of a string stands in the tree, control characters and quotes too', () => {
  const raw = [...Array.from({ length: 0x180 }, (_, i) => String.fromCharCode(i)).filter((it) => !/["\\\n\r]/.test(it)), '\uffff', '😀'];
  const escaped = ['"', '\\', '\n', '\r', '\t', '\u001f'].map((it) => [it, JSON.stringify(it).slice(1, -1)]);
  for (const [it, written] of [...raw.map((one) => [one, one]), ...escaped]) {
    assert.deepEqual(nodes(`import "a${written}b";`).map((one) => one.src), [undefined, `a${it}b`], written);
  }
});

test('a long chain of operators and a deep nest keep within the depth', () => {
  const list = nodes(`const a = ${Array.from({ length: 5000 }, () => '1').join(' + ')};`);
  assert.equal(list.filter((/** @type {any} */ it) => it.kind === 'Num').length, 5000);
});

test('what a file\'s name says', () => {
  assert.deepEqual(languageOf('a.d.mts'), { language: 'ts', declaration: true });
  assert.deepEqual(languageOf('a.tsx'), { language: 'tsx', declaration: false });
  assert.deepEqual(languageOf('a.cjs'), { language: 'js', declaration: false });
  for (const it of ['d.ts', 'a.json', 'a']) assert.deepEqual(languageOf(it), { language: 'ts', declaration: false });
});

test('TypeScript\'s text in ASCII means the same', () => {
  const ascii = (/** @type {string} */ text) => inAscii(Buffer.from(text).toString('latin1'));
  assert.equal(ascii('var a = "é║😀"; // ß'), 'var a = "\\u00e9\\u2551\\ud83d\\ude00"; // \\u00df');
  const text = '[`é😀`, /^[ä-ü]$/.test("ö"), (function () { var é = 1; return é; })()] // –';
  assert.deepEqual(eval(/** @type {string} */ (ascii(text))), ['é😀', true, 1]);
  assert.equal(ascii('/\\–/'), null);
  assert.equal(ascii('\ufeffvar a;'), null);
});

test('of TypeScript the blocks or the parts up to the parser are taken, and all of one that has neither', () => {
  const parser = 'var ts;\n(function (ts) {\n    (function (IncrementalParser) {\n    })(1);\n})(ts || (ts = {}));\n';
  assert.equal(parserOf(`"use strict";\n${parser}var ts;\n(function (ts) {\n})(ts || (ts = {}));\n`), `"use strict";\n${parser}module.exports = ts;\n`);
  assert.equal(parserOf('var ts = (() => {})();\n'), null);
  assert.equal(parserOf(parser.slice(0, -2)), null);
  const head = '// by us\nvar ts = {}; ((module) => {\nvar all = {};\nmodule.exports = __toCommonJS(all);\n\n// src/compiler/corePublic.ts\nvar versionMajorMinor = "6.0";\n\n// src/compiler/parser.ts\nvar b;\n';
  const end = '})({ get exports() { return ts; }, set exports(v) { ts = v; module.exports = v; } })\n';
  const whole = `${head}\n// src/compiler/binder.ts\nvar c;\n\n// src/compiler/checker.ts\n${end}`;
  assert.equal(parserOf(whole), `${head}\n${end}`);
  // without what the one function begins with, what it exports, the parser, and a part behind that
  for (const it of ['var ts = {}; ((module) => {\n', 'module.exports = __toCommonJS(all);\n', 'var versionMajorMinor = "6.0";\n', '// src/compiler/parser.ts\n']) assert.equal(parserOf(whole.replace(it, '')), null, it);
  assert.equal(parserOf(`${head}\n${end}`), null);
});

test('what is taken of TypeScript parses as the whole does', () => {
  const { file } = findTypeScript(process.cwd());
  /** @type {typeof import('typescript')} */
  const whole = createRequire(import.meta.url)(file);
  const own = new Files(fileURLToPath(new URL('../lib', import.meta.url)), []).code();
  const names = [...own, path.join(path.dirname(file), 'lib.es5.d.ts'), path.join(path.dirname(file), 'typescript.d.ts')];
  const jsx = 'export const a = <B c={1} {...d}>{e} text<F.G /></B>;\nexport class H<I> { @j k!: I; #l = <T,>(m: T) => m }\n';
  const texts = /** @type {[string, string][]} */ ([['a.tsx', jsx], ['a.ts', jsx], ...names.map((it) => [it, readFileSync(it, 'utf8')])]);
  let faulty = 0;
  for (const [name, text] of texts) {
    for (const it of [text, text.slice(0, text.length / 2), text.slice(text.length / 3)]) {
      const [ours, theirs] = [ts, whole].map((from) => parsedBy(from, name, it));
      if (theirs.said.length > 0) faulty++;
      assert.deepEqual(ours, theirs, name);
    }
  }
  assert.ok(faulty > texts.length);
});

test('a text that is nested too deep for the stack leaves nothing behind for the next', () => {
  const how = { ...languageOf('a.ts'), ...PLAIN };
  const next = Array.from({ length: 300 }, (_, i) => `export const f${i} = (a${i}) => (b) => a${i};`).join('\n');
  assert.equal(nodesOf('a.ts', next, how).fault, null);
  assert.throws(() => nodesOf('b.ts', `b = ${'(a,'.repeat(20000)}1${')'.repeat(20000)}`, how), RangeError);
  assert.equal(nodesOf('a.ts', next, how).fault, null);
});

test('a comment isn\'t parsed for its tags, wherever it begins a line, and so may be nested as deep as it likes', () => {
  for (const name of ['a.ts', 'a.js']) {
    for (const before of ['', '\n', ' \t', 'b;\r\n', 'b;\r', 'b;\u2028', 'b;\u2029\t', 'b;\n\u2028', 'b;\n\u2029\t', '/** c */\n', '#!/bin/sh\n']) {
      const { fault, nodes: made } = nodesOf(name, `${before}/** @type {${'['.repeat(20000)}1${']'.repeat(20000)}} */\nexport let a = 1;\n`, { ...languageOf(name), ...PLAIN });
      assert.deepEqual([fault, made?.filter((it) => it.kind === 'BindingIdent').length], [null, 1], JSON.stringify(before));
    }
  }
});

test('an empty comment is none of tags, and neither is what looks like one within a line', () => {
  for (const text of ['/**/ import "./a"; let b = 1; /* */\n', 'import "./a"; /**/\n']) {
    const { fault, references } = nodesOf('a.ts', text, { ...languageOf('a.ts'), ...PLAIN });
    assert.deepEqual([fault, references.map((it) => it.text)], [null, ['./a']], text);
  }
  const { references } = nodesOf('a.ts', 'import "./**a";\n/** */ import "/** b";\n', { ...languageOf('a.ts'), ...PLAIN });
  assert.deepEqual(references.map((it) => it.text), ['./**a', '/** b']);
});

test('names of another module have the scope of those that nothing declares', () => {
  const list = nodes('type A = import("./b").C; type D = import("./b").E.F; type G = H;');
  assert.deepEqual([...scopes(list, 'C'), ...scopes(list, 'E')], [...scopes(list, 'H'), ...scopes(list, 'H')]);
});

test('imports and exports of types alone say so', () => {
  const marked = (/** @type {string} */ text) => nodes(text).filter((it) => it.type_only === true).map((it) => `${it.kind} ${it.range.join('-')}`);
  assert.deepEqual(marked('import type { a } from "a"; import { type b, c } from "b"; import type d from "d"; import type * as e from "e";'),
    ['Import 0-27', 'ImportNamed 37-43', 'Import 59-82', 'Import 83-111']);
  assert.deepEqual(marked('export type { a } from "a"; export { type b, c } from "b"; export type { d }; export { type d as e };'),
    ['ExportNamed 0-27', 'ExportSpecifier 37-43', 'ExportNamed 59-77', 'ExportSpecifier 87-98']);
  assert.deepEqual(marked('import type a = require("a"); import type from "b"; import { type } from "c"; export * from "d"; export { type as f } from "e";'), ['TsImportEqualsDecl 0-29']);
});

test('while a long text is parsed the heap may grow to what its tree takes before V8 looks for garbage, and as usual then', (t) => {
  /** @type {string[]} */
  const flags = [];
  let used = 20_000_000;
  t.mock.method(v8, 'getHeapStatistics', () => ({ used_heap_size: used }));
  t.mock.method(v8, 'setFlagsFromString', (/** @type {string} */ it) => flags.push(it));
  const flagsFor = (/** @type {string} */ text) => {
    flags.length = 0;
    convert('a.ts', text, { ...languageOf('a.ts'), ...PLAIN });
    return flags.map((it) => it.replace('--heap-growing-percent=', ''));
  };
  const usual = ['--interrupt-budget=135168', '0'];
  assert.deepEqual(flagsFor('x;'.padEnd(999_999)), []);
  // 64 bytes of objects for each unit
  assert.deepEqual(flagsFor('x;'.padEnd(1_000_000)), [...usual, '320', '0']);
  assert.deepEqual(flagsFor('x;'.padEnd(4_000_000)), [...usual, '1280', '0']);
  used = 40_000_000;
  assert.deepEqual(flagsFor('x;'.padEnd(1_000_000)), [...usual, '0', '0']);
  // what the parser gives up
  used = 20_000_000;
  assert.throws(() => flagsFor('('.repeat(1_000_000)), RangeError);
  assert.deepEqual(flags.slice(-2), ['--heap-growing-percent=320', '--heap-growing-percent=0']);
});

test('a type of the module goes before a value of a scope within, and a value before nothing', () => {
  const list = nodes('interface A {} type B = 1; declare function f(A: A, C: typeof C, D: D): B; interface G<A> { a: A; b(B: typeof B): B }');
  const [, inFunction, , inInterface] = scopes(list, 'A');
  const [, , inMethod] = scopes(list, 'B');
  assert.equal(new Set([1, inFunction, inInterface, inMethod]).size, 4);
  assert.deepEqual(['A', 'B', 'C', 'D'].map((it) => scopes(list, it)),
    [[1, inFunction, 1, inInterface], [1, 1, inMethod, inMethod, 1], [inFunction, inFunction], [inFunction, inFunction]]);
});
