import assert from 'node:assert/strict';
import path from 'node:path';
import test from 'node:test';

import { answer, folderOf, symdir } from './helper.js';
import { Language, ts } from './language.js';
import { bestCut, cyclicParts, partOf, shortestCycle } from '../lib/uses/circles.js';
import { circlesBy, edgesBy } from './wanted.js';

const FILES = {
  'index.ts': 'import "./a";\nimport "./t1";\nexport * from "./solo";\nimport "./k1";\nimport "./lazy";\nimport "./p1";\n',
  'a.ts': 'import { b } from "./b";\nimport { d } from "./d";\nexport const a = () => b + d;\n',
  'b.ts': 'import { c } from "./c";\nexport const b = c;\n',
  'c.ts': 'import { a } from "./a";\nimport type { d } from "./d";\nexport const c = a;\nlet e: typeof d;\n',
  'd.ts': 'export { b as other } from "./b";\nexport const d = 1;\n',
  't1.ts': 'import { T2 } from "./t2";\nexport class T1 { other?: T2 }\n',
  't2.ts': 'import { T1 } from "./t1";\nimport { x } from "./solo";\nexport class T2 extends T1 {}\nx;\n',
  'solo.ts': 'export const x: import("./t1").T1 | 1 = 1;\n',
  'k1.ts': 'export { K } from "./k2";\nexport * from "./k2";\nexport interface J {}\n',
  'k2.ts': 'export { J } from "./k1";\nexport interface K {}\n',
  'lazy.ts': 'export const load = () => import("./index");\n',
  'p1.ts': 'import { P } from "./p2";\nexport type Q = P;\nexport { P };\n',
  'p2.ts': 'import { Q } from "./p1";\nexport class P {}\nexport { Q };\n',
  'self.ts': 'import * as self from "./self";\nexport const s = () => self;\n',
};
const NAMES = Object.keys(FILES);

/** @param {any[]} parts @returns {any[]} modules, length of the shortest, and how many a cut opens */
function told(parts) {
  return parts.map(({ modules, shortest, cut }) => ({ modules, length: shortest.length, opens: cut.opens })).sort((a, b) => (a.modules[0] < b.modules[0] ? -1 : 1));
}

test('cycles are those of the imports that TypeScript emits, and those of all imports', () => {
  const folder = folderOf(FILES);
  const language = new Language(folder, NAMES);
  const out = answer(['cycles', folder]);
  const wanted = circlesBy(edgesBy(language, true), null);
  assert.deepEqual(told(out.cycles), wanted);
  assert.deepEqual(wanted.map((it) => it.modules.join(' ')), ['a.ts b.ts c.ts d.ts', 'self.ts']);
  const whole = circlesBy(edgesBy(language, false), edgesBy(language, true));
  assert.deepEqual(told(out.deferred), whole);
  assert.deepEqual(whole.map((it) => it.modules.join(' ')), ['index.ts lazy.ts', 'k1.ts k2.ts', 'p1.ts p2.ts', 'solo.ts t1.ts t2.ts']);
});

test('of declaration files no import is there when modules load, and each counts, with what a call of `require` in them names', () => {
  const folder = folderOf({ 'a.d.ts': 'import { B } from "./b";\nexport interface A { b: B }\n', 'b.d.ts': 'import type { A } from "./a";\nexport interface B { a: A }\n',
    'c.d.ts': 'export const d = require("./e");\n', 'e.d.ts': 'export * from "./c";\n' });
  const { cycles, deferred } = answer(['cycles', folder]);
  assert.deepEqual(cycles, []);
  assert.deepEqual(deferred.map((/** @type {any} */ it) => it.shortest.map((/** @type {any} */ one) => `${one.from} ${one.statements.map((/** @type {any} */ at) => `${at.line}:${at.column} ${at.how} ${at.text}`)}`)), [
    ['a.d.ts 1:1 import ./b', 'b.d.ts 1:1 import ./a'], ['c.d.ts 1:26 require ./e', 'e.d.ts 1:1 export * ./c']]);
});

test('a shortest cycle through types has a link that isn\'t there when modules load, though others are shorter', () => {
  const files = {
    'a.ts': 'import { b } from "./b";\nexport type A = 1;\nexport const a = () => b;\n', 'b.ts': 'import { a } from "./a";\nimport { c } from "./c";\nexport const b = () => [a, c];\n',
    'c.ts': 'import type { A } from "./a";\nexport const c: A = 1;\n',
  };
  const folder = folderOf(files);
  const language = new Language(folder, Object.keys(files));
  const { cycles, deferred } = answer(['cycles', folder]);
  assert.deepEqual(told(cycles), circlesBy(edgesBy(language, true), null));
  const wanted = circlesBy(edgesBy(language, false), edgesBy(language, true));
  assert.deepEqual(wanted.map((it) => [it.modules.join(' '), it.length]), [['a.ts b.ts c.ts', 3]]);
  assert.deepEqual(told(deferred), wanted);
  assert.deepEqual(deferred[0].shortest.map((/** @type {any} */ it) => it.from).sort(), ['a.ts', 'b.ts', 'c.ts']);
});

test('with verbatimModuleSyntax an import stays unless `type` stands before all of it', () => {
  const files = {
    'package.json': '{}', 'index.ts': 'import "./a";\nimport "./c";\nimport "./e";\n',
    'a.ts': 'import { B } from "./b";\nexport interface A { b: B }\n', 'b.ts': 'import { type A } from "./a";\nexport interface B { a: A }\n',
    'c.ts': 'import type { D } from "./d";\nexport interface C { d: D }\n', 'd.ts': 'import { C } from "./c";\nexport interface D { c: C }\n',
    'e.ts': 'export { F } from "./f";\nexport interface E {}\n', 'f.ts': 'import { E } from "./e";\nexport { E };\nexport interface F {}\n',
  };
  const found = (/** @type {Record<string, string>} */ configs) => {
    const { cycles, deferred } = answer(['cycles', folderOf({ ...files, ...configs })]);
    return [cycles, deferred].map((all) => all.map((/** @type {any} */ it) => it.modules.join(' ')));
  };
  const base = (/** @type {boolean} */ isOn) => `{ "compilerOptions": { "verbatimModuleSyntax": ${isOn} } }`;
  const all = ['a.ts b.ts', 'c.ts d.ts', 'e.ts f.ts'];
  assert.deepEqual(found({}), [[], all]);
  assert.deepEqual(found({ 'tsconfig.json': base(true) }), [['a.ts b.ts', 'e.ts f.ts'], ['c.ts d.ts']]);
  assert.deepEqual(found({ 'tsconfig.json': '{ "extends": ["./on.json"] }', 'on.json': base(true) }), [['a.ts b.ts', 'e.ts f.ts'], ['c.ts d.ts']]);
  assert.deepEqual(found({ 'tsconfig.json': '{ "extends": "./on.json", "compilerOptions": { "verbatimModuleSyntax": false } }', 'on.json': base(true) }), [[], all]);
  const chain = Object.fromEntries(Array.from({ length: 20 }, (_, i) => [`c${i}.json`, i < 19 ? `{ "extends": "./c${i + 1}" }` : base(true)]));
  assert.deepEqual(found({ 'tsconfig.json': '{ "extends": "./c0" }', ...chain }), [['a.ts b.ts', 'e.ts f.ts'], ['c.ts d.ts']]);
  // of several that it extends the last one that says it counts, and a module belongs to the nearest tsconfig.json
  const several = (/** @type {string[]} */ ...all) => found({ 'tsconfig.json': JSON.stringify({ extends: all.map((it) => `./${it}`) }), 'on.json': base(true), 'off.json': base(false), 'none.json': '{}' })[0].length;
  assert.deepEqual([several('on', 'off'), several('off', 'on'), several('on', 'none')], [0, 2, 2]);
  // a version that knows the option emits so
  if (Number(ts.versionMajorMinor.split('.')[0]) < 5) return;
  const emitted = edgesBy(new Language(folderOf(files), Object.keys(files).filter((it) => it.endsWith('.ts')), { verbatimModuleSyntax: true }), true);
  assert.deepEqual(circlesBy(emitted, null).map((it) => it.modules.join(' ')), ['a.ts b.ts', 'e.ts f.ts']);
});

test('a module that imports itself is a shortest cycle, whichever it is', () => {
  assert.deepEqual([shortestCycle([[1, 0], [0]]), shortestCycle([[1], [0, 1]]), shortestCycle([[1], [2], [0, 2]])], [[0], [1], [2]]);
});

test('a longer cycle elsewhere isn\'t the shortest, and an edge of a module to itself counts where it is open', () => {
  // four modules in a circle, and five others in one, with a way there and another back
  assert.equal(shortestCycle([[1, 4], [2], [3], [0], [5], [6], [7], [8, 1], [4]]).length, 4);
  assert.equal(shortestCycle([[1], [2], [3], [4], [0, 5], [6], [7], [8, 0], [5]]).length, 4);
  assert.deepEqual([cyclicParts([[0], [0]]), cyclicParts([[0], [0]], (from, to) => from !== to)], [[[0]], []]);
});

test('each step of a shortest cycle has its statement, and leads to the next', () => {
  const { cycles } = answer(['cycles', folderOf(FILES)]);
  const [{ shortest, cut }] = cycles;
  assert.deepEqual(shortest.map((/** @type {any} */ it) => it.to), [...shortest.slice(1), shortest[0]].map((it) => it.from));
  for (const { from, statements: [{ file, line, text }] } of shortest) {
    assert.equal(file, from);
    assert.ok(FILES[/** @type {keyof typeof FILES} */ (file)].split('\n')[line - 1].includes(`"${text}"`));
  }
  assert.deepEqual([cut.from, cut.to, cut.opens, cut.isSure], ['b.ts', 'c.ts', 4, true]);
});

test('an import that is only exported again loads where it is a value, by each way to export it', () => {
  const ways = ['export { x };', 'export { x as y };', 'export default x;', 'export = x;', 'import x2 = x;\nexport { x2 };', 'export type { x };', 'export type y = x;', 'let y: typeof x;'];
  const declared = { value: 'export const x = 1;', class: 'export class x {}', type: 'export interface x {}' };
  for (const [sort, text] of Object.entries(declared)) {
    const files = Object.fromEntries(ways.flatMap((way, i) => [[`a${i}.ts`, `import { x } from "./b${i}";\n${way}\n`], [`b${i}.ts`, `import "./a${i}";\n${text}\n`]]));
    const folder = folderOf(files);
    const language = new Language(folder, Object.keys(files));
    const wanted = circlesBy(edgesBy(language, true), null).map((it) => it.modules.join(' '));
    assert.deepEqual(told(answer(['cycles', folder]).cycles).map((it) => it.modules.join(' ')), wanted, sort);
    assert.ok(sort === 'type' || wanted.length > 3);
  }
});

test('of imports that take as much out of cycles, one on the shortest cycle is told', () => {
  // two pairs that share a module: each of the four edges opens one
  assert.deepEqual(bestCut([[1], [0, 2], [1]], [1, 2]), { from: 1, to: 2, opened: 1, isSure: true });
  assert.deepEqual(bestCut([[1], [0, 2], [1]], [0, 1]), { from: 0, to: 1, opened: 1, isSure: true });
});

/** @param {number} count @param {number} more @param {number} seed @returns {number[][]} a ring with edges besides */
function graphOf(count, more, seed) {
  let state = seed;
  const random = (/** @type {number} */ below) => {
    state = (state * 1103515245 + 12345) % 2147483648;
    return Math.floor((state / 2147483648) * below);
  };
  const edges = Array.from({ length: count }, (_, i) => new Set([(i + 1) % count]));
  for (let i = 0; i < more; i++) edges[random(count)].add(random(count));
  return edges.map((it) => [...it]);
}

/** @param {number[][]} edges @returns {number} the length of a shortest cycle, by a search from each node */
function girthOf(edges) {
  return Math.min(...edges.map((_, from) => {
    const far = new Map([[from, 0]]);
    for (const node of far.keys()) for (const to of edges[node]) if (to === from) return /** @type {number} */ (far.get(node)) + 1; else if (!far.has(to)) far.set(to, /** @type {number} */ (far.get(node)) + 1);
    return Infinity;
  }));
}

test('of random graphs a cycle is as short as any, and a cut opens as much as any', () => {
  for (let seed = 1; seed <= 60; seed++) {
    const all = graphOf(5 + (seed % 12), seed % 7, seed).map((it, i) => it.filter((to) => to !== i));
    const parts = cyclicParts(all);
    assert.equal(parts.length, 1);
    const edges = partOf(all, parts[0]);
    const cycle = shortestCycle(edges);
    assert.equal(cycle.length, girthOf(edges), `${seed}`);
    cycle.forEach((from, i) => assert.ok(edges[from].includes(cycle[(i + 1) % cycle.length])));
    const opened = edges.flatMap((list, from) => list.map((to) => edges.length - cyclicParts(edges, (a, b) => a !== from || b !== to).flat().length));
    assert.deepEqual(bestCut(edges, cycle).opened, Math.max(...opened), `${seed}`);
    const marked = (/** @type {number} */ from, /** @type {number} */ to) => from === 0 && to === edges[0][0];
    const through = shortestCycle(edges, marked);
    const back = girthOf(edges.map((list, i) => (i === 0 ? [edges[0][0]] : list)).map((list, i) => list.filter((to) => i === 0 || to !== -1)));
    assert.ok(through.some((from, i) => marked(from, through[(i + 1) % through.length])) && through.length >= cycle.length && through.length >= back, `${seed}`);
    assert.equal(new Set(through).size, through.length);
  }
});

test('where no cut of a large group opens anything not each is tried, and that is told', () => {
  const complete = (/** @type {number} */ count) => Array.from({ length: count }, (_, i) => Array.from({ length: count }, (_, k) => k).filter((it) => it !== i));
  for (const [count, isSure] of /** @type {[number, boolean][]} */ ([[20, true], [70, false]])) {
    assert.deepEqual(bestCut(complete(count), [0, 1]), { from: 0, to: 1, opened: 0, isSure });
  }
});

test('large graphs: a ring, a ladder, a comb', () => {
  const count = 20_000;
  const ring = Array.from({ length: count }, (_, i) => [(i + 1) % count]);
  const ladder = Array.from({ length: count }, (_, i) => [i - 1, i + 1].filter((it) => it >= 0 && it < count));
  const longer = Array.from({ length: count }, (_, i) => [(i + 1) % count, ...(i % 4 === 3 ? [i - 3] : [])]);
  const chords = Array.from({ length: count }, (_, i) => [(i + 1) % count, ...(i % 100 === 99 ? [i - 99] : [])]);
  for (const [edges, length] of /** @type {[number[][], number][]} */ ([[ring, count], [ladder, 2], [longer, 4], [chords, 100]])) {
    assert.equal(cyclicParts(edges)[0].length, count);
    let looks = 0;
    const counted = new Proxy(edges, { get: (it, key) => (looks++, Reflect.get(it, key)) });
    const cycle = shortestCycle(counted);
    // a search that walks all of it from each node would look count * count times
    assert.ok(looks > count && looks < 100 * count, `${looks}`);
    assert.equal(cycle.length, length);
    const { opened, isSure } = bestCut(edges, cycle);
    assert.equal(isSure, edges === ring);
    assert.ok(opened >= (edges === ring ? count : 1));
  }
});

test('the largest group is told first, and of equal ones that of the first module', () => {
  for (const [statement, key] of /** @type {const} */ ([['import "./TO";\n', 'cycles'], ['import type { T } from "./TO";\nexport type T = 1;\n', 'deferred']])) {
    const files = Object.fromEntries(['fg', 'gf', 'ab', 'ba', 'cd', 'de', 'ec', 'hi', 'ih'].map(([from, to]) => [`${from}.ts`, statement.replace('TO', to)]));
    const out = answer(['cycles', folderOf(files)]);
    assert.deepEqual(out[key].map((/** @type {any} */ it) => it.modules.map((/** @type {string} */ one) => one[0]).join('')), ['cde', 'ab', 'fg', 'hi'], key);
  }
});

test('what people read, and the status', () => {
  const files = { 'index.ts': 'import { b } from "./b";\nexport const a = () => b;\n', 'b.ts': 'import { a } from "./index";\nexport const b = a;\n' };
  assert.deepEqual(symdir(['cycles', folderOf(files)]), { status: 1, stderr: '', stdout: `import cycles: 1
  2 modules
    b.ts:1:1      import "./index"  index.ts
    index.ts:1:1  import "./b"      b.ts
    cut b.ts:1:1 import "./index": breaks all of it
2 modules, 2 imports between them: 1 import cycle
` });
  const types = { ...files, 'b.ts': 'import type { a } from "./index";\nexport const b = 1;\nlet c: typeof a;\n' };
  assert.deepEqual(symdir(['cycles', folderOf(types)]), { status: 0, stderr: '', stdout: `cycles through type-only imports or import(), which don't exist when modules load: 1
  2 modules
    b.ts:1:1      import "./index"  index.ts
    index.ts:1:1  import "./b"      b.ts
    cut b.ts:1:1 import "./index": breaks all of it
2 modules, 2 imports between them: no import cycle
` });
});

test('imports of what isn\'t read, or is in no file, are none between the modules', () => {
  const folder = folderOf({ 'a.ts': 'import "node:fs";\nimport "./gone";\nimport "npm:far";\nimport { p } from "p";\nimport { b } from "./b";\nexport const a = () => [b, p];\n', 'b.ts': 'export const b = 1;\n',
    'node_modules/p/package.json': '{"types":"p.d.ts"}', 'node_modules/p/p.d.ts': 'export declare const p: 1;\n' });
  assert.equal(symdir(['cycles', folder]).stdout, '2 modules, 1 import between them: no import cycle\n');
  assert.match(symdir(['cycles', folder, '--packages']).stdout, /, 1 import between them: no import cycle\n$/);
});

test('`import a = require(..)` that types alone need makes no cycle, and one that a value needs does, as TypeScript emits it', () => {
  const files = (/** @type {string} */ use) => ({ 'a.ts': `import b = require("./b");\nexport class A { ${use} }\n`, 'b.ts': 'import { A } from "./a";\nexport class B extends A {}\n' });
  for (const [use, isThere] of /** @type {const} */ ([['x?: b.B', false], ['x = () => new b.B()', true], ['x(it: b.B) { return b; }', true]])) {
    const made = folderOf(files(use));
    const { service } = new Language(made, ['a.ts', 'b.ts'], { module: ts.ModuleKind.CommonJS });
    const emitted = service.getEmitOutput(path.join(made, 'a.ts')).outputFiles.map((it) => it.text).join('');
    assert.equal(emitted.includes('require("./b")'), isThere, emitted);
    assert.equal(answer(['cycles', made]).cycles.length, isThere ? 1 : 0, use);
  }
});
