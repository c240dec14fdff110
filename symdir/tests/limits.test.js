// What is printed of long lists, and in which order: how many are shown, how many more there are, and all with --all.
import assert from 'node:assert/strict';
import path from 'node:path';
import test from 'node:test';

import { docLines } from '../lib/report/described.js';
import { answer, folderOf, symdir } from './helper.js';

const range = (/** @type {number} */ count) => Array.from({ length: count }, (_, i) => String(i + 1).padStart(2, '0'));
const linesOf = (/** @type {string[]} */ ...words) => symdir(words).stdout.split('\n').slice(0, -1);

test('missing: the most frequent first, twenty of each sort', () => {
  const files = (/** @type {number} */ count) => folderOf({
    'a.ts': range(count).map((it) => `import "./m${it}";\n`).join(''), 'b.ts': 'import "./most";\n', 'c.ts': 'import "./most";\nimport "./most";\n' });
  const many = files(21);
  const [head, first, second, ...rest] = linesOf('missing', many);
  assert.deepEqual([head, first, second], ['unresolved imports: 24', '  import "./most"  b.ts:1:1 and 2 more', '  import "./m01"   a.ts:1:1']);
  assert.deepEqual(rest.slice(-3), ['  import "./m19"   a.ts:19:1', '  and 2 more (--all)', '24 imports in 3 modules: 24 missing']);
  const all = linesOf('missing', many, '--all');
  assert.deepEqual([all.length, ...all.slice(-2)], [24, '  import "./m21"   a.ts:21:1', '24 imports in 3 modules: 24 missing']);
  assert.equal(linesOf('missing', files(19)).length, 22);
  assert.equal(linesOf('missing', folderOf({ 'a.ts': 'import "./x";\nimport "./x";\n' }))[1], '  import "./x"  a.ts:1:1 and 1 more');
});

test('cycles: the largest first, ten of them', () => {
  const pair = (/** @type {string} */ it) => ({ [`a${it}.ts`]: `import { b } from "./b${it}";\nexport const a = () => b;\n`, [`b${it}.ts`]: `import { a } from "./a${it}";\nexport const b = () => a;\n` });
  const three = { 'x.ts': 'import { y } from "./y";\nexport const x = () => y;\n', 'y.ts': 'import { z } from "./z";\nexport const y = () => z;\n', 'z.ts': 'import { x } from "./x";\nexport const z = () => x;\n' };
  const files = (/** @type {number} */ count) => folderOf(Object.assign({ ...three }, ...range(count).map(pair)));
  const lines = linesOf('cycles', files(10));
  assert.deepEqual([lines[0], lines[1], lines[6], lines[7]], ['import cycles: 11', '  3 modules', '  2 modules', '    a01.ts:1:1  import "./b01"  b01.ts']);
  assert.deepEqual(lines.slice(-2), ['  and 1 more (--all)', '23 modules, 23 imports between them: 11 import cycles']);
  assert.equal(linesOf('cycles', files(10), '--all').filter((it) => / modules$/.test(it)).length, 11);
  assert.ok(!linesOf('cycles', files(9)).some((it) => it.includes('(--all)')));
});

test('cycles: the shortest is told where it is shorter, and statements of one import together', () => {
  const folder = folderOf({
    'a.ts': 'import { b } from "./b";\nimport { b as again } from "./b";\nexport const a = () => [b, again];\n',
    'b.ts': 'import { a } from "./a";\nimport { c } from "./c";\nexport const b = () => [a, c];\n', 'c.ts': 'import { a } from "./a";\nexport const c = () => a;\n' });
  assert.deepEqual(linesOf('cycles', folder), ['import cycles: 1', '  3 modules, the shortest of 2', '    a.ts:1:1  import "./b"  b.ts', '    b.ts:1:1  import "./a"  a.ts',
    '    cut a.ts:1:1 import "./b" and 1 more of it: breaks all of it', '3 modules, 4 imports between them: 1 import cycle']);
  // the import of c.ts leaves a cycle of the two others
  const two = folderOf({ 'c.ts': 'import "./d";\n', 'd.ts': 'import "./c";\nimport "./e";\n', 'e.ts': 'import "./d";\n' });
  assert.equal(linesOf('cycles', two)[4], '    cut c.ts:1:1 import "./d": takes 1 module out of cycles');
});

test('affected: three files by name, and twenty modules', () => {
  const all = range(21).map((it) => `m${it}.ts`);
  const folder = folderOf({ 'index.ts': 'export const a = 1;\n', ...Object.fromEntries(all.map((it) => [it, 'export {};\n'])) });
  const lines = (/** @type {number} */ count, /** @type {string[]} */ ...words) => linesOf('affected', folder, ...all.slice(0, count), ...words);
  assert.deepEqual(lines(3).slice(0, 2), ['3 files changed: m01.ts, m02.ts, m03.ts', 'answers on 3 modules can change:']);
  assert.deepEqual([lines(4)[0], lines(4, '--all')[0]], ['4 files changed: m01.ts, m02.ts, m03.ts and 1 more', '4 files changed: m01.ts, m02.ts, m03.ts, m04.ts']);
  assert.deepEqual([lines(20).length, lines(20).at(-1), lines(21).length, lines(21).at(-1), lines(21, '--all').length], [22, '  m20.ts  exports, definitions', 23, '  and 1 more (--all)', 23]);
});

test('unused: twenty of each sort', () => {
  const folder = folderOf({ 'index.ts': 'import "./a";\n', 'a.ts': `export const ${range(21).map((it) => `n${it} = 1`).join(', ')};\n` });
  const lines = linesOf('unused', folder);
  assert.deepEqual([lines[0], lines[1], lines.length], ['unused exports: 21', '  n01  const  a.ts:1:14', 23]);
  assert.deepEqual(lines.slice(-2), ['  and 1 more (--all)', '2 modules, 1 entry: 21 exports unused']);
  assert.equal(linesOf('unused', folder, '--all').length, 23);
  assert.ok(linesOf('unused', folder, '--all').some((it) => it.startsWith('  n21 ')));
});

test('leaks: four of those that need a type, the most needed first, and each type within another once', () => {
  const needing = (/** @type {number} */ count) => range(count).map((it) => `export declare const c${it}: T;\n`).join('');
  const files = (/** @type {number} */ count) => folderOf({ 'index.ts': `${needing(count)}export declare const s: S;\ninterface S {}\ninterface T {}\n` });
  assert.deepEqual(linesOf('leaks', files(5)).slice(0, 3), ['T  interface  index.ts:8:11  (exported by no file)', '    referenced by c01, c02, c03, c04 and 1 more', 'S  interface  index.ts:7:11  (exported by no file)']);
  assert.equal(linesOf('leaks', files(5), '--all')[1], '    referenced by c01, c02, c03, c04, c05');
  assert.equal(linesOf('leaks', files(4))[1], '    referenced by c01, c02, c03, c04');
  const within = folderOf({ 'index.ts': 'declare namespace N { namespace M { interface A {} } interface B {} }\nexport declare const a: N.M.A, b: N.B, n: typeof N;\ndeclare namespace P { interface A {} }\nexport declare const p: P.A;\n' });
  assert.deepEqual(answer(['leaks', within]).leaks.map((/** @type {any} */ it) => it.name), ['N', 'P.A']);
});

test('leaks: lines of up to 92 characters behind four spaces, and six from the second on', () => {
  const lines = (/** @type {number} */ length) => {
    const names = [`a${'x'.repeat(39)}`, `b${'x'.repeat(length - 'referenced by '.length - 40 - ', '.length - 1)}`];
    return linesOf('leaks', folderOf({ 'index.ts': `export declare const ${names.map((it) => `${it}: T`).join(', ')};\ninterface T {}\n` })).slice(1, -1);
  };
  assert.deepEqual([lines(92).map((it) => it.length), lines(93).map((it) => it.length)], [[4 + 92], [4 + 'referenced by ,'.length + 40, 6 + 93 - 'referenced by , '.length - 40]]);
  assert.match(lines(93)[1], /^ {6}bx+$/);
});

test('leaks: entries by name up to three, and else their number', () => {
  const files = (/** @type {number} */ count) => folderOf({
    'package.json': JSON.stringify({ exports: Object.fromEntries(range(count).map((it) => [`./${it}`, `./e${it}.ts`])) }), ...Object.fromEntries(range(count).map((it) => [`e${it}.ts`, `export const a${it} = 1;\n`])) });
  assert.deepEqual(linesOf('leaks', files(3)), ['3 public names of e01.ts, e02.ts, e03.ts: all types that they reference are exported']);
  assert.deepEqual(linesOf('leaks', files(4)), ['4 public names of 4 entries: all types that they reference are exported']);
});

test('graph --check: twenty errors', () => {
  const bad = (/** @type {number} */ count) => JSON.stringify({ redirects: range(count).map((it) => [it]) });
  const folder = folderOf({ '20.json': bad(20), '21.json': bad(21) });
  const lines = (/** @type {string} */ name) => linesOf('graph', '--check', path.join(folder, name)).slice(1);
  assert.equal(lines('20.json').length, 20);
  assert.ok(lines('20.json')[19].endsWith('20.json: redirects[19] has to be [from, to], two texts, and is ["20"]'));
  assert.deepEqual([lines('21.json').length, lines('21.json')[20]], [21, 'and 1 more error']);
});

test('api: how many places a name has, by names without regard to case', () => {
  const folder = folderOf({ 'index.ts': 'export function b(): 1;\nexport function b(a: 1): 1;\nexport interface C {}\nexport class C {}\nexport namespace C {}\nexport const a = 1, B = 2, c = 3;\n' });
  assert.deepEqual(linesOf('api', folder), ['index.ts: 5 public names, defined in 1 file', '  a  const                      index.ts:6:14', '  B  const                      index.ts:6:21',
    '  b  function                   index.ts:1:17 and 1 more', '  C  interface+class+namespace  index.ts:3:18 and 2 more', '  c  const                      index.ts:6:28']);
});

test('uses: of a line eighty characters', () => {
  const line = (/** @type {number} */ length) => 'import { a } from "./a"; // '.padEnd(length - 1, '.') + '!';
  for (const length of [80, 81]) {
    const folder = folderOf({ 'a.ts': 'export const a = 1;\n', 'index.ts': `  ${line(length)}\n` });
    assert.equal(linesOf('uses', folder, 'a.ts:1')[1], `  index.ts:1:12  import  ${line(length).slice(0, 80)}`);
  }
});

test('api --docs: lines of up to 92 characters behind six spaces', () => {
  const lines = (/** @type {number} */ length) => docLines(/** @type {any} */ ({ name: 'a', signature: '', doc: `One ${'x'.repeat(length - 4)}` }));
  assert.deepEqual(lines(92), [`      One ${'x'.repeat(88)}`]);
  assert.deepEqual(lines(93), ['      One', `      ${'x'.repeat(89)}`]);
});

test('a line is where a name begins, and not the next line\'s first name', () => {
  const folder = folderOf({ 'index.ts': 'const a = 1;\nb;\nexport { a };\nconst b = 2;\n' });
  const at = (/** @type {string} */ spot) => answer(['where', folder, spot]).map((/** @type {any} */ it) => `${it.at.line}:${it.at.column} ${it.name}`);
  assert.deepEqual([at('index.ts:1'), at('index.ts:2'), at('index.ts:2:1'), at('index.ts:3')], [['1:7 a'], ['2:1 b'], ['2:1 b'], ['3:10 a']]);
});

test('diff: entries that are one and another name are compared, and others aren\'t', () => {
  const files = (/** @type {string[]} */ ...names) => folderOf({
    'package.json': JSON.stringify({ exports: Object.fromEntries(names.map((it) => [`./${it}`, `./${it}.ts`])) }), ...Object.fromEntries(names.map((it) => [`${it}.ts`, 'export class A {}\n'])) });
  const changes = (/** @type {string} */ old, /** @type {string} */ now) => answer(['diff', old, now]).changes.map((/** @type {any} */ it) => `${it.what} ${it.entry}`);
  assert.deepEqual(changes(files('a', 'k'), files('b', 'k')), ['moved b.ts']);
  assert.deepEqual(changes(files('a'), files('b', 'c')), ['removed a.ts', 'added b.ts', 'added c.ts']);
  assert.deepEqual(changes(files('b', 'c'), files('a')), ['added a.ts', 'removed b.ts', 'removed c.ts']);
  assert.deepEqual(changes(files('a', 'b'), files('a')), ['removed b.ts']);
});
