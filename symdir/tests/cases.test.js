// Single cases of conditions and tables, in which each word of the answer is known from the rules alone.
import assert from 'node:assert/strict';
import test from 'node:test';

import { help } from '../lib/help.js';
import { answer, folderOf, symdir } from './helper.js';

test('a page lists a name that two entries export in the order of the entries, however they are given', () => {
  const folder = folderOf({ 'z.ts': 'export const same = 1;\nexport const b = 2;\n', 'a.ts': 'export const same = 3;\n' });
  const { status, stdout } = symdir(['api', folder, '--entry', 'z.ts', '--entry', 'a.ts', '--html']);
  assert.equal(status, 0);
  const rows = [...stdout.matchAll(/<li class="row" data-name="([^"]*)" data-kind="[^"]*" data-entry="([^"]*)"/g)].map(([, name, entry]) => `${name} of ${entry}`);
  assert.deepEqual(rows, ['b of z.ts', 'same of a.ts', 'same of z.ts']);
});

test('a name that can\'t be resolved is a finding, and makes the status', () => {
  const folder = folderOf({ 'index.ts': 'export { a } from "./gone";\nexport { b } from "./there";\n', 'there.ts': 'export const c = 1;\n' });
  const { status, stdout } = symdir(['api', folder, '--annotations']);
  assert.equal(status, 1);
  // of an import the statement, of a name the name itself
  assert.deepEqual([...stdout.matchAll(/^::(\w+) file=([^,]*),line=(\d+),col=(\d+)/gm)].map(([, ...it]) => it.join(' ').replace(folder, '')).map((it) => it.replace(/^\w+ \/?/, '')), ['index.ts 1 1', 'index.ts 2 10']);
});

test('a value of a namespace that it exports by another name is the one that it declares, not one of the module', () => {
  const text = 'declare const a: 1;\ndeclare type T = 1;\nexport declare namespace N {\n  const a: 2;\n  type T = 2;\n  export { a as b, T as U };\n}\nexport const c: typeof N.b = 2;\nexport const d: N.U = 2;\nexport { a, T };\n';
  const folder = folderOf({ 'index.ts': text });
  const lines = (/** @type {string} */ place, /** @type {string} */ name) => answer(['where', folder, place, name])
    .flatMap((/** @type {any} */ it) => it.ways.map((/** @type {any} */ way) => way.defined?.line ?? null));
  assert.deepEqual(lines('index.ts:8', 'N.b'), [4]);
  assert.deepEqual(lines('index.ts:9', 'N.U'), [5]);
});

test('of a function with one overload and a body the overload alone is its signature', () => {
  const folder = folderOf({ 'index.ts': 'export function f(a: string): string;\nexport function f(a: any): any { return a; }\nexport function g(b: 1): 2;\nexport function g(b: 3): 4;\nexport function g(b: any): any { return b; }\nexport function h(c: 5): 6 { return 6; }\n' });
  const { names } = answer(['api', folder, '--docs']);
  assert.deepEqual(names.map((/** @type {any} */ it) => `${it.name}${it.signature}`), ['f(a: string): string', 'g(b: 1): 2 & (b: 3): 4', 'h(c: 5): 6']);
});

test('the JSON in --help is in brackets that are closed, with nothing right behind them', () => {
  for (const it of ['api', 'leaks', 'missing', 'where', 'web', 'unused', 'uses', 'diff', 'cycles', 'affected']) {
    const [, form] = help(it).split('\nJSON:\n');
    const [text] = form.split('\n\nExit status: ');
    assert.doesNotMatch(text, /[\]}][\w{[]|[{[]\s*[,:\]}]|[,:]\s*[,:\]}]/, it);
    let open = '';
    for (const one of text.match(/[{}[\]]/g) ?? []) {
      if ('{['.includes(one)) open += one;
      else {
        assert.equal(open.at(-1), one === '}' ? '{' : '[', it);
        open = open.slice(0, -1);
      }
    }
    assert.equal(open, '', it);
  }
});

test('a name that nothing declares is told as such: a global, and one in a ring of modules', () => {
  const folder = folderOf({ 'index.ts': 'let b: nowhere;\nexport { x } from "./b";\n', 'b.ts': 'export { x } from "./index";\n' });
  assert.deepEqual(symdir(['uses', folder, 'index.ts:1:8']), { status: 1, stderr: '', stdout: 'no name that the analyzed modules declare at index.ts:1:8\n' });
  assert.deepEqual(symdir(['api', folder]).stdout.split('\n')[1].trim().split(/ +/), ['x', 'no', 'definition']);
});

test('a member called `default` of what stands behind `export =` isn\'t listed beside the default export', () => {
  const folder = folderOf({ 'index.d.ts': 'declare namespace c { const a: 1, b: 2; export { a as default, b }; }\nexport = c;\n' });
  for (const words of [['api', folder], ['api', folder, '--docs'], ['affected', folder, 'index.d.ts']]) {
    assert.deepEqual(answer(words).names.map((/** @type {any} */ it) => `${it.kind} ${it.name}`), ['namespace default', 'const b'], words.join(' '));
  }
  const file = `${folder}/api.txt`;
  assert.equal(symdir(['api', folder, '--save', file]).stdout, `${file}: 2 public names\n`);
});

test('by which statements a name comes: along `export *`, and then by one for a whole module', () => {
  const folder = folderOf({ 'index.ts': 'export * from "./a";\n', 'a.ts': 'export * as b from "./b";\nexport import c = require("./b");\n', 'b.ts': 'export const d = 1;\n' });
  assert.deepEqual(symdir(['api', folder]).stdout.split('\n').slice(1, 3), [
    '  b  namespace  b.ts:1:1  export * from "./a", export * as b from "./b" in a.ts:1:8',
    '  c  namespace  b.ts:1:1  export * from "./a", import c = require("./b") in a.ts:2:1']);
});

test('of a property without a type its question mark alone is its signature', () => {
  const [{ members }] = answer(['api', folderOf({ 'index.ts': 'export class A { b?; c; d?: 1; e? = 1; f? = (a: 1) => 2; g = a ? 1 : 2; ["h"]? }\n' }), '--docs']).names;
  assert.deepEqual(members.map((/** @type {any} */ it) => `${it.name}${it.signature}`), ['A#b?', 'A#c', 'A#d?: 1', 'A#e?', 'A#f(a: 1)', 'A#g', 'A#h?']);
  // a constructor may be the last node of its module
  const [last] = answer(['api', folderOf({ 'index.d.ts': 'export declare class A { constructor(); }\n' }), '--docs']).names;
  assert.deepEqual(last.members.map((/** @type {any} */ it) => `${it.name} ${it.signature}`), ['A constructor ()']);
});

test('unused: what people read of what its own file uses, and of dependencies that unread JavaScript may import', () => {
  const folder = folderOf({ 'package.json': '{ "types": "index.d.ts",\n"dependencies": { "a": "1", "b": "1" } }', 'index.d.ts': 'import "./c";\nimport "a";\n', 'index.js': 'require("b");\n', 'c.ts': 'export const c = 1;\nexport const d = c;\n' });
  assert.deepEqual(symdir(['unused', folder]).stdout.split('\n').slice(0, 5).map((it) => it.replace(/ {2,}/g, '  ')), [
    'unused exports: 2', '  c  const  c.ts:1:14  used in its own file', '  d  const  c.ts:2:14', 'dependencies that only unread JavaScript may import (--js reads it): 1', '  b  package.json:2:29']);
});

test('each name is told under its entry, and no other', () => {
  const folder = folderOf({ 'a.ts': 'export const x = 1;\n', 'b.ts': 'export const y = 1;\n' });
  assert.equal(symdir(['api', folder]).stdout, 'a.ts: 1 public name, defined in 1 file\n  x  const  a.ts:1:14\nb.ts: 1 public name, defined in 1 file\n  y  const  b.ts:1:14\n');
  assert.deepEqual(symdir(['affected', folder, 'a.ts', 'b.ts']).stdout.split('\n').slice(1, 5), [
    'a.ts: 1 public name can change, and which there are', '  x  const  a.ts:1:14', 'b.ts: 1 public name can change, and which there are', '  y  const  b.ts:1:14']);
});

test('`uses` ends with 0 where it finds one, though another file can\'t be parsed', () => {
  const folder = folderOf({ 'index.ts': 'export const a = 1;\nexport const b = a;\n', 'bad.ts': 'let;\nconst = 1;\n' });
  const at = (/** @type {string} */ place) => symdir(['uses', folder, place]);
  assert.deepEqual([at('index.ts:1').status, at('index.ts:2:14').status, at('index.ts:1').stderr], [0, 1, at('index.ts:2').stderr]);
  assert.match(at('index.ts:1').stderr, /^symdir: bad\.ts:2:7: /);
});

test('--help has the JSON of --baseline where it has the option', () => {
  const commands = [...help().matchAll(/^ {2}symdir (\w+) /gm)].map(([, name]) => name);
  const taking = commands.filter((it) => /^ {2}--baseline FILE /m.test(help(it)));
  assert.deepEqual([...new Set(taking)].sort(), ['api', 'cycles', 'diff', 'leaks', 'missing', 'unused']);
  for (const it of commands) assert.equal(/^ {2}with --baseline also baseline: /m.test(help(it)), taking.includes(it), it);
});

test('--help has the JSON of --watch where it has the option', () => {
  const commands = [...symdir(['--help']).stdout.matchAll(/^ {2}symdir (\w+) /gm)].map(([, name]) => name);
  const watching = commands.filter((it) => /^ {2}symdir .* --watch$/m.test(help(it)));
  assert.deepEqual([...new Set(watching)].sort(), ['api', 'leaks', 'missing']);
  for (const it of commands) assert.equal(/^ {2}with --watch a line each/m.test(help(it)), watching.includes(it), it);
});
