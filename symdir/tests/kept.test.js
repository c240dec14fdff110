import assert from 'node:assert/strict';
import { spawnSync } from 'node:child_process';
import { appendFileSync, copyFileSync, cpSync, existsSync, readFileSync, readdirSync, rmSync, symlinkSync, utimesSync, writeFileSync } from 'node:fs';
import path from 'node:path';
import test from 'node:test';

import { madeOf } from '../lib/folder/kept.js';
import { findSymq } from '../lib/program.js';
import { findTypeScript } from '../lib/typescript.js';
import { BIN, folderOf, program, symdir } from './helper.js';

test('the graph that is kept is asked where it is still that of the folder, and else another', () => {
  const cache = folderOf({});
  const folder = folderOf({ 'index.ts': 'export * from "a";\n', 'a.ts': 'export const one = 1;\n', 'b.ts': 'export const two = 1;\n' });
  const maps = (/** @type {string} */ to) => writeFileSync(path.join(folder, 'deno.json'), JSON.stringify({ imports: { a: to } }));
  // a program that notes which graphs it is given
  const noting = program({}, 'symq', `#!/bin/sh\necho "$2" >> '${cache}/asked'\nexec '${path.resolve(findSymq(undefined))}' "$@"\n`);
  const names = () => {
    const { stdout, stderr } = symdir(['api', folder, '--entry', 'index.ts', '--json', '--symq', noting], { env: { XDG_CACHE_HOME: cache } });
    assert.equal(stderr, '');
    return JSON.parse(stdout).names.map((/** @type {any} */ it) => it.name);
  };
  const asked = () => readFileSync(path.join(cache, 'asked'), 'utf8').trim().split('\n');
  maps('./a.ts');
  assert.deepEqual([names(), names()], [['one'], ['one']]);
  const [first, ...others] = asked();
  assert.deepEqual(others, [first]);
  // each file of a module is what it was, and what an import stands for isn't
  maps('./b.ts');
  assert.deepEqual([names(), names()], [['two'], ['two']]);
  const later = asked().filter((it) => it !== first);
  assert.deepEqual(later, [later[0], later[0]]);
  rmSync(later[0]);
  assert.deepEqual(names(), ['two']);
  // a module more, which an import needs
  writeFileSync(path.join(folder, 'c.ts'), 'export const three = 1;\n');
  maps('./c.ts');
  assert.deepEqual([names(), names()], [['three'], ['three']]);
  // a module less
  rmSync(path.join(folder, 'b.ts'));
  assert.deepEqual([names(), names()], [['three'], ['three']]);
  rmSync(path.join(folder, 'c.ts'));
  assert.deepEqual([names(), names()], [[], []]);
});

/** @param {string} cache @param {string} ending @returns {string[]} the files that are kept with the ending */
function keptIn(cache, ending) {
  return readdirSync(path.join(cache, 'symdir')).filter((it) => it.endsWith(ending)).map((it) => path.join(cache, 'symdir', it));
}

test('what is kept and was cut off is made anew', () => {
  const env = { XDG_CACHE_HOME: folderOf({}) };
  const folder = folderOf({ 'a.ts': 'export * from "./b";\n', 'b.ts': 'export const n = 1;\n' });
  const run = () => symdir(['api', folder], { env });
  const first = run();
  const [trees] = keptIn(env.XDG_CACHE_HOME, '.trees');
  const whole = readFileSync(trees);
  for (const length of [0, 3, 4, 20, whole.length - 10, whole.length - 1]) {
    writeFileSync(trees, whole.subarray(0, length));
    assert.deepEqual(run(), first, `${length}`);
    assert.deepEqual(readFileSync(trees), whole, `${length}`);
  }
});

test('a file that can\'t be read any more is told, though its tree is kept', () => {
  const env = { XDG_CACHE_HOME: folderOf({}) };
  const folder = folderOf({ 'index.ts': 'export * from "./b";\n', 'b.ts': 'export const n = 1;\n' });
  assert.equal(symdir(['api', folder], { env }).status, 0);
  rmSync(path.join(folder, 'b.ts'));
  // it is there, and a read of it fails for whoever reads
  symlinkSync('/proc/self/mem', path.join(folder, 'b.ts'));
  for (const _ of [1, 2]) {
    const { status, stdout, stderr } = symdir(['api', folder], { env });
    assert.deepEqual([status, stderr], [1, 'symdir: b.ts: can\'t be read (EIO)\n']);
    assert.match(stdout, /^index\.ts: 0 public names\n/);
  }
});

test('what is old goes: files of thirty days, parts of an hour, graphs that others take the place of after a minute, with results', () => {
  const env = { XDG_CACHE_HOME: folderOf({}) };
  const folder = folderOf({ 'a.ts': 'export const a = 1;\n' });
  symdir(['api', folder], { env });
  // the next run's clock stands still
  const now = Math.floor(Date.now() / 1000);
  const still = path.join(folderOf({ 'still.cjs': `Date.now = () => ${now * 1000};\n` }), 'still.cjs');
  const [trees] = keptIn(env.XDG_CACHE_HOME, '.trees');
  const base = trees.slice(0, -'.trees'.length);
  const put = (/** @type {string} */ name, /** @type {number} */ seconds) => {
    const file = path.join(path.dirname(trees), name);
    writeFileSync(file, '');
    utimesSync(file, now - seconds, now - seconds);
  };
  const day = 24 * 3600;
  for (const [name, seconds] of /** @type {[string, number][]} */ ([['old', 30 * day + 1], ['new', 30 * day], ['x.123', 3601], ['y.123', 3600], ['x.1a', 3601],
    [`${path.basename(base)}.other.graph`, 61], [`${path.basename(base)}.more.graph`, 60], ['elsewhere.other.graph', 61],
    [`${path.basename(base)}.other.page.result`, 61], [`${path.basename(base)}.more.page.result`, 60], ['elsewhere.other.page.result', 61]])) put(name, seconds);
  writeFileSync(path.join(folder, 'a.ts'), 'export const b = 1;\n');
  assert.equal(symdir(['api', folder], { env: { ...env, NODE_OPTIONS: `--require ${still}` } }).status, 0);
  const left = readdirSync(path.dirname(trees)).map((it) => it.replace(path.basename(base), 'own'));
  assert.deepEqual(left.filter((it) => !/^(own\.[^.]{20,}\.graph|own\.trees|parser.*|symq-.*)$/.test(it)).sort(), ['elsewhere.other.graph', 'elsewhere.other.page.result', 'new', 'own.more.graph', 'own.more.page.result', 'x.1a', 'y.123']);
});

test('the cache directory is the user\'s, as each system has it', () => {
  const { env, platform } = process;
  const file = path.join(folderOf({ 'typescript.js': '' }), 'typescript.js');
  const folder = (/** @type {NodeJS.Platform} */ system, /** @type {Record<string, string>} */ variables) => {
    process.env = { ...variables, HOME: '/users/me' };
    Object.defineProperty(process, 'platform', { value: system });
    try {
      return path.dirname(madeOf({ file, version: '5.0.0' }));
    } finally {
      process.env = env;
      Object.defineProperty(process, 'platform', { value: platform });
    }
  };
  for (const it of /** @type {const} */ (['linux', 'darwin', 'win32'])) assert.equal(folder(it, { XDG_CACHE_HOME: '/c', LOCALAPPDATA: '/l' }), '/c/symdir');
  assert.equal(folder('win32', { LOCALAPPDATA: '/l' }), '/l/symdir/cache');
  assert.equal(folder('win32', {}).replace(/^.*\/\.cache/, ''), '/symdir');
  for (const [it, below] of /** @type {const} */ ([['linux', '.cache/symdir'], ['darwin', 'Library/Caches/symdir']])) assert.ok(folder(it, { LOCALAPPDATA: '/l' }).endsWith(`/${below}`), it);
});

test('what is made of TypeScript is kept by its version and its file: its path, its length and when it was written', () => {
  const at = folderOf({ 'a.js': '1', 'b.js': '1', 'c.js': '12', 'd.js': '1' });
  const [a, b, c, d] = ['a', 'b', 'c', 'd'].map((it) => path.join(at, `${it}.js`));
  for (const it of [a, b, c]) utimesSync(it, 1000, 1000);
  utimesSync(d, 1000, 2000);
  const made = (/** @type {string} */ file, version = '5.0.0') => path.basename(madeOf({ file, version }));
  const first = made(a);
  assert.equal(made(a), first);
  assert.ok(first.startsWith(`parser-5.0.0-${process.version}-`));
  assert.notEqual(made(b), first);
  assert.notEqual(made(a, '5.0.1'), first);
  // the file of the same path, longer or written later
  copyFileSync(c, a);
  utimesSync(a, 1000, 1000);
  const longer = made(a);
  copyFileSync(d, a);
  utimesSync(a, 1000, 2000);
  assert.equal(new Set([first, longer, made(a)]).size, 3);
});

test('trees that another version of what makes them has kept aren\'t taken', () => {
  const [alone, folder, env] = [folderOf({}), folderOf({ 'a.ts': 'export const a = 1;\n' }), { XDG_CACHE_HOME: folderOf({}) }];
  for (const it of ['bin', 'lib', 'package.json']) cpSync(path.join(path.dirname(BIN), '..', it), path.join(alone, it), { recursive: true });
  ['', 'tree/types.js', 'folder/parse.js', 'folder/graph.js', 'folder/text.js', 'kinds.js', 'language.js', 'wellformed.js'].forEach((it, i) => {
    if (it) appendFileSync(path.join(alone, 'lib', it), '// one more line\n');
    const words = [path.join(alone, 'bin', 'symdir.js'), 'graph', folder, '-o', path.join(alone, 'graph.json')];
    assert.equal(spawnSync(process.execPath, words, { env: { ...process.env, ...env } }).status, 0);
    assert.equal(keptIn(env.XDG_CACHE_HOME, '.trees').length, i + 1, it);
  });
});

test('the parser that is kept is the one that parses', () => {
  const env = { XDG_CACHE_HOME: folderOf({}) };
  const folder = folderOf({ 'index.ts': 'export const n = 1;\n' });
  const first = symdir(['api', folder], { env });
  const [parser] = keptIn(env.XDG_CACHE_HOME, '.js');
  const mark = path.join(env.XDG_CACHE_HOME, 'mark');
  writeFileSync(parser, readFileSync(parser, 'latin1').replace('{', `{require("node:fs").writeFileSync(${JSON.stringify(mark)}, "");`), 'latin1');
  keptIn(env.XDG_CACHE_HOME, '.trees').forEach((it) => rmSync(it));
  assert.deepEqual(symdir(['api', folder, '--no-cache'], { env }), first);
  assert.ok(!existsSync(mark));
  assert.deepEqual(symdir(['api', folder], { env }), first);
  assert.ok(existsSync(mark));
});

test('where each file has a tree that is kept TypeScript isn\'t loaded, and where one changed it is', () => {
  const env = { XDG_CACHE_HOME: folderOf({}) };
  const log = path.join(env.XDG_CACHE_HOME, 'log');
  const typescript = `require('node:fs').appendFileSync(${JSON.stringify(log)}, 'loaded\\n');\nmodule.exports = require(${JSON.stringify(findTypeScript(process.cwd()).file)});\n`;
  const folder = folderOf({ 'index.ts': 'export * from "./b";\n', 'b.ts': 'export const n = 1;\n',
    'node_modules/typescript/package.json': '{ "name": "typescript", "version": "6.99.0" }', 'node_modules/typescript/lib/typescript.js': typescript });
  const run = (/** @type {string[]} */ ...words) => {
    const { status, stderr } = symdir(['api', folder, ...words], { env });
    assert.deepEqual([status, stderr], [0, '']);
    return existsSync(log) ? readFileSync(log, 'utf8').split('\n').length - 1 : 0;
  };
  assert.deepEqual([run(), run()], [1, 1]);
  writeFileSync(path.join(folder, 'b.ts'), 'export const m = 1;\n');
  assert.deepEqual([run(), run()], [2, 2]);
  // what trees are made for is a part of what they are kept by
  assert.deepEqual([run('--no-ambient-exports'), run('--no-ambient-exports'), run()], [3, 3, 3]);
  assert.deepEqual([run('--no-cache'), run('--no-cache')], [4, 5]);
});
