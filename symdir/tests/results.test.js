import assert from 'node:assert/strict';
import { chmodSync, copyFileSync, readFileSync, readdirSync, rmSync, statSync, utimesSync, writeFileSync } from 'node:fs';
import path from 'node:path';
import test from 'node:test';

import { findSymq } from '../lib/program.js';
import { folderOf, program, symdir } from './helper.js';

const SYMQ = path.resolve(findSymq(undefined));
const isScript = readFileSync(SYMQ).subarray(0, 2).toString() === '#!' ? 'the program is a script, of which no result is kept' : false;

const FILES = { 'package.json': '{ "name": "shop", "version": "1.0.0", "exports": "./index.ts" }',
  'deno.json': '{ "imports": { "b": "./b.ts" } }', 'index.ts': 'export * from "b";\nexport class Shop { open(hour: number): void {} }\n',
  'b.ts': '/** A price. */\nexport const price: number = 1;\n', 'c.ts': 'export const more = 1;\n' };

/** A directory with a cache of its own, where results are marked to be known again. */
class Kept {
  constructor() {
    this.folder = folderOf(FILES);
    this.cache = folderOf({});
  }

  /** @param {string[]} words @param {Record<string, string>} [env] */
  run(words, env = {}) {
    return symdir(words, { env: { XDG_CACHE_HOME: this.cache, ...env } });
  }

  /** @returns {string[]} the files of results */
  files() {
    const at = path.join(this.cache, 'symdir');
    return readdirSync(at).filter((it) => it.endsWith('.result')).map((it) => path.join(at, it));
  }

  /** @param {string} from @param {string} to what stands in results for it */
  mark(from, to) {
    for (const it of this.files()) {
      const text = readFileSync(it, 'utf8');
      assert.ok(text.includes(from), from);
      writeFileSync(it, text.replaceAll(from, to));
    }
  }
}

/** @param {Kept} kept @param {string[]} more words @param {Record<string, string>} [env] @returns {boolean} whether the page is the one that was kept */
function isKeptPage(kept, more = [], env = {}) {
  const { stdout, stderr } = kept.run(['api', kept.folder, '--html', ...more], env);
  assert.equal(stderr, '');
  assert.match(stdout, /A price|MARKED/);
  return stdout.includes('MARKED');
}

test('the page of a graph is kept, and printed again where all that it is made of is the same', { skip: isScript }, () => {
  const kept = new Kept();
  const first = kept.run(['api', kept.folder, '--html']);
  assert.deepEqual(kept.run(['api', kept.folder, '--html']), first);
  kept.mark('A price', 'MARKED');
  assert.equal(isKeptPage(kept), true);
  for (const it of [['--no-cache'], ['--strict'], ['--entry', 'b.ts'], ['--baseline', path.join(folderOf({ 'all.json': '{"version":1,"accepted":[]}' }), 'all.json')]]) {
    const { stdout } = kept.run(['api', kept.folder, '--html', ...it]);
    assert.ok(!stdout.includes('MARKED'), it.join(' '));
    if (it[0] === '--strict' || it[0] === '--entry') {
      // it has taken the place of the other one
      assert.equal(kept.run(['api', kept.folder, '--html']).stdout, first.stdout);
      kept.mark('A price', 'MARKED');
    }
    assert.equal(isKeptPage(kept), true, it.join(' '));
  }
});

/** @type {[string, (kept: Kept) => Record<string, string> | void][]} */
const CHANGES = [
  ['a module\'s text', ({ folder }) => writeFileSync(path.join(folder, 'b.ts'), `${FILES['b.ts']}export {};\n`)],
  ['the version', ({ folder }) => writeFileSync(path.join(folder, 'package.json'), FILES['package.json'].replace('1.0.0', '1.0.1'))],
  ['the entry', ({ folder }) => writeFileSync(path.join(folder, 'package.json'), FILES['package.json'].replace('./index.ts', './b.ts'))],
  ['what an import leads to', ({ folder }) => writeFileSync(path.join(folder, 'deno.json'), '{ "imports": { "b": "./c.ts" } }')],
  ['a module more', ({ folder }) => writeFileSync(path.join(folder, 'd.ts'), 'export const other = 1;\n')],
  ['the program', () => {
    const at = path.join(folderOf({}), 'symq');
    copyFileSync(SYMQ, at);
    chmodSync(at, 0o755);
    return { SYMQ: at };
  }],
  ['what is kept, cut off', (kept) => kept.files().forEach((it) => writeFileSync(it, readFileSync(it).subarray(0, -3)))],
  ['what is kept, of another package', (kept) => kept.files().forEach((it) => writeFileSync(it, `x${readFileSync(it, 'utf8')}`))],
];

for (const [what, change] of CHANGES) {
  test(`a page that is kept isn't printed where something changed: ${what}`, { skip: isScript }, () => {
    const kept = new Kept();
    kept.run(['api', kept.folder, '--html']);
    kept.mark('A price', 'MARKED');
    assert.equal(isKeptPage(kept), true);
    const env = change(kept) ?? {};
    const { stdout } = kept.run(['api', kept.folder, '--html'], env);
    assert.ok(stdout.startsWith('<!doctype html>') && !stdout.includes('MARKED'));
    assert.equal(stdout, kept.run(['api', kept.folder, '--html', '--no-cache'], env).stdout);
  });
}

test('a program that is written again is another one', { skip: isScript }, () => {
  const kept = new Kept();
  const at = path.join(folderOf({}), 'symq');
  const put = () => {
    copyFileSync(SYMQ, at);
    chmodSync(at, 0o755);
  };
  put();
  const stats = statSync(at);
  kept.run(['api', kept.folder, '--html'], { SYMQ: at });
  kept.mark('A price', 'MARKED');
  assert.equal(isKeptPage(kept, [], { SYMQ: at }), true);
  // as large, and as old by what can be set
  put();
  utimesSync(at, stats.atime, stats.mtime);
  assert.equal(isKeptPage(kept, [], { SYMQ: at }), false);
});

test('findings and faults of a page that is kept are told again, with its status', { skip: isScript }, () => {
  const kept = new Kept();
  writeFileSync(path.join(kept.folder, 'b.ts'), `${FILES['b.ts']}export { no } from "./none";\n`);
  writeFileSync(path.join(kept.folder, 'bad.ts'), 'export const = 1;\n');
  const first = kept.run(['api', kept.folder, '--html']);
  assert.equal(first.status, 1);
  assert.match(first.stderr, /bad\.ts:1:14/);
  assert.match(first.stdout, /2 findings|3 findings/);
  assert.deepEqual(kept.run(['api', kept.folder, '--html']), first);
  kept.mark('A price', 'MARKED');
  const { status, stdout, stderr } = kept.run(['api', kept.folder, '--html']);
  assert.deepEqual([status, stderr, stdout.replaceAll('MARKED', 'A price')], [1, first.stderr, first.stdout]);
  // the file that can't be parsed is another finding, and the graph is the same without either
  writeFileSync(path.join(kept.folder, 'bad.ts'), 'export const n = 1;\n');
  assert.ok(!kept.run(['api', kept.folder, '--html']).stdout.includes('MARKED'));
});

test('a page without its picture isn\'t kept', { skip: isScript }, () => {
  const kept = new Kept();
  const bin = path.dirname(program({}, 'dot', '#!/bin/sh\nexit 1\n'));
  const env = { PATH: `${bin}${path.delimiter}${process.env.PATH}` };
  for (const _ of [1, 2]) assert.match(kept.run(['api', kept.folder, '--html'], env).stderr, /the page has no picture/);
  assert.deepEqual(kept.files(), []);
  assert.match(kept.run(['api', kept.folder, '--html']).stdout, /<svg/);
  assert.equal(kept.files().length, 1);
  // another Graphviz may draw another one
  assert.match(kept.run(['api', kept.folder, '--html'], env).stderr, /the page has no picture/);
});

test('of a program that is a script no result is kept', () => {
  const kept = new Kept();
  const symq = program({}, 'symq', `#!/bin/sh\nexec '${SYMQ}' "$@"\n`);
  const first = kept.run(['api', kept.folder, '--html'], { SYMQ: symq });
  assert.equal(first.status, 0);
  assert.deepEqual(kept.files(), []);
});

test('the surface of a graph is kept: what diff, --check and --save compare', { skip: isScript }, () => {
  const kept = new Kept();
  const other = folderOf(FILES);
  const difference = () => JSON.parse(kept.run(['diff', kept.folder, other, '--json', '--no-config']).stdout).changes.map((/** @type {any} */ it) => [it.what, it.name, it.from, it.to]);
  assert.deepEqual(difference(), []);
  assert.equal(kept.files().length, 2);
  assert.deepEqual(difference(), []);
  const [own] = kept.files();
  writeFileSync(own, readFileSync(own, 'utf8').replaceAll(': number', ': string'));
  // one of the two is the marked one
  const found = difference();
  assert.deepEqual(found.map((/** @type {any[]} */ [what, name]) => `${what} ${name}`), ['signature Shop#open', 'signature price']);
  writeFileSync(path.join(other, 'b.ts'), FILES['b.ts'].replace('number', 'bigint'));
  writeFileSync(path.join(kept.folder, 'b.ts'), FILES['b.ts'].replace('number', 'boolean'));
  assert.deepEqual(difference(), [['signature', 'price', ': boolean', ': bigint']]);
});

test('a surface with places is kept for reports that have them', { skip: isScript }, () => {
  const kept = new Kept();
  const snapshot = path.join(folderOf({}), 'api.txt');
  assert.equal(kept.run(['api', kept.folder, '--save', snapshot]).status, 0);
  writeFileSync(path.join(kept.folder, 'b.ts'), `\n${FILES['b.ts'].replace('number', 'string')}`);
  for (const _ of [1, 2]) {
    const { status, stdout } = kept.run(['api', kept.folder, '--check', snapshot, '--annotations']);
    assert.equal(status, 1);
    assert.match(stdout, /^::error file=[^,]*b\.ts,line=3,col=14,/);
    assert.match(kept.run(['api', kept.folder, '--check', snapshot]).stdout, /signature: : number {2}-> {2}: string/);
  }
  rmSync(path.join(kept.folder, 'b.ts'));
  assert.equal(kept.run(['api', kept.folder, '--check', snapshot]).status, 1);
});
