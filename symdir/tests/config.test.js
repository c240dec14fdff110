// Options from symdir.json and package.json.
import assert from 'node:assert/strict';
import { existsSync, symlinkSync } from 'node:fs';
import path from 'node:path';
import test from 'node:test';

import { configured } from '../lib/config.js';
import { Failure } from '../lib/failure.js';
import { folderOf, symdir } from './helper.js';

const FILES = { 'index.ts': 'export const a = 1;\nexport * from "./b";\n', 'b.ts': 'export const b = 1;\n', 'b.test.ts': 'import { c } from "./c";\nc;\n', 'c.ts': 'export const c = 1;\n' };

/** @param {object | string} config @param {Record<string, string>} [more] files @returns {string} */
function folderWith(config, more = {}) {
  return folderOf({ ...FILES, ...more, 'symdir.json': typeof config === 'string' ? config : JSON.stringify(config) });
}

/** @param {string} stdout of `api --json` @returns {string[]} */
const namesIn = (stdout) => JSON.parse(stdout).names.map((/** @type {any} */ it) => it.name);

test('options for all commands, and for one', () => {
  const folder = folderWith({ json: true, skip: '^b\\.ts$', unused: { production: true, json: false } });
  const { stdout, status } = symdir(['api', folder]);
  assert.deepEqual([status, namesIn(stdout)], [0, ['a']]);
  assert.match(symdir(['unused', folder]).stdout, /^unreachable files: 1\n {2}c\.ts\n/);
  // what a command doesn't take is for others
  assert.equal(symdir(['graph', folder, '-o', path.join(folder, 'g.json')]).status, 0);
});

test('options in package.json, unless symdir.json is there', () => {
  const json = '{ "name": "symdir", "symdir": { "entry": "b.ts", "json": true } }';
  assert.deepEqual(namesIn(symdir(['api', folderOf({ ...FILES, 'package.json': json })]).stdout), ['b']);
  assert.deepEqual(namesIn(symdir(['api', folderWith({ entry: ['c.ts'], json: true }, { 'package.json': json })]).stdout), ['c']);
  assert.match(symdir(['api', folderOf({ ...FILES, 'package.json': '{ "name": "symdir" }' })]).stdout, /^index\.ts: 2 public names/);
});

test('comments and commas at ends are allowed, as in deno.jsonc', () => {
  assert.deepEqual(namesIn(symdir(['api', folderWith('{ // a comment\n "json": true, /* more */ }\n')]).stdout), ['a', 'b']);
});

test('the command line goes first', () => {
  const folder = folderWith({ entry: 'c.ts', json: true, skip: ['^b\\.ts$'], 'no-ambient-exports': true, api: { docs: true } }, { 'd.d.ts': 'declare const d: 1;\nexport declare const e: 1;\n' });
  const json = (/** @type {string[]} */ ...words) => namesIn(symdir(['api', folder, ...words]).stdout);
  assert.deepEqual(json(), ['c']);
  assert.deepEqual(json('--entry', 'index.ts'), ['a']);
  assert.deepEqual(json('--entry', 'index.ts', '--skip', '^c'), ['a', 'b']);
  assert.deepEqual(json('--entry', 'd.d.ts'), ['e']);
  assert.deepEqual(json('--entry', 'd.d.ts', '--ambient-exports'), ['d', 'e']);
  assert.equal(symdir(['api', folder, '--no-json', '--no-docs']).stdout, 'c.ts: 1 public name, defined in 1 file\n  c  const  c.ts:1:14\n');
  // of formats only one can be
  assert.match(symdir(['api', folder, '--annotations']).stdout, /^$/);
  assert.match(symdir(['api', folder, '--markdown']).stdout, /^### `c\.ts`: 1 public name\n/);
  assert.match(symdir(['api', folder, '--no-config']).stdout, /^index\.ts: 2 public names/);
});

test('options of a command go before those of all', () => {
  const folder = folderWith({ json: true, api: { markdown: true } });
  assert.match(symdir(['api', folder]).stdout, /^### /);
  assert.match(symdir(['leaks', folder]).stdout, /^\{/);
});

test('files are below the directory', () => {
  const folder = folderWith({ baseline: 'ci/accepted.json', api: { check: 'ci/api.txt' } }, { 'ci/x': '' });
  assert.equal(symdir(['unused', folder, '--save-baseline']).status, 0);
  assert.ok(existsSync(path.join(folder, 'ci/accepted.json')));
  assert.equal(symdir(['unused', '.', '--baseline', 'ci/accepted.json'], { cwd: folder }).status, 0);
  assert.match(symdir(['api', '.'], { cwd: folder }).stderr, /^symdir: no such file: ci\/api\.txt/);
  assert.equal(symdir(['api', folder, '--save', path.join(folder, 'ci/api.txt')]).status, 0);
  assert.match(symdir(['api', '.'], { cwd: folder }).stdout, /^the public names are those of ci\/api\.txt\n/);
});

test('diff takes the options of the newer directory', () => {
  const old = folderOf(FILES);
  assert.match(symdir(['diff', old, folderWith({ diff: { json: true } })]).stdout, /^\{/);
  assert.match(symdir(['diff', folderWith({ diff: { json: true } }), old]).stdout, /^the 2 public names and/);
});

/**
 * Commands with options of each sort.
 * @type {import('../lib/config.js').Commands}
 */
const COMMANDS = {
  api: { options: { json: { type: 'boolean' }, sarif: { type: 'boolean' }, all: { type: 'boolean' }, check: { type: 'string' }, baseline: { type: 'string' } }, apart: [['json', 'sarif']] },
  unused: { options: { json: { type: 'boolean' }, entry: { type: 'string', multiple: true }, skip: { type: 'string', multiple: true }, production: { type: 'boolean' } } },
};

test('what is wrong is refused with its place', () => {
  const said = (/** @type {string} */ text, name = 'symdir.json') => {
    try {
      configured('api', COMMANDS, folderOf({ ...FILES, [name]: text }), {});
    } catch (error) {
      assert.ok(error instanceof Failure && error.status === 2);
      return `symdir: ${error.message}\n`;
    }
    return assert.fail(text);
  };
  assert.equal(said('{\n  "jsn": true }'), 'symdir: symdir.json:2:3: unknown option jsn\n');
  assert.equal(said('{ "json": "yes" }'), 'symdir: symdir.json:1:11: json: expected true or false\n');
  assert.equal(said('{ "baseline": ["a"] }'), 'symdir: symdir.json:1:15: baseline: expected a string\n');
  assert.equal(said('{ "entry": [1] }'), 'symdir: symdir.json:1:12: entry: expected a string or a list of strings\n');
  assert.equal(said('{ "api": { "production": true } }'), 'symdir: symdir.json:1:12: unknown option production of api\n');
  assert.equal(said('{ "unused": { "production": 1 } }'), 'symdir: symdir.json:1:29: production: expected true or false\n');
  assert.equal(said('{ "api": true }'), 'symdir: symdir.json:1:10: api: expected an object with options of the command\n');
  assert.equal(said('{ "json": true, "sarif": true }'), 'symdir: symdir.json:1:17: json and sarif can\'t be combined\n');
  assert.equal(said('{ "check": "a" }'), 'symdir: symdir.json:1:3: check can be set in "api" only\n');
  assert.match(said('{ "skip": "(" }'), /^symdir: symdir\.json:1:11: skip: Invalid regular expression/);
  assert.match(said('{ "json": true,\n "all" true }'), /^symdir: symdir\.json:2:8: /);
  // of a key that stands twice the last one counts
  assert.equal(said('{ "json": true,\n "json": 1 }'), 'symdir: symdir.json:2:10: json: expected true or false\n');
  assert.equal(said('[]'), 'symdir: symdir.json:1:1: expected an object with options\n');
  assert.equal(said(' null'), 'symdir: symdir.json:1:2: expected an object with options\n');
  assert.equal(said('{\n "name": "a",\n "symdir": { "jsn": 1 } }', 'package.json'), 'symdir: package.json:3:14: unknown option jsn\n');
  assert.equal(said('{ "symdir": 1 }', 'package.json'), 'symdir: package.json:1:13: expected an object with options\n');
  assert.deepEqual(symdir(['api', folderWith('{\n  "jsn": true }')]), { status: 2, stdout: '', stderr: 'symdir: symdir.json:2:3: unknown option jsn\n' });
  // a fault of package.json itself is a finding, as ever
  const { status, stderr } = symdir(['api', folderOf({ ...FILES, 'package.json': '{ "symdir": { "json" } }' })]);
  assert.deepEqual([status, stderr.split(':')[1]], [1, ' package.json']);
});

test('a byte order mark before the text is none of it, and one within it is', () => {
  for (const mark of ['', '\ufeff']) assert.deepEqual(configured('unused', COMMANDS, folderWith(`${mark}{ "skip": ["a\ufeffb"] }`), {}), { skip: ['a\ufeffb'] });
});

test('a directory can\'t say which programs are run, and which files are written', () => {
  for (const name of ['symq', 'unproved', 'out', 'save', 'save-baseline', 'help', 'config', 'no-config']) {
    const text = `symdir.json:1:2: ${name} can be set on the command line only`;
    for (const config of [{ [name]: true }, { [name]: 'x' }]) assert.throws(() => configured('api', COMMANDS, folderWith(config), {}), { message: text, status: 2 });
  }
  const folder = folderWith({ api: { symq: './symq' } }, { symq: '#!/bin/sh\ntouch ran\n' });
  assert.deepEqual(symdir(['api', folder], { cwd: folder }).status, 2);
});

test('the example of --help is one', () => {
  const [config] = /^ {2}\{.*\}$/m.exec(symdir(['--help']).stdout) ?? assert.fail();
  const folder = folderWith(config, { 'fixtures/x.ts': 'import "./gone";\n' });
  assert.match(symdir(['missing', folder]).stdout, /^2 imports in 4 modules: nothing is missing\n$/);
  assert.match(symdir(['unused', folder]).stderr, /baseline\.json/);
  assert.equal(symdir(['unused', folder, '--save-baseline']).status, 0);
  assert.equal(symdir(['unused', folder]).status, 0);
  assert.equal(symdir(['unused', folder, '--no-production', '--json']).status, 0);
});

test('symdir.json that can\'t be read ends the run, and a package.json doesn\'t', () => {
  const folder = folderOf(FILES);
  // it is there, and a read of it fails for whoever reads
  symlinkSync('/proc/self/mem', path.join(folder, 'symdir.json'));
  assert.deepEqual(symdir(['api', folder]), { status: 3, stdout: '', stderr: `symdir: ${folder}/symdir.json can't be read (EIO)\n` });
  assert.equal(symdir(['api', folder, '--no-config']).status, 0);
});
