// What a run ends with, and what it says on the way.
import assert from 'node:assert/strict';
import { spawn } from 'node:child_process';
import { once } from 'node:events';
import { symlinkSync, writeFileSync } from 'node:fs';
import path from 'node:path';
import test from 'node:test';

import { failureOf } from '../lib/failure.js';
import { Progress } from '../lib/output.js';
import { Symq } from '../lib/symq.js';
import { BIN, folderOf, program, symdir } from './helper.js';

const TEXT = 'export const n = 1;\n';

test('api ends with 1 where it prints a finding, and with 0 where names come from what isn\'t read', () => {
  const status = (/** @type {Record<string, string>} */ files, /** @type {string[]} */ ...words) => symdir(['api', folderOf(files), ...words]).status;
  for (const words of [[], ['--json']]) {
    assert.equal(status({ 'index.ts': TEXT }, ...words), 0);
    assert.equal(status({ 'index.ts': 'export * from "npm:far";\nexport { a } from "npm:far";\n' }, ...words), 0);
    assert.equal(status({ 'index.ts': 'export * from "./gone";\n' }, ...words), 1);
    assert.equal(status({ 'index.ts': 'export { a } from "./gone";\n' }, ...words), 1);
    assert.equal(status({ 'index.ts': 'export { a } from "./b";\n', 'b.ts': TEXT }, ...words), 1);
  }
});

test('a configuration file that can\'t be parsed is told with its place, and is a finding', () => {
  const said = (/** @type {string} */ name, /** @type {string} */ text, /** @type {string[]} */ ...words) => {
    const { status, stderr } = symdir([...words, folderOf({ 'index.ts': TEXT, [name]: text })]);
    assert.equal(status, 1, name);
    return stderr;
  };
  // a colon lacks before the second string, a comma before the second key, a value before the brace
  assert.match(said('package.json', '{ "name": "a",\n  "types" "index.ts" }\n', 'api'), /^symdir: package\.json:2:11: .+\n$/);
  assert.match(said('deno.json', '{ "name": "a" "exports": "./index.ts" }\n', 'leaks'), /^symdir: deno\.json:1:15: .+\n$/);
  assert.match(said('tsconfig.json', '{\n  // a comment\n  "compilerOptions": }\n', 'graph'), /^symdir: tsconfig\.json:3:22: .+\n$/);
  const { status, stdout, stderr } = symdir(['missing', folderOf({ 'index.ts': TEXT, 'package.json': '{ "name" }' })]);
  assert.deepEqual([status, stderr], [1, '']);
  assert.match(stdout, /^files with a syntax error, not analyzed: 1\n {2}.+ {2}package\.json:1:10\n/);
});

test('a configuration file with comments and commas at the ends is none with a fault', () => {
  const text = '{ // a comment\n  "compilerOptions": { "paths": {}, }, /* another */\n}\n';
  assert.deepEqual(symdir(['api', folderOf({ 'index.ts': TEXT, 'tsconfig.json': text })]).stderr, '');
});

test('a file that can\'t be read is told once, however many import it', () => {
  const folder = folderOf({ 'index.ts': 'export * from "./a";\nimport "./b";\n', 'b.ts': 'import "./a";\n' });
  // it is there, and a read of it fails for whoever reads
  symlinkSync('/proc/self/mem', path.join(folder, 'a.ts'));
  const { status, stdout, stderr } = symdir(['api', folder]);
  assert.deepEqual([status, stderr], [1, 'symdir: a.ts: can\'t be read (EIO)\n']);
  assert.match(stdout, /index\.ts:1:1: export \* from "\.\/a": a\.ts isn't analyzed, /);
  const missing = symdir(['missing', folder]);
  assert.match(missing.stdout, /^unreadable files: 1\n {2}EIO {2}a\.ts:1:1\n/);
});

test('a configuration file that can\'t be read is told once', () => {
  const folder = folderOf({ 'index.ts': TEXT });
  symlinkSync('/proc/self/mem', path.join(folder, 'package.json'));
  const { status, stderr } = symdir(['api', folder]);
  assert.deepEqual([status, stderr], [1, 'symdir: package.json: can\'t be read (EIO)\n']);
});

test('a configuration file of an installed package isn\'t told', () => {
  const files = { 'index.ts': 'export { a } from "p";\n', 'node_modules/p/package.json': '{ "types" }', 'node_modules/p/index.d.ts': 'export const a: 1;\n' };
  for (const words of [[], ['--packages']]) assert.deepEqual([symdir(['api', folderOf(files), ...words]).status, symdir(['api', folderOf(files), ...words]).stderr], [0, '']);
  // one of the folder with a fault counts for nothing, and of a tsconfig.json what TypeScript makes of it does
  const found = symdir(['api', folderOf({ 'index.ts': TEXT, 'b.ts': TEXT, 'package.json': '{ "main": "b.ts", }, }' })]);
  assert.match(found.stdout, /^index\.ts: 1 public name/);
});

test('a configuration file of Deno with a fault counts for nothing, with what TypeScript makes of it neither', () => {
  const [files, exported, imported] = [{ 'index.ts': 'import "b";\n', 'b.ts': TEXT }, '"exports": "./b.ts"', '"imports": { "b": "./b.ts" }'];
  for (const name of ['deno.json', 'deno.jsonc', 'import_map.json']) {
    const run = (/** @type {string} */ command, /** @type {string} */ end) => symdir([command, folderOf({ ...files, [name]: `{ ${exported}, ${imported}${end}` })]);
    // without a fault it leads there
    assert.deepEqual([run('missing', ' }').status, run('missing', ' } }').status], [0, 1], name);
    assert.match(run('missing', ' } }').stdout, /^packages [^]*\n {2}import \"b\" {2}index\.ts:1:1\n/m, name);
    if (name !== 'import_map.json') assert.deepEqual([' }', ' } }'].map((it) => run('api', it).stdout.split(':')[0]), ['b.ts', 'index.ts'], name);
    assert.match(run('api', ' } }').stderr, new RegExp(`^symdir: ${name.replace('.', '\\.')}:1:\\d+: .+\n$`));
  }
});

test('a fault of this program is none of the system, and isn\'t told in a line', () => {
  assert.equal(failureOf(Object.assign(new TypeError('no function'), { code: 'ERR_INVALID_ARG_TYPE' })), null);
  assert.equal(failureOf(Object.assign(new Error('no code'), { syscall: 'open' })), null);
  const failure = failureOf(Object.assign(new Error('EACCES: open'), { code: 'EACCES', syscall: 'open' }));
  assert.deepEqual([failure?.message, failure?.status, failure?.kind], ['EACCES: open', 3, 'system']);
});

test('how many queries symq has answered is told as answers come, whole or in parts', () => {
  /** @type {string[]} */
  const told = [];
  const symq = Object.assign(new Symq('symq', 'graph'), { open: ['a', 'b', 'c'], progress: (/** @type {string} */ it) => told.push(it) });
  for (const it of ['1\n"é', '"\n', '3\n']) symq.receive(Buffer.from(it));
  assert.deepEqual([told, [...symq.known]], [['symq answered 1 of 3 queries', 'symq answered 2 of 3 queries', ''], [['a', 1], ['b', 'é'], ['c', 3]]]);
});

test('--verbose tells every five seconds how far it is, and nothing else does', async () => {
  const folder = folderOf({ 'index.ts': TEXT });
  const go = path.join(folderOf({}), 'go');
  const waits = program({}, 'symq', `#!/bin/sh\nread line\ni=0\nwhile [ ! -e '${go}' ] && [ $i -lt 300 ]; do sleep 0.1; i=$((i + 1)); done\nexit 9\n`);
  const run = spawn(process.execPath, [BIN, 'api', folder, '--symq', waits, '--verbose']);
  let said = '';
  run.stderr.on('data', (it) => {
    said += it;
    // it ends when two lines have come
    if (said.split('\n').length > 2) writeFileSync(go, '');
  });
  await once(run, 'close');
  assert.match(said, /^(symdir: waiting for symq: 1 query, \d+ s\n){2,}symdir: symq exited with status 9\n$/);
  const seconds = [...said.matchAll(/(\d+) s$/gm)].map((it) => Number(it[1]));
  assert.ok(seconds.every((it, i) => it >= 5 * (i + 1)), said);
  const slow = program({}, 'symq', '#!/bin/sh\nread line\nsleep 6\nexit 9\n');
  assert.equal(symdir(['api', folder, '--symq', slow]).stderr, 'symdir: symq exited with status 9\n');
});

test('a line is told every five seconds, and on a terminal one that stays from the first second on', () => {
  const told = (/** @type {boolean} */ isTerminal, /** @type {boolean} */ isVerbose, /** @type {number[]} */ times) => {
    const { setInterval, Date: { now } } = globalThis;
    const [write, terminal] = [process.stderr.write, Object.getOwnPropertyDescriptor(process.stderr, 'isTTY')];
    /** @type {string[]} */
    const lines = [];
    /** @type {(() => void)[]} */
    const ticks = [];
    try {
      globalThis.setInterval = /** @type {any} */ ((/** @type {() => void} */ tick, /** @type {number} */ every) => {
        lines.push(`every ${every}`);
        ticks.push(tick);
        return { unref() { return 1; } };
      });
      Object.defineProperty(process.stderr, 'isTTY', { value: isTerminal, configurable: true });
      process.stderr.write = /** @type {any} */ ((/** @type {string} */ it) => lines.push(it));
      Date.now = () => 5000;
      const progress = new Progress(isVerbose);
      progress.update('at work');
      progress.update('at more work');
      for (const it of times) {
        Date.now = () => 5000 + it;
        ticks.forEach((tick) => tick());
      }
      progress.update('');
      return lines;
    } finally {
      Object.assign(globalThis, { setInterval });
      Date.now = now;
      process.stderr.write = write;
      if (terminal) Object.defineProperty(process.stderr, 'isTTY', terminal);
      else Reflect.deleteProperty(process.stderr, 'isTTY');
    }
  };
  assert.deepEqual(told(false, true, [5000, 10999]), ['every 5000', 'symdir: at more work, 5 s\n', 'symdir: at more work, 10 s\n']);
  assert.deepEqual(told(false, false, [5000]), []);
  for (const it of [false, true]) {
    assert.deepEqual(told(true, it, [999, 1000]), ['every 100', '\r\x1b[Kat more work, 1 s', '\r\x1b[K']);
    assert.deepEqual(told(true, it, [999]), ['every 100']);
  }
});
