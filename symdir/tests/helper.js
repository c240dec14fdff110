// Folders that are made for a test, and runs of the command on them.
import { spawnSync } from 'node:child_process';
import { mkdirSync, mkdtempSync, realpathSync, rmSync, writeFileSync } from 'node:fs';
import os from 'node:os';
import path from 'node:path';
import { after } from 'node:test';
import { fileURLToPath } from 'node:url';

export const BIN = fileURLToPath(new URL('../bin/symdir.js', import.meta.url));
/** After which a run that goes on is ended, and told. */
const SECONDS = 300;
/** After which one that waits for what has to come ends, in seconds. */
const WAITED = 100;
/** @type {string[]} */
const made = [];
after(() => made.forEach((it) => rmSync(it, { recursive: true, force: true })));

/** @param {Record<string, string | Buffer>} files by their paths @returns {string} the folder that has them */
export function folderOf(files) {
  const folder = realpathSync(mkdtempSync(path.join(os.tmpdir(), 'symdir-test-')));
  made.push(folder);
  for (const [name, text] of Object.entries(files)) {
    mkdirSync(path.dirname(path.join(folder, name)), { recursive: true });
    writeFileSync(path.join(folder, name), text);
  }
  return folder;
}

/** @param {string[]} words @param {{ cwd?: string, env?: Record<string, string> }} [how] */
export function symdir(words, how = {}) {
  const options = { cwd: how.cwd, env: { ...process.env, ...how.env }, timeout: SECONDS * 1000, encoding: /** @type {const} */ ('utf8') };
  const { status, stdout, stderr, error } = spawnSync(process.execPath, [BIN, ...words], options);
  if (error) throw new Error(`symdir ${words.join(' ')}: ${error.message}\n${stdout}\n${stderr}`);
  return { status, stdout, stderr };
}

/** @param {string[]} words with `--json` @returns {any} the answer; a failure of the run is one of the test */
export function answer(words) {
  const { status, stdout, stderr } = symdir([...words, '--json']);
  if (status === null || status > 1) throw new Error(`status ${status}: ${stderr}`);
  return JSON.parse(stdout);
}

/** @param {string} typescript the file of one @param {string} go @returns {Record<string, string>} a package with TypeScript that parses huge.ts when the file `go` is there, and tells if it never comes */
export function waitingTypeScript(typescript, go) {
  const text = `const { existsSync } = require('node:fs');
const ts = require(${JSON.stringify(typescript)});
const wait = () => {
  for (let i = 0; !existsSync(${JSON.stringify(go)}); i++) {
    if (i === ${WAITED} * 100) throw new Error('nothing went on meanwhile');
    Atomics.wait(new Int32Array(new SharedArrayBuffer(4)), 0, 0, 10);
  }
};
module.exports = { ...ts, createSourceFile: (name, ...more) => (name.endsWith('huge.ts') && wait(), ts.createSourceFile(name, ...more)) };
`;
  return { 'package.json': '{ "name": "typescript", "version": "6.99.0" }', 'lib/typescript.js': text };
}

/** @param {Record<string, string>} files @param {string} name @param {string} text of a program @returns {string} its path */
export function program(files, name, text) {
  const folder = folderOf({ ...files, [name]: text });
  const file = path.join(folder, name);
  spawnSync('chmod', ['+x', file]);
  return file;
}
