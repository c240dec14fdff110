// The files of packages of Debian that are compared.
import assert from 'node:assert/strict';
import { spawnSync } from 'node:child_process';
import { cpSync, existsSync, lstatSync, readdirSync } from 'node:fs';
import path from 'node:path';

import { Files } from '../lib/folder/files.js';
import { isCode } from '../lib/language.js';
import { Language } from '../tests/language.js';

/** @typedef {{ name: string, place: string, isTaken: (file: string) => boolean, paths?: Record<string, string[]> }} Package */

/** @param {string} name of Debian's package @param {string} place */
export function putInPlace(name, place) {
  if (existsSync(place)) return;
  const { status, stderr } = spawnSync('apt-get', ['install', '-y', '--no-install-recommends', name], { encoding: 'utf8' });
  assert.equal(status, 0, stderr);
}

/** @param {string} folder @param {string} [below] @returns {string[]} the files in it, by their paths */
function filesIn(folder, below = '') {
  return readdirSync(path.join(folder, below)).flatMap((it) => {
    const file = path.join(below, it);
    return lstatSync(path.join(folder, file)).isDirectory() ? filesIn(folder, file) : [file];
  });
}

/** @param {Package} of @param {string} folder which is given its files */
export function takeInto({ name, place, isTaken }, folder) {
  putInPlace(name, place);
  for (const it of filesIn(place).filter(isTaken)) cpSync(path.join(place, it), path.join(folder, it), { dereference: true });
}

/** @param {string} folder @param {Package} of @param {import('typescript').CompilerOptions} [more] @returns {Language} over all its modules */
export function languageOf(folder, { paths }, more = {}) {
  const names = [...new Files(folder, []).all].filter(isCode).map((it) => path.relative(folder, it));
  return new Language(folder, names, { ...(paths && { baseUrl: folder, paths }), ...more });
}
