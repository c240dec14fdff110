// Holds symdir/COMPARED.md to what compare.js finds on its packages, all but times and versions.
import assert from 'node:assert/strict';
import { spawnSync } from 'node:child_process';
import path from 'node:path';
import test from 'node:test';
import { fileURLToPath } from 'node:url';

import { folderOf } from '../tests/helper.js';
import { pageOf, stable } from './compare.js';
import { COMPARED, ROLLUP } from './compared.js';
import { putInPlace } from './taken.js';

const COMPARE = fileURLToPath(new URL('./compare.js', import.meta.url));
putInPlace('rollup', path.dirname(ROLLUP));

/** @param {string[]} words @returns {{ status: number | null, stdout: string, stderr: string }} */
function compare(...words) {
  return spawnSync(process.execPath, [COMPARE, ...words], { encoding: 'utf8', maxBuffer: 1 << 26 });
}

/** @param {Partial<Record<number, string>>} other cells @returns {string[]} a row of the table */
function row(other) {
  return ['p', '3; 3', '0; 2 (1)', '0; 0', '0; 0', '1; 1', '8; 8', '1; 1; 2 (4)', '5', '0.3; 12.4; 1.0'].map((it, i) => other[i] ?? it);
}

test('the page is what the script finds', (t) => {
  const file = path.join(folderOf({}), 'rows');
  const { status, stdout, stderr } = compare('--check', '--rows', file);
  assert.deepEqual({ status, stdout, stderr }, { status: 0, stdout: '', stderr: '' });
  // what is found is stored, and so the page is compared with it at once
  assert.deepEqual(compare('--check', '--rows', file).status, 0);
  t.diagnostic(`${COMPARED.length} packages`);
});

test('a count, a note, a package and a sentence that differ are found, and a time or a version isn\'t', () => {
  const page = stable(pageOf([row({})], {}));
  assert.equal(stable(pageOf([row({ 9: '7.7; 0.1; 22.0' })], { isUnproved: true, isBusy: true })), page);
  assert.equal(stable(pageOf([row({})], {}).replace(/TypeScript \d+\.\d+\.\d+/, 'TypeScript 9.9.9')), page);
  for (const other of [{ 0: 'q' }, { 1: '3; 4' }, { 2: '0; 2' }, { 7: '1; 1; 3 (4)' }, { 8: '6' }]) assert.notEqual(stable(pageOf([row(other)], {})), page);
  assert.notEqual(stable(pageOf([row({}), row({ 0: 'q' })], {})), page);
  assert.notEqual(stable(pageOf([row({})], {}).replace('alone', '')), page);
});
