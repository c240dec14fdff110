// The package as another one uses it, and what it answers beside what the commands print.
import assert from 'node:assert/strict';
import { mkdirSync, symlinkSync } from 'node:fs';
import path from 'node:path';
import { fileURLToPath } from 'node:url';

import { answer, folderOf } from './helper.js';

/** @typedef {Omit<import('../types/index.js').Folder, keyof Disposable | keyof AsyncDisposable>} Described without what the version of Node may lack */

export const PACKAGE = fileURLToPath(new URL('../', import.meta.url));

/** @param {Record<string, string>} files @returns {string} a folder in which the package is installed */
export function consumer(files) {
  const folder = folderOf(files);
  mkdirSync(path.join(folder, 'node_modules'));
  symlinkSync(PACKAGE, path.join(folder, 'node_modules', 'symdir'));
  return folder;
}

/** @param {Described} folder @param {string} directory @param {string[]} words @param {import('../types/index.js').Spot} spot */
export async function sameAsCommands(folder, directory, words, spot) {
  const place = `${spot.file}:${spot.line}`;
  const { entries, names, open, shared = [], declared = [], unlisted = [] } = answer(['api', directory, ...words]);
  assert.deepEqual(folder.entries, entries);
  assert.deepEqual(await folder.names(), names);
  const each = await Promise.all(folder.entries.map((it) => folder.exports(it)));
  assert.deepEqual(each.flatMap((it) => it.names), names);
  assert.deepEqual(each.flatMap((it) => it.open), open);
  assert.deepEqual(each.flatMap((it) => it.shared), shared);
  assert.deepEqual(each.flatMap((it, i) => it.declared.map((module) => ({ entry: entries[i], module }))), declared);
  assert.deepEqual(each.flatMap((it, i) => it.unlisted.map((why) => ({ entry: entries[i], why }))), unlisted);
  assert.deepEqual(await folder.leaks(), answer(['leaks', directory, ...words]).leaks);
  assert.deepEqual(await folder.missing(), answer(['missing', directory, ...words]).missing);
  assert.deepEqual(await folder.where(spot), answer(['where', directory, place, ...words]));
  assert.deepEqual(await folder.uses(spot), answer(['uses', directory, place, '--bodies', ...words]));
  assert.deepEqual(await folder.unused(), without(answer(['unused', directory, ...words]), 'entries'));
  assert.deepEqual(await folder.unused({ production: true }), without(answer(['unused', directory, '--production', ...words]), 'entries'));
  assert.deepEqual(await folder.cycles(), answer(['cycles', directory, ...words]));
}

/** @param {any} value @param {string} key @returns {any} */
function without(value, key) {
  return Object.fromEntries(Object.entries(value).filter(([it]) => it !== key));
}
