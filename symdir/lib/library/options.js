// The options of `openFolder`, checked, and what the command calls them.
import path from 'node:path';
import { fileURLToPath } from 'node:url';

import { Failure } from '../failure.js';
import { checkFolder, withSlashes } from '../folder/files.js';
import { findTypeScript } from '../typescript.js';

/** @typedef {import('../../types/index.js').Options} Options */
/** @typedef {import('../../types/index.js').Spot} Spot */
/** @typedef {import('../folder/begin.js').Reading} Reading */

/** @param {unknown} it @returns {boolean} */
const isFlag = (it) => typeof it === 'boolean';
/** @param {(it: unknown) => boolean} isOne @returns {(it: unknown) => boolean} */
const listOf = (isOne) => (it) => Array.isArray(it) && it.every(isOne);
/** @param {unknown} it @returns {boolean} */
const isText = (it) => typeof it === 'string';

/** @type {Record<keyof Options, (it: unknown) => boolean>} what each has to be */
const TAKEN = {
  entry: listOf(isText), skip: listOf((it) => it instanceof RegExp), js: isFlag, packages: isFlag, ambientExports: isFlag, cache: isFlag, strict: isFlag,
  bodies: isFlag, symq: isText, progress: (it) => typeof it === 'function',
};
/** @type {Record<keyof Spot, (it: unknown) => boolean>} */
const AT = { file: isText, line: isCount, column: isCount, name: isText };

/** @param {unknown} it @returns {boolean} whether it is the number of a line or a column */
function isCount(it) {
  return Number.isSafeInteger(it) && Number(it) > 0;
}

/** @param {unknown} given @param {Record<string, (it: unknown) => boolean>} taken @param {string} what @throws {Failure} where a key isn't taken, or has another type */
function check(given, taken, what) {
  if (typeof given !== 'object' || given === null) throw new Failure(`${what} has to be an object`, 2);
  for (const [key, value] of Object.entries(given)) {
    if (!Object.hasOwn(taken, key)) throw new Failure(`unknown ${what} ${key}; there are ${Object.keys(taken).join(', ')}`, 2);
    if (value !== undefined && !taken[key](value)) throw new Failure(`${what} ${key}: ${String(value)} isn't of its type`, 2);
  }
}

/** @type {import('../typescript.js').Found | undefined} what this process parses with: it is loaded once */
let typescript;

/** @param {string | URL} directory @param {Options} options @returns {Reading} */
export function readingOf(directory, options) {
  check(options, TAKEN, 'option');
  if (!(directory instanceof URL) && (!isText(directory) || directory === '')) throw new Failure('openFolder takes a directory', 2);
  const folder = withSlashes(path.resolve(directory instanceof URL ? fileURLToPath(directory) : directory));
  checkFolder(folder);
  typescript ??= findTypeScript(folder);
  const { skip = [], bodies = true, ambientExports = true, js = false, packages = false, cache = true, progress = () => {} } = options;
  return { folder, skip: [...skip], bodies, ambient: ambientExports, javascript: js, packages, cache, progress, typescript };
}

/** @param {{ production?: boolean }} options of `unused` */
export function checkUnused(options) {
  check(options, { production: isFlag }, 'option');
}

/** @param {Spot} spot @returns {{ spot: { file: string, line: number, column: number | null }, name: string | undefined }} */
export function checkedSpot(spot) {
  check(spot, AT, 'key');
  const { file, line, column, name } = spot;
  if (file === undefined || line === undefined) throw new Failure('file and line are required', 2);
  return { spot: { file, line, column: column ?? null }, name };
}
