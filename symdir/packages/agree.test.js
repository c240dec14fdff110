// Holds `symdir api` to TypeScript's own checker, on packages of Debian, which `python3 tools/run_symdir.py --packages` installs.
import assert from 'node:assert/strict';
import { spawnSync } from 'node:child_process';
import { readFileSync, realpathSync } from 'node:fs';
import path from 'node:path';
import test from 'node:test';
import { fileURLToPath } from 'node:url';

import { answer } from '../tests/helper.js';

const CHECKER = fileURLToPath(new URL('./checker.js', import.meta.url));

/**
 * @typedef {object} Package
 * @property {string} package of Debian
 * @property {string} directory that it puts in place
 * @property {string[]} [words] for the command
 */

/** @type {Package[]} */
const PACKAGES = JSON.parse(readFileSync(new URL('./packages.json', import.meta.url), 'utf8'));

/** @typedef {{ places: string[], ends: string[] }} Found where a name is defined, and the ends of its paths that are no definitions */

/** @param {any} out of `symdir api` @returns {Map<string, Found>} by entry and name */
function ours(out) {
  return new Map(out.names.map((/** @type {any} */ it) => [`${it.entry} ${it.name}`, {
    places: it.defined.map((/** @type {any} */ place) => `${place.file}:${place.line}:${place.column}`).sort(),
    ends: it.unresolved.map((/** @type {any} */ end) => end.what) }]));
}

/** @typedef {{ places: Map<string, string[]>, comments: Set<string> }} Wanted the places of each name, by entry and name, and which of them comments declare */

/** @param {string} folder @param {string[]} entries @returns {Wanted} */
function theirs(folder, entries) {
  const files = entries.map((it) => path.join(folder, it));
  const { stdout, status, stderr } = spawnSync(process.execPath, [CHECKER, ...files], { encoding: 'utf8', maxBuffer: 1 << 28, env: { ...process.env, BASE: path.dirname(folder) } });
  assert.equal(status, 0, stderr);
  const rows = stdout.trim().split('\n').map((it) => JSON.parse(it));
  const key = (/** @type {string} */ file, /** @type {string} */ name) => `${path.relative(folder, file)} ${name}`;
  return {
    places: new Map(rows.flatMap(({ file, names }) => Object.entries(names).map(([name, places]) => [
      key(file, name), places.map((/** @type {any} */ [at, line, column]) => `${path.relative(folder, at)}:${line}:${column}`).sort()]))),
    comments: new Set(rows.flatMap(({ file, comments }) => comments.map((/** @type {string} */ it) => key(file, it)))),
  };
}

/** @param {string[]} a @param {string[]} b @returns {boolean} */
function isSame(a, b) {
  return a.length === b.length && a.every((it, i) => it === b[i]);
}

/**
 * How a name differs, as `symdir/README.md` lists it.
 * @param {string} folder
 * @param {any} out of `symdir api`
 * @param {string} key entry and name
 * @param {Found | undefined} mine
 * @param {Wanted} all of TypeScript
 * @returns {string | null} null where it doesn't; what isn't listed begins with `!`
 */
function difference(folder, out, key, mine, { places, comments }) {
  const [entry, name] = key.split(' ');
  const wanted = places.get(key);
  if (!wanted) return name === 'default' && /^\s*export\s*=/m.test(readFileSync(path.join(folder, entry), 'utf8')) ? 'default behind export =' : '! ours alone';
  if (!mine && out.open.some((/** @type {any} */ it) => it.entry === entry && it.external !== null)) return 'from a module that isn\'t read';
  if (!mine && comments.has(key)) return 'declared by comments of JavaScript';
  if (!mine) return name === 'prototype' ? 'prototype of a class behind export =' : '! TypeScript\'s alone';
  if (isSame(mine.places, wanted)) return null;
  const isOutside = wanted.every((it) => it.startsWith('../') || /(^|\/)node_modules\//.test(it));
  if (mine.ends.includes('external') && isOutside) return 'from a module that isn\'t read';
  if (/\.[cm]?js$/.test(entry) && mine.places.length > 0 && mine.places.every((it) => wanted.includes(it))) return 'assignments in JavaScript';
  return mine.ends.includes('unknown') ? 'not known' : `! other places: ${mine.places} (${mine.ends}), and TypeScript's ${wanted}`;
}

for (const { package: name, directory, words = [] } of PACKAGES) {
  test(`${name}: ${directory}`, (t) => {
    const folder = realpathSync(directory);
    const out = answer(['api', folder, ...words]);
    const [mine, wanted] = [ours(out), theirs(folder, out.entries)];
    assert.ok(mine.size > 0);
    /** @type {Map<string, string[]>} */
    const classes = new Map();
    for (const key of new Set([...mine.keys(), ...wanted.places.keys()])) {
      const found = difference(folder, out, key, mine.get(key), wanted);
      if (found !== null) classes.set(found, [...(classes.get(found) ?? []), key]);
    }
    const told = [...classes].map(([it, keys]) => `${it}: ${keys.length}`);
    t.diagnostic(`${out.entries.length} entries, ${mine.size} names${told.length > 0 ? `; ${told.join('; ')}` : ''}`);
    assert.deepEqual([...classes].filter(([it]) => it.startsWith('!')), []);
  });
}
