// Which dependencies of package.json are imported, and for what.
import { readFileSync } from 'node:fs';
import path from 'node:path';

import { isJavaScript } from '../language.js';
import { packagesOf } from './roots.js';

/** @typedef {import('../folder/folder.js').Folder} Folder */
/** @typedef {import('./reach.js').Reach} Reach */

/**
 * A dependency that a package.json names.
 * @typedef {object} Dependency
 * @property {string} name
 * @property {string} file the package.json
 * @property {number} line
 * @property {number} column
 * @property {'values' | 'types' | 'nothing' | 'unknown'} use what it is imported for, where unread JavaScript may import values of what types
 *   need; `unknown` where nothing that is read imports it, and JavaScript of the package isn't read
 */

/** Those of tools stand in `devDependencies`, and aren't imported. */
const FIELDS = ['dependencies', 'optionalDependencies'];

/** @param {string} text of an import @returns {string | null} the package that it names */
export function packageName(text) {
  const found = /^(?:npm:\/?)?(@[^/]+\/[^/@]+|[^/@.][^/@]*)(?:[@/]|$)/.exec(text);
  return found ? found[1] : null;
}

/** @param {string} name of a package @returns {string[]} it, and what it has the types of */
function namesFor(name) {
  const of = /^@types\/(?:(.+)__)?(.+)$/.exec(name);
  return of ? [name, of[1] ? `@${of[1]}/${of[2]}` : of[2]] : [name];
}

/** @param {Reach} reach @returns {Map<string, Map<string, boolean>>} by the folder of a package.json, what is imported below, and whether for types alone */
function imported(reach) {
  /** @type {Map<string, Map<string, boolean>>} */
  const found = new Map();
  for (const [module, { links }] of reach.facts) {
    const at = reach.packageOf(module);
    const names = found.get(at) ?? new Map();
    found.set(at, names);
    for (const { text, isType } of links) {
      const name = packageName(text);
      if (name !== null) names.set(name, isType && (names.get(name) ?? true));
    }
  }
  return found;
}

/** @param {string} text of a package.json @param {string} field @param {string} name @returns {{ line: number, column: number }} where it stands there */
function placeIn(text, field, name) {
  const at = Math.max(0, text.indexOf(JSON.stringify(name), text.indexOf(JSON.stringify(field))));
  const before = text.slice(0, at).split('\n');
  return { line: before.length, column: before[before.length - 1].length + 1 };
}

/** @param {Folder} folder @param {Reach} reach @returns {Dependency[]} */
export function dependenciesOf(folder, reach) {
  const { files, modules, configs } = folder.sources;
  const known = imported(reach);
  const unread = files.code().filter((it) => isJavaScript(it) && !modules.has(folder.sources.specifierOf(it)));
  const partly = new Set(unread.map((it) => configs.packageAt(path.posix.dirname(it))?.folder));
  return packagesOf(folder).flatMap(({ file, folder: at, value }) => {
    const text = readFileSync(file, 'utf8');
    const run = new Set(Object.values(value.scripts ?? {}).flatMap((it) => String(it).split(/[\s/"'=]+/)));
    return FIELDS.flatMap((field) => Object.keys(value[field] ?? {}).map((name) => {
      const isTypes = namesFor(name).flatMap((it) => known.get(at)?.get(it) ?? []);
      const isUsed = run.has(name) || isTypes.includes(false) || (isTypes.length > 0 && partly.has(at));
      const use = isUsed ? 'values' : isTypes.length > 0 ? 'types' : partly.has(at) ? 'unknown' : 'nothing';
      return { name, file: files.below(file), ...placeIn(text, field, name), use: /** @type {Dependency['use']} */ (use) };
    }));
  });
}
