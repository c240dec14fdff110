// What a package.json says: which file stands for the package, or for a path in it.
import path from 'node:path';

import { bestPattern, starOf } from './aliases.js';
import { foundAt } from './endings.js';

/** @typedef {import('./endings.js').Known} Known */

/** In `exports` the first of a condition's object that is one of these counts. */
const CONDITIONS = new Set(['types', 'import', 'module', 'node', 'deno', 'bundler', 'default', 'require']);

/** @param {any} target of `exports` or `imports` @returns {string[]} the texts that it leads to, in its order */
function targetsOf(target) {
  if (typeof target === 'string') return [target];
  if (Array.isArray(target)) return target.flatMap(targetsOf);
  if (target === null || typeof target !== 'object') return [];
  const isFor = (/** @type {string} */ it) => CONDITIONS.has(it) || it.startsWith('types@');
  return Object.keys(target).filter(isFor).flatMap((it) => targetsOf(target[it]));
}

/** @param {any} exports @returns {Record<string, any>} by paths from `.` on */
export function exportsTable(exports) {
  const isTable = exports !== null && typeof exports === 'object' && !Array.isArray(exports) && Object.keys(exports).some((it) => it.startsWith('.'));
  return isTable ? exports : { '.': exports };
}

/**
 * The files that a table of `exports` or `imports` may mean.
 * @param {Record<string, any>} table
 * @param {string} key as `.`, `./sub` or `#name`
 * @returns {string[]} relative to the package, or names of packages
 */
export function tableTargets(table, key) {
  const pattern = bestPattern(Object.keys(table), key);
  if (pattern === null) return [];
  const star = /** @type {string} */ (starOf(pattern, key));
  return targetsOf(table[pattern]).map((it) => it.replaceAll('*', () => star));
}

/**
 * The file that a target of a package means; where that isn't built yet, the source that it would be built from: what stands
 * under `src` or the package itself in place of the folder of what is built.
 * @param {Known} files
 * @param {string} folder
 * @param {string} target
 * @param {boolean} fromJavaScript
 * @returns {string | null}
 */
function inPackage(files, folder, target, fromJavaScript) {
  const built = /^(?:\.\/)?[^/.][^/]*\/(.+)$/.exec(target);
  const sources = built ? [`src/${built[1]}`, built[1]] : [];
  for (const it of [target, ...sources.map((source) => source.replace(/\.d\.([mc]?)ts$/, '.$1js'))]) {
    const found = foundAt(files, path.posix.join(folder, it), fromJavaScript);
    if (found) return found;
  }
  return null;
}

/** @param {any} json @returns {string[]} what stands for the package where no `exports` do, the types first */
function mains(json) {
  return [json.types, json.typings, json.module, json.main].filter((it) => typeof it === 'string');
}

/**
 * The file that a package means by its name, or by its name and a path.
 * @param {Known} files
 * @param {string} folder of the package
 * @param {any} json its package.json, `{}` where it has none
 * @param {string} sub the path, empty for the package
 * @param {boolean} fromJavaScript
 * @param {boolean} [isStrict] whether `exports`, where there are any, alone count, and not what stands beside them
 * @returns {string | null}
 */
export function packageFile(files, folder, json, sub, fromJavaScript, isStrict = false) {
  if (json.exports !== undefined && json.exports !== null) {
    for (const it of tableTargets(exportsTable(json.exports), sub ? `./${sub}` : '.')) {
      const file = inPackage(files, folder, it, fromJavaScript);
      if (file) return file;
    }
    if (isStrict) return null;
  }
  if (sub) return inPackage(files, folder, sub, fromJavaScript);
  for (const it of mains(json)) {
    const file = inPackage(files, folder, it, fromJavaScript);
    if (file) return file;
  }
  return inPackage(files, folder, 'index', fromJavaScript);
}

/**
 * Each file that users of a package may import.
 * @param {Known} files
 * @param {string} folder
 * @param {any} json
 * @returns {{ found: string[], targets: string[] }} files, and all that it names, there or not
 */
export function packageEntries(files, folder, json) {
  const table = json.exports === undefined || json.exports === null ? null : exportsTable(json.exports);
  const keys = table ? Object.keys(table).filter((it) => it.startsWith('.') && !it.includes('*')) : [];
  const lists = keys.map((key) => tableTargets(/** @type {any} */ (table), key).filter((it) => !/\.(json|css)$/.test(it)));
  const own = mains(json);
  const primary = keys.includes('.') ? [] : [own];
  const found = [...primary, ...lists.map((it, i) => (keys[i] === '.' ? [...it, ...own] : it))].flatMap((targets) => {
    const file = targets.map((it) => inPackage(files, folder, it, false)).find((it) => it !== null);
    return file ? [file] : [];
  });
  return { found: [...new Set(found)], targets: [...lists.flat(), ...own] };
}

/** @param {any} json @returns {string[]} the names of the packages that it says it needs */
export function dependencies(json) {
  return ['dependencies', 'devDependencies', 'peerDependencies', 'optionalDependencies'].flatMap((it) => Object.keys(json?.[it] ?? {}));
}
