// Which modules are reached from outside: what users import, what package.json runs, tests, and declarations that count without an import.
import path from 'node:path';

import { foundAt } from '../folder/endings.js';
import { TEST } from '../folder/entries.js';
import { exportsTable, tableTargets } from '../folder/packages.js';
import { isCode } from '../language.js';

/** @typedef {import('../folder/folder.js').Folder} Folder */

/** A path in the text of a script. */
const PATH_IN_SCRIPT = /[\w@./-]+\.[mc]?[jt]sx?\b/g;

/** @param {Folder} folder @returns {{ file: string, folder: string, value: any }[]} each package.json of the folder */
export function packagesOf({ sources: { files, configs } }) {
  const found = [...files.all].filter((it) => path.posix.basename(it) === 'package.json' && files.holds(it)).sort();
  return found.flatMap((file) => (configs.value(file) ? [{ file, folder: path.posix.dirname(file), value: configs.value(file) }] : []));
}

/** @param {unknown} value @returns {string[]} the texts that it is, or has */
function textsOf(value) {
  if (typeof value === 'string') return [value];
  return Object.values(value ?? {}).filter((it) => typeof it === 'string');
}

/** @param {any} value of a package.json @param {boolean} withScripts @returns {string[]} the paths that it runs */
function pathsRun({ bin, scripts }, withScripts) {
  return [...textsOf(bin), ...(withScripts ? textsOf(scripts) : []).flatMap((it) => it.match(PATH_IN_SCRIPT) ?? [])];
}

/** @param {any} value of a package.json @returns {RegExp[]} of paths in the package without their endings: what keys of `exports` with a `*` mean, built or not */
function patternsOf({ exports }) {
  if (exports === null || typeof exports !== 'object') return [];
  const table = exportsTable(exports);
  const targets = Object.keys(table).filter((it) => it.includes('*')).flatMap((it) => tableTargets(table, it));
  const unbuilt = targets.flatMap((it) => {
    const inner = /^(?:\.\/)?[^/.*][^/*]*\/(.+)$/.exec(it);
    return inner ? [it, `src/${inner[1]}`, inner[1]] : [it];
  });
  return unbuilt.map((it) => new RegExp(`^${bare(it.replace(/^\.\//, '')).replace(/[.+?^${}()|[\]\\]/g, '\\$&').replaceAll('*', '.+')}$`));
}

/** @param {string} file @returns {string} without its ending */
function bare(file) {
  return file.replace(/(\.d)?\.[mc]?[jt]sx?$/, '');
}

/** @param {Folder} folder @param {boolean} withScripts @returns {string[]} the specifiers of what package.json runs, or exports by a pattern */
function fromPackages(folder, withScripts) {
  const { files, modules } = folder.sources;
  const found = packagesOf(folder).flatMap((it) => {
    const run = pathsRun(it.value, withScripts).flatMap((word) => foundAt(files, path.posix.join(it.folder, word), false) ?? []);
    const patterns = patternsOf(it.value);
    const below = patterns.length === 0 ? [] : [...files.all].filter((file) => isCode(file) && file.startsWith(`${it.folder}/`));
    return [...run, ...below.filter((file) => patterns.some((pattern) => pattern.test(bare(file.slice(it.folder.length + 1)))))];
  });
  return found.map((file) => folder.sources.specifierOf(file)).filter((it) => modules.has(it));
}

/** @param {Folder} folder @param {string[]} modules their specifiers @returns {Set<string>} the tests among them, examples, scripts, and what configures tools; none where nothing else is there */
export function testsOf(folder, modules) {
  const code = modules.filter((it) => !it.endsWith('.json'));
  const found = code.filter((it) => TEST.test(folder.short(it)));
  return new Set(found.length < code.length ? found : []);
}

/**
 * @param {Folder} folder
 * @param {string[]} modules their specifiers
 * @param {Set<string> | null} tests among them; null where these and scripts are left out
 * @returns {Set<string>} those of them that are reached from outside
 */
export function rootsOf(folder, modules, tests) {
  const outside = new Set([...folder.entries, ...fromPackages(folder, tests !== null)]);
  return new Set(modules.filter((it) => outside.has(it) || tests?.has(it)));
}
