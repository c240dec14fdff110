// Which modules the users of a folder import.
import path from 'node:path';

import { Failure } from '../failure.js';
import { isJavaScript } from '../language.js';
import { exportsTable, packageEntries, tableTargets } from './packages.js';
import { foundAt } from './endings.js';

/** @typedef {import('./sources.js').Sources} Sources */

/** Where the one module that stands for a folder mostly is. */
const USUAL = ['index', 'src/index', 'mod', 'src/mod', 'lib/index', 'main', 'src/main'];
export const TEST = /(^|\/)(tests?|__tests__|specs?|examples?|scripts?|benchmarks?)\/|[._](test|spec|stories|config|bench)\.[a-z.]+$/;

/** @param {Sources} sources @param {string} file @returns {string | null} the specifier of the module; of JavaScript, of that with its types */
function moduleAt(sources, file) {
  return sources.modules.get(sources.specifierOf(file))?.specifier ?? sources.typesOf({ file });
}

/** @param {Sources} sources @param {string} word as it is given, relative to the folder or to where the command runs */
function named(sources, word) {
  for (const base of [sources.folder, process.cwd()]) {
    const file = foundAt(sources.files, path.resolve(base, word), isJavaScript(word));
    const found = file && moduleAt(sources, file);
    if (found) return found;
  }
  throw new Failure(`no such module: ${word} in ${sources.folder}`, 2);
}

/** @param {Sources} sources @param {string} folder of a package @returns {string[]} what its package.json or deno.json says */
function saidBy(sources, folder) {
  const json = sources.configs.value(path.posix.join(folder, 'package.json'));
  const deno = sources.configs.value(path.posix.join(folder, 'deno.json')) ?? sources.configs.value(path.posix.join(folder, 'deno.jsonc'));
  const found = json ? packageEntries(sources.files, folder, json).found : [];
  if (deno?.exports !== undefined) {
    const table = exportsTable(deno.exports);
    for (const key of Object.keys(table)) {
      const file = tableTargets(table, key).map((it) => foundAt(sources.files, path.posix.join(folder, it), false)).find((it) => it !== null);
      if (file) found.push(file);
    }
  }
  return found.flatMap((it) => moduleAt(sources, it) ?? []);
}

/** @param {Sources} sources @param {string} folder @returns {string[]} */
function usual(sources, folder) {
  for (const it of USUAL) {
    const file = foundAt(sources.files, path.posix.join(folder, it), false);
    const found = file && moduleAt(sources, file);
    if (found) return [found];
  }
  return [];
}

/** @param {Sources} sources @returns {string[]} the folders in it that are packages, where it is none itself */
function innerPackages(sources) {
  const inner = [...sources.files.all].filter((it) => /\/(package\.json|deno\.jsonc?)$/.test(it)).map((it) => path.posix.dirname(it));
  return [...new Set(inner)].filter((it) => it !== sources.folder && !TEST.test(`${sources.files.below(it)}/`)).sort();
}

/** @param {Sources} sources @returns {string[]} modules that no other one imports; tests and their like only where there are no others */
function roots(sources) {
  const imported = new Set([...sources.resolutions].flatMap(([from, table]) => [...table.values()].filter((it) => it !== from)));
  const all = [...sources.modules.values()].filter((it) => !it.file.endsWith('.json') && sources.files.holds(it.file)).map((it) => it.specifier);
  const found = all.filter((it) => !imported.has(it));
  const own = found.filter((it) => !TEST.test(it));
  return [own, found, all].find((it) => it.length > 0) ?? [];
}

/** @param {Sources} sources @param {string[]} words of `--entry` @returns {string[]} the entries by what is named, by packages and by names of files; none where these say nothing */
function saidEntries(sources, words) {
  if (words.length > 0) return [...new Set(words.map((it) => named(sources, it)))];
  const own = saidBy(sources, sources.folder);
  if (own.length > 0) return [...new Set(own)];
  const found = usual(sources, sources.folder);
  if (found.length > 0) return found;
  const all = innerPackages(sources);
  const open = all.filter((it) => sources.configs.value(path.posix.join(it, 'package.json'))?.private !== true);
  const inner = (open.length > 0 ? open : all).flatMap((it) => {
    const said = saidBy(sources, it);
    return said.length > 0 ? said : usual(sources, it);
  });
  return [...new Set(inner)];
}

/** @type {WeakMap<import('./resolve.js').Resolver, { key: string, found: string[] }>} what was said by the files and the configurations that it resolves by */
const SAID = new WeakMap();

/**
 * The specifiers of the modules that users import: those that are named; else what the package says, or each package in the
 * folder; else the usual one; else those that no other module imports.
 * @param {Sources} sources
 * @param {string[]} words of `--entry`
 * @returns {string[]}
 */
export function entriesOf(sources, words) {
  const key = JSON.stringify([words, [...sources.modules.keys()]]);
  const known = SAID.get(sources.resolver);
  const found = known?.key === key ? known.found : saidEntries(sources, words);
  SAID.set(sources.resolver, { key, found });
  return found.length > 0 ? found : roots(sources);
}
