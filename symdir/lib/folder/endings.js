// Which file a path without its ending means, or with that of what it is compiled to, as Node, TypeScript and bundlers read it.
import path from 'node:path';

/** @typedef {{ has: (file: string) => boolean }} Known the files that may be meant */

const TYPESCRIPT = ['.ts', '.tsx', '.d.ts', '.mts', '.cts', '.d.mts', '.d.cts'];
const JAVASCRIPT = ['.js', '.jsx', '.mjs', '.cjs'];

/** What may stand in the place of a file of JavaScript. */
/** @type {[RegExp, string[]][]} */
const SOURCES = [
  [/\.js$/, ['.ts', '.tsx', '.d.ts']],
  [/\.mjs$/, ['.mts', '.d.mts', '.d.ts']],
  [/\.cjs$/, ['.cts', '.d.cts', '.d.ts']],
  [/\.jsx$/, ['.tsx', '.d.ts']],
];

/** @param {string} file @returns {string[]} the sources and declarations that a file of JavaScript may come from */
export function sourcesOf(file) {
  const row = SOURCES.find(([ending]) => ending.test(file));
  return row ? row[1].map((it) => file.replace(row[0], it)) : [];
}

const FOR_TYPESCRIPT = [...TYPESCRIPT, ...JAVASCRIPT, '.json'];
const FOR_JAVASCRIPT = [...JAVASCRIPT, ...TYPESCRIPT, '.json'];

/** @param {Known} files @param {string} bare @param {boolean} fromJavaScript @returns {string | null} the file of itself, or of the sources of what it names */
function itself(files, bare, fromJavaScript) {
  const sources = sourcesOf(bare).find((it) => files.has(it)) ?? null;
  if (sources !== null && !fromJavaScript) return sources;
  return files.has(bare) ? bare : sources;
}

/**
 * The file of a path that may lack its ending: the sources of what it names, itself, and it with an ending.
 * @param {Known} files
 * @param {string} at absolute
 * @param {boolean} fromJavaScript whether a module of JavaScript asks, for which JavaScript goes first
 * @returns {string | null} null for what ends in a slash, too
 */
export function fileAt(files, at, fromJavaScript) {
  if (at.endsWith('/')) return null;
  return itself(files, at, fromJavaScript) ?? withEnding(files, at, fromJavaScript ? FOR_JAVASCRIPT : FOR_TYPESCRIPT);
}

/**
 * The file of a path, or that of `index` in it.
 * @param {Known} files
 * @param {string} at absolute
 * @param {boolean} fromJavaScript
 * @returns {string | null}
 */
export function foundAt(files, at, fromJavaScript) {
  return fileAt(files, at, fromJavaScript) ?? withEnding(files, path.posix.join(at, 'index'), fromJavaScript ? FOR_JAVASCRIPT : FOR_TYPESCRIPT);
}

/** @param {Known} files @param {string} bare @param {string[]} endings @returns {string | null} */
function withEnding(files, bare, endings) {
  for (const it of endings) if (files.has(bare + it)) return bare + it;
  return null;
}
