// Other names of modules, as configuration files give them: `paths` and `baseUrl` of TypeScript, import maps, `imports` of Deno.
import path from 'node:path';

/** @typedef {import('./configs.js').Configs} Configs */

/**
 * @typedef {object} Paths
 * @property {string | null} base where `baseUrl` leads
 * @property {Record<string, string[]>} paths
 * @property {string} from what the paths are relative to
 */

/**
 * Where the text of `extends` leads.
 * @param {Configs} configs
 * @param {string} text
 * @param {string} folder of the file that says it
 * @returns {string | null}
 */
function extended(configs, text, folder) {
  const ends = ['', '.json', '/tsconfig.json'];
  if (/^\.{0,2}\//.test(text)) return ends.map((it) => path.posix.resolve(folder, text) + it).find((it) => configs.value(it)) ?? null;
  for (let at = folder; ; at = path.posix.dirname(at)) {
    const found = ends.map((it) => path.posix.join(at, 'node_modules', text) + it).find((it) => configs.value(it));
    if (found || at === path.posix.dirname(at)) return found ?? null;
  }
}

/** @typedef {{ base?: string, paths?: Record<string, string[]>, folder?: string }} Said by a file: `baseUrl`, `paths`, and the folder of the file that says these */

/** @param {Configs} configs @param {string} file @param {number} [depth] @returns {Said} with what it extends, of which its own words win */
function saidBy(configs, file, depth = 0) {
  const folder = path.posix.dirname(file);
  const { extends: above, compilerOptions } = configs.value(file);
  const { baseUrl, paths } = table(compilerOptions);
  /** @type {Said} */
  let found = {};
  for (const it of [above ?? []].flat()) {
    const next = typeof it === 'string' && depth < 20 ? extended(configs, it, folder) : null;
    if (next) found = { ...found, ...saidBy(configs, next, depth + 1) };
  }
  if (typeof baseUrl === 'string') found.base = path.posix.resolve(folder, baseUrl);
  if (paths && typeof paths === 'object') found = { ...found, paths, folder };
  return found;
}

/** @param {Configs} configs @param {string} file @returns {Paths} */
function pathsOf(configs, file) {
  const { base = null, paths = {}, folder = '/' } = saidBy(configs, file);
  return { base, paths, from: base ?? folder };
}

/** @param {Configs} configs @param {string} file @param {number} [depth] @returns {boolean | null} as the file says, or else what it extends last; null where none says it */
function verbatim(configs, file, depth = 0) {
  const { extends: above, compilerOptions } = configs.value(file);
  const own = table(compilerOptions).verbatimModuleSyntax;
  if (typeof own === 'boolean') return own;
  const files = [above ?? []].flat().flatMap((it) => (typeof it === 'string' && depth < 20 ? extended(configs, it, path.posix.dirname(file)) ?? [] : []));
  return files.map((it) => verbatim(configs, it, depth + 1)).reverse().find((it) => it !== null) ?? null;
}

/** @param {Configs} configs @param {string} folder @returns {boolean} whether `verbatimModuleSyntax` leaves only `import type` and `export type` out of what is emitted for modules of the folder */
export function keepsImports(configs, folder) {
  const found = configs.nearest(folder, ['tsconfig.json', 'jsconfig.json']);
  return found !== null && verbatim(configs, found.file) === true;
}

/**
 * What stands for `*` where the text is of the pattern.
 * @param {string} pattern with one `*` at most
 * @param {string} text
 * @returns {string | null}
 */
export function starOf(pattern, text) {
  const star = pattern.indexOf('*');
  if (star < 0) return pattern === text ? '' : null;
  const [before, behind] = [pattern.slice(0, star), pattern.slice(star + 1)];
  const fits = text.length >= pattern.length - 1 && text.startsWith(before) && text.endsWith(behind);
  return fits ? text.slice(star, text.length - behind.length) : null;
}

/** @param {string[]} patterns @param {string} text @returns {string | null} the whole text, else the pattern with the longest beginning */
export function bestPattern(patterns, text) {
  const fitting = patterns.filter((it) => starOf(it, text) !== null);
  if (fitting.includes(text)) return text;
  return fitting.reduce((/** @type {string | null} */ best, it) => (best !== null && best.indexOf('*') >= it.indexOf('*') ? best : it), null);
}

/** @param {Configs} configs @param {string} folder @returns {Paths | null} what tsconfig.json or jsconfig.json say for modules of the folder */
export function typeScriptPaths(configs, folder) {
  const found = configs.nearest(folder, ['tsconfig.json', 'jsconfig.json']);
  return found && pathsOf(configs, found.file);
}

/**
 * Where `paths` and `baseUrl` say that a text may lead.
 * @param {Paths} paths
 * @param {string} text
 * @returns {string[]} absolute paths, of which the first with a file counts
 */
export function pathsFor(paths, text) {
  const pattern = bestPattern(Object.keys(paths.paths), text);
  const targets = pattern === null ? [] : [paths.paths[pattern]].flat();
  const star = pattern === null ? '' : /** @type {string} */ (starOf(pattern, text));
  const found = targets.filter((it) => typeof it === 'string').map((it) => path.posix.resolve(paths.from, it.replace('*', () => star)));
  if (paths.base) found.push(path.posix.resolve(paths.base, text));
  return found;
}

/**
 * @typedef {object} ImportMap
 * @property {string} folder of the file that has it, and which relative targets start at
 * @property {Record<string, string>} imports
 * @property {Record<string, Record<string, string>>} scopes
 */

/** @param {Configs} configs @param {string} folder @returns {ImportMap | null} of deno.json, or of the file that it names */
export function importMap(configs, folder) {
  const found = configs.nearest(folder, ['deno.json', 'deno.jsonc', 'import_map.json', 'importmap.json']);
  if (!found) return null;
  const named = found.value.importMap;
  const file = typeof named === 'string' ? path.posix.resolve(found.folder, named) : found.file;
  const value = configs.value(file);
  if (!value) return null;
  const scopes = Object.entries(table(value.scopes)).map(([key, imports]) => [key, table(imports)]);
  return { folder: path.posix.dirname(file), imports: table(value.imports), scopes: Object.fromEntries(scopes) };
}

/** @param {any} value of a configuration file @returns {Record<string, any>} nothing where it is no object */
function table(value) {
  return value !== null && typeof value === 'object' && !Array.isArray(value) ? value : {};
}

/** @param {Record<string, string>} imports @param {string} text @returns {string | null} the whole text's target, else that of the longest `key/` */
function mapped(imports, text) {
  if (typeof imports[text] === 'string') return imports[text];
  const keys = Object.keys(imports).filter((it) => it.endsWith('/') && text.startsWith(it) && typeof imports[it] === 'string');
  const key = keys.sort((a, b) => b.length - a.length)[0];
  return key === undefined ? null : imports[key] + text.slice(key.length);
}

/** @param {string} scope absolute @param {boolean} isDirectory @param {string} module @returns {boolean} whether the module is in the directory, or is the scope itself */
function isWithin(scope, isDirectory, module) {
  return isDirectory ? module.startsWith(scope === '/' ? '/' : `${scope}/`) : module === scope;
}

/**
 * What an import map makes of a text.
 * @param {ImportMap} map
 * @param {string} text
 * @param {string} from the module
 * @returns {string | null} a specifier, or an absolute path
 */
export function mappedText(map, text, from) {
  const inScope = Object.keys(map.scopes).filter((it) => isWithin(path.posix.resolve(map.folder, it), it.endsWith('/'), from)).sort((a, b) => b.length - a.length);
  for (const imports of [...inScope.map((it) => map.scopes[it]), map.imports]) {
    const target = mapped(imports, text);
    if (target !== null) return /^\.{0,2}\//.test(target) ? path.posix.resolve(map.folder, target) + (target.endsWith('/') ? '/' : '') : target;
  }
  return null;
}
