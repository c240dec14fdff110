// What the text of an import stands for.
import { builtinModules } from 'node:module';
import path from 'node:path';
import { fileURLToPath } from 'node:url';

import { bestPattern, importMap, mappedText, pathsFor, typeScriptPaths } from './aliases.js';
import { isJavaScript } from '../language.js';
import { dependencies, packageFile, tableTargets } from './packages.js';
import { fileAt } from './endings.js';
import { isFolder, withSlashes } from './files.js';

/**
 * @typedef {object} Target
 * @property {string} [file] absolute
 * @property {string} [external] the specifier of a module that isn't a file of the folder: of a scheme, as `npm:a`
 */

const BUILTIN = new Set(builtinModules);
const SCHEME = /^[a-z][a-z0-9+.-]*:/i;

export class Resolver {
  /** @param {import('./files.js').Files} files @param {import('./configs.js').Configs} configs */
  constructor(files, configs) {
    this.files = files;
    /** @type {import('./endings.js').Known} those that have types */
    this.typed = { has: (it) => /\.[mc]?tsx?$/.test(it) && files.has(it) };
    this.configs = configs;
    /** @type {Map<string, string> | null} */
    this.named = null;
    /** @type {Map<string, any>} */
    this.paths = new Map();
    /** @type {Map<string, any>} */
    this.maps = new Map();
    /** @type {Map<string, Target | null>} by the folder that asks, or by the module where an import map has scopes, and the text */
    this.known = new Map();
  }

  /**
   * @param {string} from the module, absolute
   * @param {string} text
   * @returns {Target | null} null where it is unresolved
   */
  resolve(from, text) {
    const folder = path.posix.dirname(from);
    const map = this.mapOf(folder);
    const asks = map && Object.keys(map.scopes).length > 0 ? from : `${folder}${isJavaScript(from) ? '/*.js' : ''}`;
    return kept(this.known, `${asks}\n${text}`, () => this.plain(from, folder, (map && mappedText(map, text, from)) ?? text));
  }

  /** @param {string} folder @returns {import('./aliases.js').ImportMap | null} */
  mapOf(folder) {
    return kept(this.maps, folder, () => importMap(this.configs, folder));
  }

  /** @param {string} folder @returns {import('./aliases.js').Paths | null} */
  pathsOf(folder) {
    return kept(this.paths, folder, () => typeScriptPaths(this.configs, folder));
  }

  /** @param {string} from the module @param {string} text @returns {boolean} whether it means a file and no package, by its form or by what configuration files say */
  meansFile(from, text) {
    const folder = path.posix.dirname(from);
    const map = this.mapOf(folder);
    const mapped = (map && mappedText(map, text, from)) ?? text;
    if (/^(\.{0,2}\/|\.{1,2}$|#|file:)/.test(mapped)) return true;
    const patterns = Object.keys(this.pathsOf(folder)?.paths ?? {}).filter((it) => it !== '*');
    return bestPattern(patterns, mapped) !== null;
  }

  /** @param {string} from @param {string} folder @param {string} text behind the import map @returns {Target | null} */
  plain(from, folder, text) {
    if (text.startsWith('file:')) return this.atUrl(from, text);
    if (SCHEME.test(text)) return { external: text };
    if (/^(\.{1,2}(\/|$)|\/)/.test(text)) return this.at(from, path.posix.resolve(folder, text) + (/(^|\/)\.{0,2}\/?$/.test(text) ? '/' : ''));
    if (text === '') return null;
    if (text.startsWith('#')) return this.privateImport(from, folder, text);
    const aliased = this.byPaths(from, folder, text);
    if (aliased) return aliased;
    if (BUILTIN.has(text)) return { external: `node:${text}` };
    return this.package(from, folder, text);
  }

  /** @param {string} from @param {string} at absolute @returns {Target | null} */
  at(from, at) {
    const file = fileAt(this.files, at, isJavaScript(from)) ?? this.inDirectory(from, at);
    return file ? { file } : null;
  }

  /** @param {string} from @param {string} at absolute @returns {string | null} what its package.json names, where `exports` don't count, or its index */
  inDirectory(from, at) {
    const json = this.configs.value(path.posix.join(at, 'package.json'));
    return packageFile(this.files, at, { ...json, exports: undefined }, '', isJavaScript(from));
  }

  /** @param {string} from @param {string} text a URL of a file @returns {Target | null} null where it names another machine, or is no path */
  atUrl(from, text) {
    try {
      return this.at(from, withSlashes(fileURLToPath(text)));
    } catch {
      return null;
    }
  }

  /** @param {string} from @param {string} folder @param {string} text @returns {Target | null} by TypeScript's `paths` and `baseUrl` */
  byPaths(from, folder, text) {
    const paths = this.pathsOf(folder);
    for (const it of paths ? pathsFor(paths, text) : []) {
      const found = this.at(from, it);
      if (found) return found;
    }
    return null;
  }

  /** @param {string} from @param {string} folder @param {string} text as `#name`, which the package's own `imports` tell */
  privateImport(from, folder, text) {
    const own = this.configs.packageAt(folder);
    for (const it of own ? tableTargets(own.value.imports ?? {}, text) : []) {
      const found = it.startsWith('.') ? this.at(from, path.posix.resolve(/** @type {any} */ (own).folder, it)) : this.package(from, folder, it);
      if (found) return found;
    }
    return this.byPaths(from, folder, text);
  }

  /** @returns {Map<string, string>} the packages of the folder, by their names */
  packages() {
    if (!this.named) {
      this.named = new Map();
      const configs = [...this.files.all].filter((it) => /\/(package\.json|deno\.jsonc?)$/.test(it)).sort((a, b) => b.length - a.length);
      for (const file of configs) {
        const name = this.configs.value(file)?.name;
        if (typeof name === 'string' && name !== '') this.named.set(name, path.posix.dirname(file));
      }
    }
    return this.named;
  }

  /** @param {string} from @param {string} folder @param {string} text a package's name, and maybe a path @returns {Target | null} */
  package(from, folder, text) {
    const parts = /^(@[^/]+\/[^/]+|[^/]+)(?:\/(.*))?$/.exec(text);
    if (!parts) return null;
    const [, name, sub = ''] = parts;
    const own = this.packages().get(name);
    if (own) {
      const found = this.inFolder(own, sub, from);
      if (found) return { file: found };
    }
    const installed = this.installed(folder, name, sub, from);
    if (installed) return { file: installed };
    return this.isKnown(folder, name) ? { external: `npm:${text}` } : null;
  }

  /** @param {string} at @param {string} sub @param {string} from @param {import('./endings.js').Known} [files] @returns {string | null} */
  inFolder(at, sub, from, files = this.files) {
    const json = this.configs.value(path.posix.join(at, 'package.json')) ?? this.configs.value(path.posix.join(at, 'deno.json')) ?? {};
    return packageFile(files, at, json, sub, isJavaScript(from), files === this.typed);
  }

  /** @param {string} folder @param {string} name @param {string} sub @param {string} from @returns {string | null} in node_modules, here or above; for TypeScript what has types goes first, wherever it is */
  installed(folder, name, sub, from) {
    const folders = [...nodeModules(folder)].flatMap((it) => [name, typesOf(name)].map((one) => path.posix.join(it, one)));
    for (const files of isJavaScript(from) ? [this.files] : [this.typed, this.files]) {
      for (const it of folders) {
        const found = this.inFolder(it, sub, from, files);
        if (found) return found;
      }
    }
    return null;
  }

  /** @param {string} folder @param {string} name @returns {boolean} whether a package.json here or above says that the package is needed, or its folder is there */
  isKnown(folder, name) {
    for (let at = folder; ; at = path.posix.dirname(at)) {
      if (dependencies(this.configs.value(path.posix.join(at, 'package.json'))).includes(name)) return true;
      if (isFolder(path.posix.join(at, 'node_modules', name))) return true;
      if (at === path.posix.dirname(at)) return false;
    }
  }
}

/** @param {string} folder @returns {Generator<string>} the folders of packages that it sees, the nearest first */
function* nodeModules(folder) {
  for (let at = folder; ; at = path.posix.dirname(at)) {
    yield path.posix.join(at, 'node_modules');
    if (at === path.posix.dirname(at)) return;
  }
}

/** @param {string} name of a package @returns {string} that of the package with its types, where it has none itself */
function typesOf(name) {
  return `@types/${name.replace(/^@/, '').replace('/', '__')}`;
}

/**
 * @template T
 * @param {Map<string, T>} map
 * @param {string} key
 * @param {() => T} make
 * @returns {T}
 */
function kept(map, key, make) {
  if (!map.has(key)) map.set(key, make());
  return /** @type {T} */ (map.get(key));
}
