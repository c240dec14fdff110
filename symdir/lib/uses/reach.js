// Which exported names are used, by whom, and which modules are reached.
import path from 'node:path';

import { linksOf, mentionsOf } from './links.js';
import { rootsOf, testsOf } from './roots.js';
import { Tree } from './tree.js';

/** @typedef {import('../folder/folder.js').Folder} Folder */
/** @typedef {import('../folder/folder.js').Export} Export */
/** @typedef {import('./links.js').Link} Link */

/** @param {string} module that exports the name itself @param {string} name */
export function keyOf(module, name) {
  return `${module}\n${name}`;
}

/** @typedef {{ start: number, local: string | null }} Specifier where an exported name stands, and the module's own name for it */

/** @param {Tree} tree @returns {Map<string, Specifier>} what is exported by its name, or as a namespace */
function specifiersOf({ nodes, above }) {
  return new Map(nodes.flatMap(({ kind, orig, exported, name, range: [start, end] }, i) => {
    if (kind !== 'ExportSpecifier' && kind !== 'ExportNamespace') return [];
    const original = kind === 'ExportNamespace' ? name : nodes[orig].sym?.[0] ?? nodes[orig].value;
    const text = exported ?? original;
    const local = nodes[above[i]].src === undefined ? original : null;
    return [[text, { start: Math.max(start, end - Buffer.byteLength(text)), local }]];
  }));
}

/** @param {Tree} tree @returns {Set<string>} the module's own names that it looks up itself, its export statements apart */
function lookedUp(tree) {
  const found = tree.names().filter((i) => tree.nodes[i].sym?.[1] === 1 && tree.stand(i) !== 'ExportSpecifier orig');
  return new Set(found.map((i) => /** @type {[string, number]} */ (tree.nodes[i].sym)[0]));
}

const ITEM = /^(Import|Export\w+|TsExportAssignment)$/;

/** @param {Tree} tree @returns {boolean} whether a declaration file counts though nothing imports it: it is no module, or adds to others */
function isAmbient({ isDeclaration, nodes }) {
  if (!isDeclaration) return false;
  const items = (nodes[0]?.body ?? []).map((/** @type {number} */ it) => nodes[it]);
  return !items.some((/** @type {any} */ it) => ITEM.test(it.kind)) || nodes.some((it) => it.kind === 'TsModuleDecl' && nodes[it.id].kind === 'Str');
}

/**
 * @typedef {object} Facts what is known of a module
 * @property {Link[]} links imports, and what is mentioned
 * @property {Map<string, Specifier>} specifiers by exported name
 * @property {Set<string>} own names that it looks up itself
 * @property {boolean} isAmbient
 * @property {boolean} isDeclaration
 */

export class Reach {
  /** @param {Folder} folder @param {boolean} isProduction whether tests are left out */
  constructor(folder, isProduction) {
    this.folder = folder;
    const { modules, files } = folder.sources;
    const own = [...modules.values()].filter((it) => files.holds(it.file));
    const tests = testsOf(folder, own.map((it) => it.specifier));
    /** @type {Map<string, Facts>} of the folder's modules, by specifier */
    this.facts = new Map();
    for (const module of own) {
      const isLeftOut = isProduction && tests.has(module.specifier) && !folder.entries.includes(module.specifier);
      if (!isLeftOut) this.facts.set(module.specifier, this.factsOf(module));
    }
    this.roots = rootsOf(folder, [...this.facts.keys()], isProduction ? null : tests);
    /** @type {Map<string, boolean>} names that others use, by `keyOf`: whether for types alone */
    this.used = new Map();
    /** @type {Map<string, Map<string, Export>>} what modules export, by specifier and name */
    this.exports = new Map();
    /** Modules of which all names are used: as values, and for types. */
    this.whole = { values: new Set(), types: new Set() };
  }

  /** @param {import('../folder/sources.js').Module} module @returns {Facts} */
  factsOf(module) {
    const tree = Tree.of(module);
    const links = [...linksOf(this.folder, module, tree), ...mentionsOf(this.folder, module, tree)];
    return { links, specifiers: specifiersOf(tree), own: lookedUp(tree), isAmbient: isAmbient(tree), isDeclaration: tree.isDeclaration };
  }

  /** @returns {Set<string>} the modules that roots lead to, with them */
  reached() {
    const found = new Set([...this.roots, ...[...this.facts].filter(([, it]) => it.isAmbient).map(([it]) => it)]);
    for (const module of found) for (const { to } of this.facts.get(module)?.links ?? []) if (to !== null && this.facts.has(to)) found.add(to);
    return found;
  }

  /** Asks what each module exports, and which names are used. */
  async read() {
    const modules = [...new Set([...this.facts.keys(), ...[...this.facts.values()].flatMap((it) => it.links.flatMap(({ to }) => to ?? []))])];
    const answers = await this.folder.exports(modules);
    answers.forEach((it, i) => this.exports.set(modules[i], new Map(it.exports.map((row) => [row.name, row]))));
    for (const entry of this.folder.entries) this.useAll(entry, false);
    for (const { links } of this.facts.values()) for (const it of links) this.useLink(it);
  }

  /** @param {Export} row @param {boolean} isType */
  use(row, isType) {
    const key = keyOf(row.module, row.name);
    this.used.set(key, isType && (this.used.get(key) ?? true));
  }

  /** @param {string} module @param {boolean} isType */
  useAll(module, isType) {
    const done = isType ? this.whole.types : this.whole.values;
    if (done.has(module)) return;
    done.add(module);
    for (const row of this.exports.get(module)?.values() ?? []) this.use(row, isType);
  }

  /** @param {Link} link */
  useLink({ from, to, taken }) {
    if (to === null || to === from) return;
    const rows = this.exports.get(to);
    for (const { name, isType, parts } of taken) {
      const names = name === '*' ? parts : [name];
      // of `export =` parts are members of what is exported
      if (names === null || names.some((it) => !rows?.has(it))) this.useAll(to, isType);
      else for (const it of names) this.use(/** @type {Export} */ (rows?.get(it)), isType);
    }
  }

  /** @param {string} module @returns {Export[]} the names that it exports itself */
  ownExports(module) {
    return [...this.exports.get(module)?.values() ?? []].filter((it) => it.module === module);
  }

  /** @param {string} module @returns {string} the folder of the package.json that it belongs to; empty where there is none */
  packageOf(module) {
    const { modules, configs } = this.folder.sources;
    const file = /** @type {import('../folder/sources.js').Module} */ (modules.get(module)).file;
    return configs.packageAt(path.posix.dirname(file))?.folder ?? '';
  }
}
