// What in a folder leads to a declaration: questions to symq on each name that may.
import { isDefinition } from '../folder/folder.js';
import { definitionsOf } from './ends.js';
import { linksOf } from './links.js';
import { Tree } from './tree.js';

/** @typedef {import('../folder/folder.js').Folder} Folder */
/** @typedef {import('../folder/folder.js').Definition} Definition */
/** @typedef {import('../folder/sources.js').Module} Module */

/**
 * @typedef {object} Use
 * @property {string} file
 * @property {number} line
 * @property {number} column
 * @property {'import' | 'import type' | 're-export' | 'export *' | 'export' | 'reference'} how
 * @property {boolean} isType whether types alone need it
 */

/** @typedef {{ module: string, start: number, how: Use['how'], isType: boolean, query: [string, unknown[]] }} Candidate a name that may lead there, and what is asked of which module */

/** @param {{ module: string, symbol: number }} it @returns {string} */
function keyOf({ module, symbol }) {
  return `${symbol} ${module}`;
}

export class Finder {
  /** @param {Folder} folder @param {Definition[][]} targets */
  constructor(folder, targets) {
    this.folder = folder;
    this.count = targets.length;
    /** @type {Map<string, number[]>} which targets a definition is of */
    this.targets = new Map();
    targets.forEach((list, i) => list.forEach((it) => {
      const known = this.targets.get(keyOf(it));
      if (!known) this.targets.set(keyOf(it), [i]);
      else if (!known.includes(i)) known.push(i);
    }));
    this.modules = new Set(targets.flat().map((it) => it.module));
  }

  /** @returns {Promise<Use[][]>} of each target, by file, line and column */
  async find() {
    const own = [...this.folder.sources.modules.values()].filter((it) => this.folder.sources.files.holds(it.file));
    const candidates = (await this.leading(own)).flatMap((it) => this.candidates(it));
    const answers = await this.folder.resolve(candidates.map((it) => it.query));
    /** @type {Map<string, Use>[]} */
    const found = Array.from({ length: this.count }, () => new Map());
    candidates.forEach((it, i) => {
      for (const end of definitionsOf(answers[i])) this.add(found, it, end);
    });
    await this.stars(own, found);
    return found.map((it) => [...it.values()].sort((a, b) => (a.file < b.file ? -1 : a.file > b.file ? 1 : a.line - b.line || a.column - b.column)));
  }

  /**
   * @param {Module[]} own
   * @returns {Promise<Module[]>} those in which something may lead to a target: an imported name does, or a part of a module that is
   *   imported as a whole may
   */
  async leading(own) {
    const asked = own.flatMap((module) => module.parsed.references.flatMap(({ text, names }) => names.filter(([name]) => name !== '*').map(([name]) => ({
      module, query: /** @type {[string, unknown[]]} */ ([module.specifier, ['import', text, [name]]]) }))));
    const answers = await this.folder.resolve(asked.map((it) => it.query));
    const isWhole = (/** @type {Module} */ it) => it.parsed.references.some(({ how, names }) => how === 'import type' || names.some(([name]) => name === '*'));
    const found = new Set(own.filter((it) => this.modules.has(it.specifier) || isWhole(it)));
    asked.forEach(({ module }, i) => void (definitionsOf(answers[i]).some((it) => this.targets.has(keyOf(it))) && found.add(module)));
    return own.filter((it) => found.has(it));
  }

  /** @param {Map<string, Use>[]} found @param {Omit<Candidate, 'query'>} it @param {{ module: string, symbol: number }} end */
  add(found, { module, start, how, isType }, end) {
    for (const i of this.targets.get(keyOf(end)) ?? []) {
      const key = `${start} ${module}`;
      if (!found[i].has(key)) found[i].set(key, { ...this.folder.place(module, start), how, isType });
    }
  }

  /** @param {Module} module @returns {Candidate[]} the names that it takes of others, and those in it that may stand for them */
  candidates(module) {
    const tree = Tree.of(module);
    const { specifier } = module;
    const links = linksOf(this.folder, module, tree);
    const taken = links.flatMap(({ text, how, taken: names }) => names.filter((it) => it.name !== '*').map((it) => ({
      module: specifier, start: it.start, how: how === 'export' ? /** @type {const} */ ('re-export') : /** @type {Use['how']} */ (how),
      isType: it.isType, query: /** @type {[string, unknown[]]} */ ([specifier, ['import', text, [it.name]]]) })));
    return [...taken, ...this.required(links, specifier, tree), ...this.qualified(specifier, tree), ...this.lookedUp(module, tree)];
  }

  /** @param {import('./links.js').Link[]} links @param {string} module @param {Tree} tree @returns {Candidate[]} the `a` of each `import a = require(..)` */
  required(links, module, tree) {
    const types = new Map(links.filter((it) => it.how === 'require').map((it) => [it.start, it.isType]));
    return tree.nodes.filter(({ kind, external }) => kind === 'TsImportEqualsDecl' && external !== undefined).map(({ id, range }) => {
      const { sym, range: [start] } = tree.nodes[id];
      const [name, scope] = /** @type {[string, number]} */ (sym);
      return { module, start, how: /** @type {const} */ ('import'), isType: types.get(range[0]) ?? false,
        query: /** @type {[string, unknown[]]} */ ([module, ['id', name, scope]]) };
    });
  }

  /** @param {string} module @param {Tree} tree @returns {Candidate[]} names behind the first one of `import("text").a.b` */
  qualified(module, tree) {
    const types = tree.nodes.filter(({ kind, qualifier }) => kind === 'TsImportType' && qualifier !== undefined);
    return types.flatMap(({ arg, qualifier }) => tree.dotted(qualifier).slice(1).map(({ parts, start }) => ({
      module, start, how: /** @type {const} */ ('import type'), isType: true,
      query: /** @type {[string, unknown[]]} */ ([module, ['import', arg, parts]]) })));
  }

  /** @param {Module} module @param {Tree} tree @returns {Candidate[]} */
  lookedUp({ specifier, parsed }, tree) {
    const isOwn = this.modules.has(specifier);
    const aliases = new Set(parsed.references.flatMap(({ names }) => names.map(([, local, scope]) => `${scope} ${local}`)));
    for (const { kind, id } of tree.nodes) if (kind === 'TsImportEqualsDecl') aliases.add(aliasKey(tree.nodes[id].sym));
    const names = tree.names().filter((i) => isOwn || aliases.has(aliasKey(tree.nodes[i].sym)));
    return names.flatMap((i) => tree.lookups(i).map(({ name, scope, parts, start, isType }) => ({
      module: specifier, start, isType, how: tree.stand(i) === 'ExportSpecifier orig' ? /** @type {const} */ ('export') : /** @type {const} */ ('reference'),
      query: /** @type {[string, unknown[]]} */ ([specifier, parts.length === 0 ? ['id', name, scope] : ['qualified', name, scope, parts]]) })));
  }

  /** @param {Module[]} own @param {Map<string, Use>[]} found is given the statements `export *` that pass a target on */
  async stars(own, found) {
    const all = own.flatMap(({ specifier, parsed }) => parsed.references.filter(({ how }) => how === 'export *')
      .map(({ text, start }) => ({ specifier, text, start })));
    const modules = [...new Set(all.map((it) => it.specifier))];
    const exports = await this.folder.exports(modules);
    const passed = exports.flatMap((it, i) => it.exports.filter((row) => row.chain.length > 0).map((row) => ({ module: modules[i], row })));
    const leaves = await this.folder.leaves(passed.map(({ row }) => [row.module, row.symbol]));
    const starts = new Map(all.map(({ specifier, text, start }) => [`${specifier}\n${text}`, start]));
    passed.forEach(({ module, row: { chain: [[, text]] } }, i) => {
      const start = starts.get(`${module}\n${text}`);
      if (start === undefined) return;
      for (const it of leaves[i].filter(isDefinition)) this.add(found, { module, start, how: 'export *', isType: false }, it);
    });
  }
}

/** @param {[string, number] | undefined} sym @returns {string} */
function aliasKey(sym) {
  return sym ? `${sym[1]} ${sym[0]}` : '';
}
