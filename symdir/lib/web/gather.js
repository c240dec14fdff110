// The web of exports: from the entries on, which module passes which names on to which.
import { isDefinition } from '../folder/folder.js';
import { endOf } from '../folder/ends.js';
import { visitPaths } from '../folder/paths.js';

/** @typedef {import('../folder/folder.js').Folder} Folder */
/** @typedef {import('../folder/folder.js').Export} Export */

/** @typedef {{ from: string, to: string, isStar: boolean, names: Set<string> }} Edge names pass from `to` to `from` */
/** @typedef {{ module: string, text: string, isStar: boolean }} Lost an unresolved name or module */
/** @typedef {{ to: string, name: string }} Taken a name of another module */
/** @typedef {{ from: string, to: string, name: string, symbol?: number }} Step of a path, by an import or a re-export that is the symbol */
/** @typedef {{ module: string | null, symbol: number | undefined }} Before a module of a path: the one before it, and the symbol of that which leads there */

/**
 * @typedef {object} Web
 * @property {string[]} entries
 * @property {Map<string, Map<string, number>>} owned by module the public names that it defines, with their lines
 * @property {Edge[]} edges
 * @property {Lost[]} lost
 */

class Gathering {
  /** @param {Folder} folder */
  constructor(folder) {
    this.folder = folder;
    /** @type {Map<string, Edge>} */
    this.edges = new Map();
    /** @type {Map<string, Map<string, number>>} */
    this.owned = new Map(folder.entries.map((it) => [it, new Map()]));
    /** @type {Map<string, Lost>} */
    this.lost = new Map();
    /** @type {Step[]} which leave out modules that pass a name on by `export *` */
    this.hops = [];
  }

  /** @param {string} from @param {string} to @param {boolean} isStar @param {string} name */
  edge(from, to, isStar, name) {
    const key = `${from}\n${to}`;
    const found = this.edges.get(key) ?? { from, to, isStar: false, names: new Set() };
    this.edges.set(key, found);
    found.isStar ||= isStar;
    found.names.add(name);
  }

  /** @param {string} module @param {string} text @param {boolean} isStar */
  loses(module, text, isStar) {
    this.lost.set(`${module}\n${text}`, { module, text, isStar });
  }

  /** @param {string} module @param {string} name @param {number} line */
  owns(module, name, line) {
    const found = this.owned.get(module) ?? new Map();
    this.owned.set(module, found);
    if (!found.has(name)) found.set(name, line);
  }

  /** @param {string} module @param {string} name @param {string | null} last the module before it @param {number} [symbol] of that, which leads there @returns {string} it */
  step(module, name, last, symbol) {
    if (last !== null && last !== module) this.hops.push({ from: last, to: module, name, symbol });
    return module;
  }

  /** @param {any[]} entries of paths @param {string} name */
  walk(entries, name) {
    visitPaths(entries, /** @type {Before} */ ({ module: null, symbol: undefined }), (it, { module, symbol }) => {
      // a statement that stands for a whole module leads there from its own
      const from = it.by ? this.step(it.by.module, name, module, symbol) : module;
      const here = this.step(it.module, name, from, it.by ? undefined : symbol);
      if (isDefinition(it)) this.owns(it.module, name, this.folder.defined(it).line);
      else if (!('next' in it)) this.end(it);
      return { module: here, symbol: it.decl?.[0] };
    });
  }

  /** @param {any} leaf that is no definition */
  end(leaf) {
    const end = endOf(this.folder, leaf);
    if (end?.what === 'import') this.loses(leaf.module, end.name, false);
    if (end?.what === 'name') this.loses(leaf.module, `no ${end.name}`, false);
    if (end?.what === 'external') this.owns(end.name, '', 1);
    if (end?.what === 'unknown') this.owns(leaf.module, end.name, 1);
  }

  async names() {
    const answers = await this.folder.exports(this.folder.entries);
    const all = answers.flatMap((it) => it.exports);
    for (const { unresolved } of answers) for (const [module, text] of unresolved) this.star(module, text);
    const paths = await this.folder.paths(all.map((it) => [it.module, it.symbol]));
    all.forEach((it, i) => {
      const chain = [...it.chain.map(([module]) => module), it.module];
      chain.slice(1).forEach((to, at) => this.edge(chain[at], to, true, it.name));
      this.walk(paths[i], it.name);
    });
  }

  /** @param {string} module @param {string} text of an `export *` with no names */
  star(module, text) {
    const to = this.folder.sources.resolutions.get(module)?.get(text);
    if (to === undefined) this.loses(module, text, true);
    else {
      this.owned.set(to, this.owned.get(to) ?? new Map());
      this.edge(module, to, true, '*');
    }
  }

  /** @param {string} module @returns {string[]} what its statements lead to */
  targets(module) {
    return [...new Set(this.folder.sources.resolutions.get(module)?.values() ?? [])];
  }

  /** @param {string} module @returns {boolean} whether it passes names on by `export *` */
  hasStar(module) {
    return this.folder.sources.modules.get(module)?.parsed.references.some(({ how }) => how === 'export *') ?? false;
  }

  /** @param {string} module @param {Map<string, Export[]>} exports @returns {Promise<Map<number | undefined, Taken>>} what each symbol of an import or a re-export takes */
  async takenBy(module, exports) {
    const { sources } = this.folder;
    const rows = (sources.modules.get(module)?.parsed.references ?? []).flatMap(({ how, text, names }) => {
      const to = sources.resolutions.get(module)?.get(text);
      return to === undefined ? [] : names.map(([name, local, scope]) => ({ isExport: how === 'export', to: sources.typed(to), name, local, scope }));
    });
    const answers = await this.folder.ask(rows.flatMap((it) => (it.isExport ? [] : [['symbol', module, it.local, it.scope]])));
    const own = new Map((exports.get(module) ?? []).filter((it) => it.module === module).map((it) => [it.name, it.symbol]));
    return new Map(rows.map((it) => [it.isExport ? own.get(it.local) : answers.shift()?.symbol, { to: it.to, name: it.name }]));
  }

  /** Finds for each step the modules between: those that pass the name on by `export *`. */
  async between() {
    const open = [...new Set(this.hops.map(({ from }) => from))].filter((from) => this.targets(from).some((it) => this.hasStar(it)));
    const modules = [...new Set(open.flatMap((it) => [it, ...this.targets(it)]))];
    const exports = new Map((await this.folder.exports(modules)).map((it, i) => [modules[i], it.exports]));
    const taken = new Map(await Promise.all(open.map(async (it) => /** @type {const} */ ([it, await this.takenBy(it, exports)]))));
    for (const { from, to, name, symbol } of this.hops) {
      const by = taken.get(from)?.get(symbol);
      const found = by && exports.get(by.to)?.find((it) => it.name === by.name && it.module === to);
      const way = [...(found?.chain.map(([module]) => module) ?? []), to];
      this.edge(from, way[0], false, name);
      way.slice(1).forEach((it, i) => this.edge(way[i], it, true, name));
    }
  }
}

/** @param {Folder} folder @returns {Promise<Web>} */
export async function gather(folder) {
  const all = new Gathering(folder);
  await all.names();
  await all.between();
  return { entries: folder.entries, owned: all.owned, edges: [...all.edges.values()], lost: [...all.lost.values()] };
}
