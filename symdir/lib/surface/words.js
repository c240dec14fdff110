// Whether `export type` or `import type` stands on a name's way, so that it can be used as a type alone.
/** @typedef {import('../uses/tree.js').Tree} Tree */
/** @typedef {import('../folder/folder.js').Folder} Folder */
/** @typedef {import('../folder/folder.js').Export} Export */

/** @typedef {{ text: string | null, name: string, isType: boolean }} Step where a name comes from: another module, or a name of the module itself */

/**
 * @typedef {object} Words of a module
 * @property {Map<string, Step>} exports by exported name, but for what is declared behind `export`
 * @property {Map<string, Step>} imports by the module's own name
 * @property {Set<string>} stars the texts of `export type *`
 */

/** @param {Tree} tree @returns {Words} */
function wordsOf({ nodes }) {
  /** @type {Words} */
  const found = { exports: new Map(), imports: new Map(), stars: new Set() };
  for (const node of nodes) {
    const { kind } = node;
    // most nodes are none of these, of which alone more is read
    if (kind !== 'Import' && kind !== 'ExportNamed' && kind !== 'ExportAll') continue;
    const { src, specifiers = [], type_only: all } = node;
    if (kind === 'ExportAll' && all) found.stars.add(src);
    for (const it of specifiers.map((/** @type {number} */ at) => nodes[at])) {
      const { own, name } = kind === 'Import' ? imported(nodes, it) : exported(nodes, it);
      found[kind === 'Import' ? 'imports' : 'exports'].set(own, { text: src ?? null, name, isType: Boolean(all || it.type_only) });
    }
  }
  return found;
}

/** @param {any[]} nodes @param {any} it a specifier */
function imported(nodes, { kind, local, imported: name }) {
  const [own] = nodes[local].sym;
  return { own, name: kind === 'ImportNamed' ? name ?? own : kind === 'ImportDefault' ? 'default' : '*' };
}

/** @param {any[]} nodes @param {any} it a specifier */
function exported(nodes, { kind, orig, exported: own, name }) {
  if (kind === 'ExportNamespace') return { own: name, name: '*' };
  const original = nodes[orig].sym?.[0] ?? nodes[orig].value;
  return { own: own ?? original, name: original };
}

export class TypeWords {
  /** @param {Folder} folder @param {Map<string, Map<string, Export>>} exports by module and name @param {(module: string) => Tree} treeOf of one that is read */
  constructor(folder, exports, treeOf) {
    this.folder = folder;
    this.exports = exports;
    this.treeOf = treeOf;
    /** @type {Map<string, Words | null>} */
    this.modules = new Map();
  }

  /** @param {string} module @returns {Words | null} null where it isn't read */
  of(module) {
    if (!this.modules.has(module)) {
      this.modules.set(module, this.folder.sources.modules.has(module) ? wordsOf(this.treeOf(module)) : null);
    }
    return this.modules.get(module) ?? null;
  }

  /** @param {string} module that exports the name @param {string} name @returns {boolean} */
  isTypeOnly(module, name) {
    const met = new Set();
    for (let [at, wanted] = [module, name]; !met.has(`${at}\n${wanted}`);) {
      met.add(`${at}\n${wanted}`);
      const row = this.exports.get(at)?.get(wanted);
      if (!row) return false;
      if (row.chain.some(([from, text]) => this.of(from)?.stars.has(text))) return true;
      const words = this.of(row.module);
      const step = words?.exports.get(row.name);
      const origin = step && step.text === null ? words?.imports.get(step.name) : step;
      if (step?.isType || origin?.isType) return true;
      const to = origin?.text ? this.folder.sources.resolutions.get(row.module)?.get(origin.text) : undefined;
      if (!origin || to === undefined || origin.name === '*') return false;
      [at, wanted] = [to, origin.name];
    }
    return false;
  }
}
