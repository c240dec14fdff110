// The public surface of a folder: each public name and its members, with what is written of their signatures.
import { setImmediate } from 'node:timers/promises';

import { endOf } from '../folder/ends.js';
import { equalsMembers } from '../folder/equals.js';
import { isDefinition } from '../folder/folder.js';
import { Names } from '../folder/names.js';
import { endsOf } from '../folder/paths.js';
import { Tree } from '../uses/tree.js';
import { Namespaces, isNamespace, pathOf } from './namespaces.js';
import { Signatures } from './signature.js';
import { TypeWords } from './words.js';

/** @typedef {import('../folder/folder.js').Folder} Folder */
/** @typedef {import('../folder/folder.js').Definition} Definition */
/** @typedef {import('../folder/folder.js').Export} Export */
/** @typedef {import('../folder/folder.js').Unresolved} Unresolved */

/**
 * A public name, or a member of one.
 * @typedef {object} Item
 * @property {string} entry
 * @property {string} name of a member behind that of what it is one of, as `Shape#at` or `Shape.make`
 * @property {string} kind as `class+namespace`; `?` where it has no definition
 * @property {boolean} isType whether a word `type` on the way leaves it a type alone
 * @property {string[]} files where it is defined, and modules that aren't read
 * @property {string | null} signature as it is written, of overloads with ` & ` between; empty where nothing is; null where it isn't known
 * @property {string} [top] the name that the entry exports: its own, or that of what it is a member of
 * @property {Definition[]} [definitions] of what is read from sources
 * @property {import('../folder/folder.js').Place} [at] where the first of these is, for reports
 */

/** Members of enums have no symbol. */
const NO_SYMBOL = -1;

/** @typedef {{ module: string, symbol: number, above: number }} Member a symbol, and that of what it is a member of */

/** @param {Definition} it @returns {string} */
function symbolKey({ symbol, module }) {
  return `${symbol} ${module}`;
}

/** @param {string[]} texts @returns {string} each once */
function joined(texts) {
  return [...new Set(texts)].join('+');
}

/** @type {WeakMap<import('../folder/kept.js').Parsed, Signatures>} of trees that were read: those that two directories have alike are read once */
const READ = new WeakMap();

/** @param {import('../folder/sources.js').Module | undefined} module @returns {Signatures} without nodes where it isn't read */
function signaturesIn(module) {
  const known = module ? READ.get(module.parsed) : undefined;
  const found = known ?? new Signatures(module ? Tree.of(module) : new Tree('', [], false));
  if (module) READ.set(module.parsed, found);
  return found;
}

class Gathering {
  /** @param {Folder} folder @param {Names} names */
  constructor(folder, names) {
    this.folder = folder;
    this.names = names;
    /** @type {Map<string, Signatures>} */
    this.written = new Map();
    /** @type {Map<string, Namespaces>} */
    this.namespaces = new Map();
    /** @type {WeakMap<Item, Map<string, Set<number>>>} by module the nodes that declare it */
    this.nodes = new WeakMap();
    /** Whether namespaces of some module export by another name, or of elsewhere. */
    this.hasBlocks = [...folder.sources.modules.values()].some((it) => it.parsed.blocks.length > 0);
  }

  /** @param {string} module @returns {Signatures} */
  signatures(module) {
    let found = this.written.get(module);
    if (!found) {
      this.written.set(module, (found = signaturesIn(this.folder.sources.modules.get(module))));
      if (found.tree.nodes.length > 0) this.folder.takeText(module, found.bytes);
    }
    return found;
  }

  /**
   * Reads trees while symq works, as long as that takes.
   * @template T
   * @param {Promise<T>} asked
   * @param {Iterable<string>} modules whose trees are wanted later, most likely
   * @returns {Promise<T>}
   */
  async readUntil(asked, modules) {
    let isThere = false;
    const end = () => void (isThere = true);
    asked.then(end, end);
    for (const it of modules) {
      // what symq says is heard here
      await setImmediate();
      if (isThere) break;
      this.signatures(it);
    }
    return asked;
  }

  /** @param {Definition[]} definitions @returns {string} of overloads all but the one with the body */
  signatureOf(definitions) {
    const found = [];
    for (const { module, start, end } of definitions) {
      const all = this.signatures(module);
      const at = all.declarationAt(start, end);
      if (at !== null) found.push({ text: all.of(at), hasBody: hasBody(all.tree, at) });
    }
    if (found.length === 1) return found[0].text;
    const open = found.filter((it) => it.hasBody === false);
    const some = open.length > 0 ? found.filter((it) => it.hasBody !== true) : found;
    return some.map((it) => it.text).filter((it) => it !== '').join(' & ');
  }

  /** @param {string} module @returns {Namespaces} */
  namespacesOf(module) {
    let found = this.namespaces.get(module);
    if (!found) this.namespaces.set(module, (found = new Namespaces(this.signatures(module).tree)));
    return found;
  }

  /** @param {Item} item @returns {Map<string, Set<number>>} by module the nodes that declare it */
  nodesOf(item) {
    let found = this.nodes.get(item);
    if (found) return found;
    this.nodes.set(item, (found = new Map()));
    for (const { module, start, end } of item.definitions ?? []) {
      const at = this.signatures(module).declarationAt(start, end);
      if (at === null) continue;
      if (!found.has(module)) found.set(module, new Set());
      /** @type {Set<number>} */ (found.get(module)).add(at);
    }
    return found;
  }

  /** @param {Definition} it of a member @param {Set<number>} owners the nodes of what it is a member of @returns {string[] | null} the names of the namespaces between; null where the class or a namespace keeps it to itself */
  between(it, owners) {
    const declaration = this.folder.declaration(it);
    // whether a class can be constructed is public
    if (declaration?.isPrivate && declaration.kind !== 'constructor') return null;
    const at = this.signatures(it.module).nodeAt(it.start, it.end);
    return at < 0 ? [] : this.namespacesOf(it.module).between(at, owners);
  }

  /** @param {Definition[]} definitions @returns {Member[]} */
  symbolsOf(definitions) {
    const owners = [...new Map(definitions.map((it) => [`${it.symbol} ${it.module}`, it])).values()];
    return owners.flatMap(({ module, symbol: above }) => this.names.members(module, above).map((symbol) => ({ module, symbol, above })));
  }

  /** @param {Item} of @param {Member} member @param {Definition[]} definitions @returns {Item[]} none where it is hidden */
  member(of, { module, symbol, above }, definitions) {
    const owners = this.nodesOf(of).get(module) ?? new Set();
    /** @type {Definition[]} */
    const shown = [];
    /** @type {string[] | null} */
    let between = null;
    for (const it of definitions) {
      const names = it.module === module && it.symbol === symbol ? this.between(it, owners) : null;
      if (names !== null) shown.push(it);
      between ??= names;
    }
    if (between === null) return [];
    const [full, prefix] = [symbol, above].map((it) => `${this.names.of(module)[it]}`);
    const kind = joined(shown.map((it) => this.folder.kindOf(it)));
    const name = of.name + memberName(withNames(full.slice(prefix.length), between));
    return [{ ...of, name, kind, files: [this.folder.short(module)], signature: this.signatureOf(shown), definitions: shown }];
  }

  /** @param {Item[]} members @returns {Item[]} each name once: what several blocks of a namespace declare has a symbol in each */
  merged(members) {
    /** @type {Map<string, Item[]>} */
    const groups = new Map();
    for (const it of members) {
      const group = groups.get(it.name);
      if (group) group.push(it);
      else groups.set(it.name, [it]);
    }
    return [...groups.values()].map((all) => {
      const [first, ...more] = all;
      if (more.length === 0) return first;
      const definitions = all.flatMap((it) => it.definitions ?? []);
      const kind = joined(all.flatMap((it) => it.kind.split('+')));
      return { ...first, kind, files: [...new Set(all.flatMap((it) => it.files))].sort(), signature: this.signatureOf(definitions), definitions };
    });
  }

  /** @param {Item} item @returns {{ module: string, path: string[] }[]} what blocks of the namespace export by another name, or of elsewhere: those names, with that of the namespace before each */
  aliases(item) {
    if (!this.hasBlocks) return [];
    const modules = [...new Set(item.definitions?.map((it) => it.module))];
    return modules.flatMap((module) => {
      const blocks = this.folder.sources.modules.get(module)?.parsed.blocks ?? [];
      if (blocks.length === 0) return [];
      const { tree } = this.signatures(module);
      const namespaces = [...this.nodesOf(item).get(module) ?? []].filter((it) => isNamespace(tree.nodes[it]));
      const paths = new Set(namespaces.map((it) => pathOf(tree, it)));
      return blocks.filter((it) => paths.has(it.name)).flatMap(({ name, exported }) => exported.map((it) => ({ module, path: [...name.split('.'), it] })));
    });
  }

  /** @param {Item} of @returns {Item[]} */
  enumMembers(of) {
    return (of.definitions ?? []).flatMap(({ module, start, end, decl }) => {
      const all = this.signatures(module);
      const at = all.declarationAt(start, end);
      const node = at === null ? null : all.tree.nodes[at];
      if (node?.kind !== 'TsEnumDecl') return [];
      return all.enumMembers(node).map((it) => ({
        ...of, name: `${of.name}.${it.name}`, kind: 'member', files: [this.folder.short(module)], signature: it.text,
        definitions: [{ module, symbol: NO_SYMBOL, start: it.range[0], end: it.range[1], decl }] }));
    });
  }
}

/** @type {Record<string, string>} */
const SPECIAL = { ctor: ' constructor', index: ' index', call: ' call', construct: ' new' };

/** What most names of members are: those of classes and namespaces, and of interfaces. */
const USUAL = /^(?:\.(prototype\.)?([A-Za-z_$][\w$]*)|\["([A-Za-z_$][\w$]*)"\])$/;

/** @param {string} name of a member, as symq gives it behind that of its owner @returns {string} `#name` of what instances have, `.name` of what is static */
function memberName(name) {
  const [, prototype, own, quoted] = USUAL.exec(name) ?? [];
  if (own ?? quoted) return own && !prototype ? `.${own}` : `#${own ?? quoted}`;
  return name.replaceAll('.prototype.', '#').replaceAll('.prototype[', '#[').replace(/(?:[.#]|\[")%%dg_(\w+?)%%(?:"\])?$/, (_, what) => SPECIAL[what])
    .replace(/#?\["([\p{ID_Start}$_][\p{ID_Continue}$]*)"\]/gu, '#$1');
}

/** @param {string} name of a member, as symq gives it @param {string[]} between the namespaces that it is in @returns {string} with the names of these: for symq a later part of `A.B` has the first one's name */
function withNames(name, between) {
  return between.length === 0 ? name : ['', ...between, ...name.split('.').slice(between.length + 1)].join('.');
}

/** @param {Tree} tree @param {number} at @returns {boolean | null} whether a function has a body; null of what is none */
function hasBody({ nodes }, at) {
  const { function: inner, body, kind } = nodes[at];
  if (inner === undefined) return kind === 'Constructor' ? body !== undefined : null;
  return nodes[inner].body !== undefined;
}

/** @param {Folder} folder @returns {Set<string>} the modules that entries lead to, with them */
function reachedOf({ entries, sources: { modules, resolutions } }) {
  const found = new Set(entries);
  for (const from of found) for (const to of resolutions.get(from)?.values() ?? []) if (modules.has(to)) found.add(to);
  return found;
}

/** @param {Folder} folder @returns {Promise<Map<string, Map<string, Export>>>} what each module exports, by name */
async function exportsOf(folder) {
  const modules = [...new Set([...folder.sources.modules.keys(), ...folder.entries])];
  const all = await folder.exports(modules);
  return new Map(modules.map((it, i) => [it, new Map(all[i].exports.map((row) => [row.name, row]))]));
}

/**
 * A name that is public.
 * @typedef {object} Wanted
 * @property {string} entry
 * @property {string} name with those of the namespaces that it is in before it
 * @property {string} top the part of it that the entry exports
 * @property {[string, number]} symbol that is exported, with its module
 * @property {(Definition | Unresolved)[]} [leaves] of what stands behind `export =`: they are known
 * @property {boolean} isType
 * @property {string[]} within the modules that these namespaces are, and the symbols of namespaces in a module
 */

class Levels {
  /** @param {Folder} folder @param {Map<string, Map<string, Export>>} exports of each module @param {Gathering} all */
  constructor(folder, exports, all) {
    this.folder = folder;
    this.exports = exports;
    this.names = all.names;
    this.all = all;
    this.words = new TypeWords(folder, exports, (module) => this.all.signatures(module).tree);
  }

  /** @param {string} entry @param {string} module @param {{ name: string, top: string } | null} above the namespace that it is @param {boolean} isType @param {string[]} within @returns {Wanted[]} its exports */
  exportsOf(entry, module, above, isType, within) {
    return [...this.exports.get(module)?.values() ?? []].map((row) => /** @type {Wanted} */ ({
      entry, name: above ? `${above.name}.${row.name}` : row.name, top: above?.top ?? row.name, symbol: [row.module, row.symbol], isType: isType || this.words.isTypeOnly(module, row.name), within: [...within, module] }));
  }

  /** @param {string} entry @returns {Promise<Wanted[]>} what it exports, and the members of what stands behind `export =` in it */
  async entryNames(entry) {
    const short = this.folder.short(entry);
    const own = this.exportsOf(short, entry, null, false, []);
    const known = new Set(own.map((it) => it.name));
    const more = (await equalsMembers(this.folder, entry)).filter((it) => !known.has(it.name));
    return [...own, ...more.map(({ name, leaves }) => /** @type {Wanted} */ ({ entry: short, name, top: name, symbol: [entry, 0], leaves, isType: false, within: [entry] }))];
  }

  /** @param {Wanted} wanted @param {(Definition | Unresolved)[]} leaves @returns {Item} */
  item({ entry, name, top, isType }, leaves) {
    const definitions = this.folder.exported(leaves.filter(isDefinition));
    const outside = leaves.map((it) => endOf(this.folder, it)).flatMap((it) => (it === null ? [] : [it.what === 'external' ? it.name : '?']));
    const files = [...new Set([...definitions.map((it) => this.folder.short(it.module)).sort(), ...outside.sort()])];
    const kind = joined(definitions.map((it) => this.folder.kindOf(it))) || '?';
    return { entry, name, top, kind, isType, files: files.length > 0 ? files : ['?'], signature: this.all.signatureOf(definitions), definitions };
  }

  /** @param {Wanted} wanted @param {Definition[]} definitions @returns {Wanted[]} the exports of modules that it is a namespace of */
  inner({ entry, name, top, isType, within }, definitions) {
    const modules = definitions.filter((it) => it.by && !within.includes(it.module)).map((it) => it.module);
    return modules.flatMap((it) => this.exportsOf(entry, it, { name, top }, isType, within));
  }

  /** @param {Wanted[]} wanted @returns {Promise<{ items: Item[], inner: Wanted[] }>} these with their members, and what is in namespaces among them */
  async read(wanted) {
    const asked = await this.folder.leaves(wanted.map(({ symbol }) => symbol));
    const leaves = wanted.map((it, i) => it.leaves ?? asked[i]);
    const definitions = leaves.map((it) => this.folder.exported(it.filter(isDefinition)));
    const modules = definitions.flat().map((it) => it.module);
    await this.all.readUntil(this.names.read(modules), new Set(modules));
    // of a namespace that exports itself by another name members aren't listed again
    const isAgain = definitions.map((it, i) => it.some((one) => wanted[i].within.includes(symbolKey(one))));
    const members = definitions.map((it, i) => (isAgain[i] ? [] : this.all.symbolsOf(it)));
    const ends = (await this.folder.leaves(members.flat().map((it) => [it.module, it.symbol]))).map((it) => it.filter(isDefinition));
    let next = 0;
    const items = wanted.map((it, i) => {
      const item = this.item(it, leaves[i]);
      const own = this.all.merged(members[i].flatMap((one) => this.all.member(item, one, ends[next++])));
      return [item, ...own].flatMap((one) => [one, ...this.all.enumMembers(one)]);
    });
    const aliased = await this.aliased(wanted.flatMap((it, i) => (isAgain[i] ? [] : [{ wanted: it, items: items[i] }])));
    return { items: items.flat(), inner: [...wanted.flatMap((it, i) => this.inner(it, definitions[i])), ...aliased] };
  }

  /** @param {{ wanted: Wanted, items: Item[] }[]} found names with their members @returns {Promise<Wanted[]>} what namespaces among these export by another name */
  async aliased(found) {
    const rows = found.flatMap(({ wanted, items }) => {
      const all = items.flatMap((item) => this.all.aliases(item).map((it) => ({ ...it, item, name: `${item.name}.${it.path[it.path.length - 1]}` })));
      if (all.length === 0) return [];
      const known = new Set(items.map((it) => it.name));
      return all.filter(({ name }) => !known.has(name)).map(({ module, path, item, name }) => {
        const keys = [items[0], item].flatMap((it) => it.definitions ?? []).map(symbolKey);
        return { module, path, to: { ...wanted, name, within: [...wanted.within, ...keys] } };
      });
    });
    const ends = await this.folder.resolve(rows.map(({ module, path: [first, ...parts] }) => [module, ['qualified', first, 1, parts]]));
    return rows.map(({ module, to }, i) => ({ ...to, symbol: /** @type {[string, number]} */ ([module, 0]), leaves: endsOf(ends[i]) }));
  }
}

/** @param {Folder} folder @returns {Promise<Item[]>} names and their members, by entries and in the order of the modules; those in namespaces go last */
export async function surfaceOf(folder) {
  return (await surfaceAndTrees(folder)).items;
}

/** @param {Folder} folder @returns {Promise<{ items: Item[], signatures: (module: string) => Signatures }>} as surfaceOf, with the trees that it is read from */
export async function surfaceAndTrees(folder) {
  const all = new Gathering(folder, new Names(folder));
  const levels = new Levels(folder, await all.readUntil(exportsOf(folder), reachedOf(folder)), all);
  /** @type {Item[]} */
  const found = [];
  let wanted = (await Promise.all(folder.entries.map((it) => levels.entryNames(it)))).flat();
  while (wanted.length > 0) {
    const { items, inner } = await levels.read(wanted);
    for (const it of items) found.push(it);
    wanted = inner;
  }
  return { items: found, signatures: (module) => levels.all.signatures(module) };
}
