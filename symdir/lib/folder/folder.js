// A folder that is asked: its sources, a process of symq over their graph, and what the answers mean in its files.
import path from 'node:path';

import { Failure } from '../failure.js';
import { Symq } from '../symq.js';
import { EXPORTED, KINDS, PRIVATE } from '../kinds.js';
import { entriesOf } from './entries.js';
import { nameOf, partsOf, piecesOf } from './graph.js';
import { endsOf } from './paths.js';
import { Settling, isUnsettled } from './settle.js';
import { Sources } from './sources.js';
import { Temporary } from './temporary.js';
import { Places } from './text.js';
import { replaceFile } from '../write.js';

/** @typedef {{ name: string, module: string, symbol: number, chain: [string, string][] }} Export */
/** @typedef {{ name: string, owners: { module: string, symbol: number, chain: [string, string][] }[] }} Shared */
/** @typedef {{ exports: Export[], shared?: Shared[], unresolved: [string, string][] }} Exports what is shared with `--strict` alone */
/** @typedef {{ module: string, start: number, text: string }} Statement that stands for a whole module, and the text that names it */
/** @typedef {{ module: string, symbol: number, start: number, end: number, decl: [number, number], by?: Statement }} Definition of a module that a statement leads to, with that */
/** @typedef {{ kind: string, module: string, name: string, parts: string[], why?: string }} Unresolved with why the name may be there all the same */
/** @typedef {{ kind: string, name: number, isPrivate: boolean, isExported: boolean }} Declaration */
/** @typedef {{ kind: string, file: string, line: number, column: number, by?: { text: string, file: string, line: number, column: number } }} Place of a definition; of a module that a statement leads to, with that */

/** @param {unknown} it an end of a path @returns {it is Definition} */
export function isDefinition(it) {
  return typeof it === 'object' && it !== null && 'start' in it;
}

export class Folder {
  /** @param {Sources} sources @param {string[]} entries @param {Pick<import('./begin.js').Begun, 'last' | 'results'>} begun */
  constructor(sources, entries, { last, results }) {
    this.sources = sources;
    this.entries = entries;
    this.last = last;
    this.results = results;
    /** The name of its graph. */
    this.graph = '';
    /** @type {Symq | null} */
    this.symq = null;
    /** Whether shared names are told. */
    this.isStrict = false;
    /** @type {Temporary | undefined} where the graph is, where it isn't kept */
    this.temporary = undefined;
    /** @type {Promise<void> | undefined} */
    this.keeping = undefined;
    /** @type {Map<string, Places>} */
    this.places = new Map();
    /** @type {Map<string, Buffer>} those of modules whose trees were read */
    this.texts = new Map();
    /** @type {Map<string, Map<number, number[]>>} by module and start where in its list of declarations they are */
    this.tables = new Map();
    /** @type {WeakMap<Definition, Declaration[]>} those of its range, where they were asked for */
    this.ofRange = new WeakMap();
    /** @type {Map<string, string | null>} names of symbols in full, by number and module, where one range declares several */
    this.localNames = new Map();
    this.settling = new Settling(this);
  }

  /**
   * @param {import('./begin.js').Begun} begun
   * @param {{ entry: string[] }} options
   * @returns {Promise<Folder>}
   */
  static async read(begun, { entry }) {
    const sources = new Sources(begun);
    await sources.read();
    try {
      if (sources.modules.size === 0) throw new Failure(sources.files.emptyText(), 3, 'source');
      return new Folder(sources, entriesOf(sources, entry), begun);
    } catch (error) {
      await sources.pool?.close();
      throw error;
    }
  }

  /** @param {Folder} before as it was read before this one: what was made of modules that are what they were is taken over */
  takeOver({ sources: { modules }, places, tables }) {
    for (const [specifier, { file, parsed }] of this.sources.modules) {
      const old = modules.get(specifier);
      if (old?.parsed !== parsed || old.file !== file) continue;
      const [place, table] = [places.get(specifier), tables.get(specifier)];
      if (place?.isOf(parsed.hash)) this.places.set(specifier, place);
      if (table) this.tables.set(specifier, table);
    }
  }

  /** @param {import('./begin.js').Asked} asked as it was said when all began: it is given the graph */
  open({ symq, strict }) {
    const parts = partsOf(this.sources);
    const name = nameOf(parts);
    this.graph = name;
    if (this.last && name === this.sources.kept?.graph) this.symq = this.last;
    else {
      void this.last?.close();
      const graph = this.write(name, piecesOf(parts));
      this.symq = new Symq(symq, graph);
      this.symq.start();
    }
    this.isStrict = strict ?? false;
    this.symq.progress = this.sources.reading.progress;
    this.keeping = this.sources.keep(name);
  }

  /** @param {unknown} of what it depends on besides the graph @returns {unknown[]} with what else does */
  allOf(of) {
    return [this.entries, this.sources.faults(), of];
  }

  /** @param {unknown} [of] what it depends on besides the graph @returns {any} what `keep` kept; undefined where nothing is kept */
  kept(of) {
    return this.results?.get(this.graph, this.allOf(of));
  }

  /** @returns {Buffer} the bytes that were kept with it */
  keptBytes() {
    return this.results?.found?.more ?? Buffer.alloc(0);
  }

  /** @param {unknown} value for the next run on the same graph @param {unknown} [of] what it depends on besides that @param {Buffer} [bytes] kept as they are */
  keep(value, of, bytes = Buffer.alloc(0)) {
    this.keeping = Promise.all([this.keeping, this.results?.put(this.graph, this.allOf(of), value, bytes)]).then(() => {});
  }

  /** @param {string} name @param {Buffer[]} pieces of the graph @returns {string} the file that has it */
  write(name, pieces) {
    const file = this.sources.kept?.storeGraph(name, pieces);
    if (file) return file;
    this.temporary = new Temporary();
    const graph = path.join(this.temporary.path, 'graph.json');
    replaceFile(graph, pieces);
    return graph;
  }

  async close() {
    await Promise.all([this.symq?.close(), this.last?.close(), this.keeping]);
    this.temporary?.close();
  }

  /** @param {unknown[][]} queries @returns {Promise<any[]>} */
  ask(queries) {
    return /** @type {Symq} */ (this.symq).ask(queries);
  }

  /** @param {string[]} specifiers @returns {Promise<Exports[]>} empty ones of modules without symbols */
  async exports(specifiers) {
    const answers = await this.ask(specifiers.map((it) => ['exports', it]));
    return answers.map((it) => ({ exports: it?.exports ?? [], ...(this.isStrict && { shared: it?.shared ?? [] }), unresolved: it?.unresolved ?? [] }));
  }

  /** @param {[string, number][]} symbols @returns {Promise<(Definition | Unresolved)[][]>} the ends of the paths to where each is defined */
  async leaves(symbols) {
    const answers = await this.ask(symbols.map(([module, symbol]) => ['leaves', module, symbol]));
    const found = answers.map((it) => it?.leaves ?? []);
    const open = found.flatMap((it, i) => (it.some(isUnsettled) ? [i] : []));
    const paths = await this.paths(open.map((i) => symbols[i]));
    open.forEach((i, k) => (found[i] = endsOf(paths[k])));
    await this.nameDeclarations(found.flat());
    return found;
  }

  /** @param {[string, number][]} symbols @returns {Promise<any[][]>} the paths to where each is defined */
  async paths(symbols) {
    const answers = await this.ask(symbols.map(([module, symbol]) => ['paths', module, symbol]));
    return this.settled(answers.map((it) => it?.paths ?? []), symbols.map(([module]) => module));
  }

  /** @param {[string, unknown[]][]} asked modules, and references in them @returns {Promise<any[][]>} the paths to where what is referred to is defined */
  async resolve(asked) {
    const answers = await this.ask(asked.map(([module, reference]) => ['resolve', module, reference]));
    return this.settled(answers.map((it) => it?.entries ?? []), asked.map(([module]) => module));
  }

  /** @param {any[][]} lists of paths @param {string[]} modules that they begin in @returns {Promise<any[][]>} */
  async settled(lists, modules) {
    const found = await this.settling.settled(lists, modules);
    await this.nameDeclarations(found.flatMap(endsOf));
    return found;
  }

  /** @param {(Definition | Unresolved)[]} ends asks for the names of those whose range declares several names, as a pattern does */
  async nameDeclarations(ends) {
    const open = ends.filter(isDefinition).filter((it) => it.symbol !== 0 && !this.localNames.has(keyOf(it)) && this.declarations(it).length > 1);
    const answers = await this.ask(open.map((it) => ['name', it.module, it.symbol]));
    open.forEach((it, i) => this.localNames.set(keyOf(it), answers[i]?.name ?? null));
  }

  /** @param {string} specifier @returns {string} as people read it */
  short(specifier) {
    return this.sources.short(specifier);
  }

  /** @param {string} specifier @returns {Places} */
  placesOf(specifier) {
    let found = this.places.get(specifier);
    if (!found) {
      const text = this.texts.get(specifier);
      this.places.set(specifier, (found = text ? new Places(text) : Places.of(this.sources.modules.get(specifier)?.file ?? '')));
    }
    return found;
  }

  /** @param {string} specifier of a module with a tree @param {Buffer} text as its tree has it: its file needn't be read again for places */
  takeText(specifier, text) {
    this.texts.set(specifier, text);
  }

  /** @param {string} specifier @param {number} at in bytes @returns {{ file: string, line: number, column: number }} */
  place(specifier, at) {
    return { file: this.short(specifier), ...this.placesOf(specifier).place(at) };
  }

  /** @param {Definition} it @returns {Declaration[]} those of its range, of which a pattern has several */
  declarations(it) {
    let found = this.ofRange.get(it);
    if (!found) this.ofRange.set(it, (found = this.declarationsOf(it)));
    return found;
  }

  /** @param {Definition} it @returns {Declaration[]} */
  declarationsOf({ module, start, end }) {
    const all = this.sources.modules.get(module)?.parsed.declarations ?? [];
    const places = (this.tableOf(module, all).get(start) ?? []).filter((i) => all[i + 1] === end);
    const first = places.length < 2 ? places : places.filter((i, k) => places.findIndex((it) => all[it + 3] === all[i + 3]) === k);
    return first.map((i) => ({ kind: KINDS[all[i + 2]], name: all[i + 3], isPrivate: (all[i + 4] & PRIVATE) !== 0, isExported: (all[i + 4] & EXPORTED) !== 0 }));
  }

  /** @param {string} module @param {number[]} all its declarations, five numbers each @returns {Map<number, number[]>} by start where they are in the list */
  tableOf(module, all) {
    let table = this.tables.get(module);
    if (!table) {
      table = new Map();
      for (let i = 0; i < all.length; i += 5) {
        const list = table.get(all[i]);
        if (list) list.push(i);
        else table.set(all[i], [i]);
      }
      this.tables.set(module, table);
    }
    return table;
  }

  /** @param {Definition} it @returns {Declaration | null} */
  declaration(it) {
    const all = this.declarations(it);
    const name = all.length > 1 ? this.localNames.get(keyOf(it))?.split('.').pop() : undefined;
    if (name === undefined) return all[0] ?? null;
    const places = this.placesOf(it.module);
    return all.find((one) => places.hasWord(one.name, name)) ?? all[0];
  }

  /** @param {Definition[]} definitions that an export leads to @returns {Definition[]} without those of a symbol that aren't exported, where others of it are: a type of the same name, say */
  exported(definitions) {
    if (definitions.length < 2) return definitions;
    const found = new Set(definitions.filter((it) => this.declaration(it)?.isExported).map(keyOf));
    return definitions.filter((it) => !found.has(keyOf(it)) || this.declaration(it)?.isExported);
  }

  /** @param {Statement} statement @returns {string} it, as it is mostly written */
  statementText({ module, start, text }) {
    const all = this.sources.modules.get(module)?.parsed.references ?? [];
    const rows = all.flatMap(({ how, names }) => names.map(([name, local, , at]) => ({ how, name, local, at })));
    const { how = 'import', local = '' } = rows.find(({ name, at }) => name === '*' && at === start) ?? {};
    return how === 'require' ? `import ${local} = require("${text}")` : `${how} * as ${local} from "${text}"`;
  }

  /** @param {Definition} it @returns {string} what it is, for which no file is read */
  kindOf(it) {
    if (it.by) return 'namespace';
    // what has a symbol and no declaration is a property that is assigned to a function, or the value of JSON
    const kind = it.symbol === 0 || it.module.endsWith('.json') ? 'module' : 'property';
    return (it.symbol === 0 ? null : this.declaration(it))?.kind ?? kind;
  }

  /** @param {Definition} it @returns {Place} where its name stands */
  defined(it) {
    const kind = this.kindOf(it);
    if (it.by) return { kind, ...this.place(it.module, it.start), by: { text: this.statementText(it.by), ...this.place(it.by.module, it.by.start) } };
    const declaration = it.symbol === 0 ? null : this.declaration(it);
    return { kind, ...this.place(it.module, declaration?.name ?? it.start) };
  }
}

/** @param {Definition} it @returns {string} its symbol */
function keyOf({ symbol, module }) {
  return `${symbol} ${module}`;
}
