// `symdir leaks`: types that public declarations need and that no entry exports.
import { isDefinition } from '../folder/folder.js';
import { Names } from '../folder/names.js';
import { endsOf } from '../folder/paths.js';
import { languageOf } from '../language.js';
import { columns, counted, placeText, wrapped } from '../output.js';
import { leakFinding } from '../report/findings.js';
import { Initializers } from '../uses/initializers.js';
import { Tree } from '../uses/tree.js';

/** @typedef {import('../folder/folder.js').Folder} Folder */
/** @typedef {import('../folder/folder.js').Definition} Definition */
/** @typedef {import('../cli.js').Run} Run */

/**
 * A type that can't be imported, as `--json` tells it.
 * @typedef {object} Leak
 * @property {string} name
 * @property {string} kind
 * @property {string} file
 * @property {number} line
 * @property {number} column
 * @property {boolean} exported whether its own module exports it
 * @property {string[]} neededBy the public declarations and members that need it
 */

/** @param {string} name of a member, in full @returns {string} as people read it */
function readable(name) {
  const special = /** @type {Record<string, string>} */ ({ ctor: ' constructor', index: ' index', call: ' call', construct: ' new' });
  return name.replace('.prototype.', '.').replace('.prototype[', '[').replace(/(?:\.|\[")%%dg_(\w+?)%%(?:"\])?$/, (_, what) => special[what])
    .replace(/\["([\p{ID_Start}$_][\p{ID_Continue}$]*)"\]/gu, '.$1');
}

/** @typedef {{ module: string, symbol: number, name: string, value?: Definition }} Shown with where it is defined, if that is a value without a name */

/** @param {Folder} folder @returns {Promise<Shown[]>} the public symbols: the entries, what they export, what defines that, and the same of each module that is exported as a whole */
async function publicSymbols(folder) {
  const found = [];
  const met = new Set(folder.entries);
  for (let open = folder.entries; open.length > 0;) {
    const exports = (await folder.exports(open)).flatMap((it) => it.exports);
    const leaves = await folder.leaves(exports.map((it) => [it.module, it.symbol]));
    found.push(...open.map((module) => ({ module, symbol: 0, name: folder.short(module) })));
    found.push(...exports.flatMap((it, i) => [it, ...leaves[i].filter(isDefinition)].map((one) => ({
      module: one.module, symbol: one.symbol, name: it.name, value: 'start' in one && folder.declaration(one)?.kind === 'default' ? one : undefined }))));
    const whole = leaves.flat().filter((it) => isDefinition(it) && it.symbol === 0).map((it) => it.module);
    open = [...new Set(whole)].filter((it) => !met.has(it));
    open.forEach((it) => met.add(it));
  }
  return found;
}

/** @param {Folder} folder @param {Shown[]} symbols @returns {Promise<Shown[]>} without what is private in classes */
async function withoutPrivate(folder, symbols) {
  const leaves = await folder.leaves(symbols.map((it) => [it.module, it.symbol]));
  return symbols.filter((_, i) => !leaves[i].some((it) => isDefinition(it) && folder.declaration(it)?.isPrivate));
}

/** @param {Folder} folder @param {Names} names @param {Shown[]} shown @returns {Promise<Shown[]>} public symbols and their members */
async function withMembers(folder, names, shown) {
  /** @type {Map<string, Shown>} */
  const all = new Map();
  const members = [];
  for (const it of shown) {
    const add = (/** @type {number} */ symbol) => {
      const key = `${symbol} ${it.module}`;
      const made = { module: it.module, symbol, name: names.of(it.module)[symbol] ?? it.name };
      if (!all.has(key)) all.set(key, made);
      return made;
    };
    add(it.symbol);
    members.push(...names.members(it.module, it.symbol).map(add));
  }
  const hidden = new Set(members);
  for (const it of await withoutPrivate(folder, members)) hidden.delete(it);
  for (const it of hidden) all.delete(`${it.symbol} ${it.module}`);
  return [...all.values()];
}

/** What public declarations need: where it is defined, the name by which one of them refers to it, and those that need it. */
/** @typedef {{ at: Definition, as: string, by: Set<string> }} Need */

/** @param {any[]} reference as symq gives it @returns {string} the name that it ends in */
function referredAs([how, name, , parts = []]) {
  return how === 'import' ? name : parts[parts.length - 1] ?? name;
}

/** @param {Names} names @param {Need} need @returns {string} its name; where that is none, or `default`, the one by which it is referred to */
function nameOf(names, { at, as }) {
  const own = names.of(at.module)[at.symbol];
  return own && own !== 'default' ? readable(own) : as;
}

/**
 * Finds the types that are written in a value which is exported as `default`. All else that it refers to is no part of a type that is written.
 * @param {Folder} folder @param {Definition} value
 * @returns {Set<string>} the references to types
 */
function writtenIn(folder, { module, start, end }) {
  const found = folder.sources.modules.get(module);
  const tree = found ? Tree.of(found) : null;
  const inside = tree?.names().filter((it) => tree.nodes[it].range[0] >= start && tree.nodes[it].range[1] <= end) ?? [];
  const types = inside.flatMap((it) => tree?.lookups(it) ?? []).filter((it) => it.isType);
  return new Set(types.map(({ name, scope, parts }) => JSON.stringify(parts.length > 0 ? ['qualified', name, scope, parts] : ['id', name, scope])));
}

/** Declarations that may have initializers. */
const INITIALIZED = new Set(['const', 'let', 'var', 'using', 'property', 'accessor', 'function', 'method', 'constructor', 'default']);
/** Of these several are overloads, of which none has a type that isn't written. */
const CALLED = new Set(['function', 'method', 'constructor']);

/** @param {Folder} folder @param {Definition[]} own the declarations of a symbol @returns {Definition | null} the one whose initializers tell its type: of variables the first; null where none does */
function typedBy(folder, own) {
  const kindOf = (/** @type {Definition} */ it) => folder.declaration(it)?.kind ?? '';
  const [first, ...more] = own.filter((it) => INITIALIZED.has(kindOf(it)));
  return first === undefined || (more.length > 0 && CALLED.has(kindOf(first))) ? null : first;
}

/**
 * Finds what the types refer to that are written in initializers.
 * @param {Folder} folder @param {Shown[]} all
 * @returns {Promise<{ of: Shown, reference: unknown[] }[]>}
 */
async function initialized(folder, all) {
  const mine = all.filter((it) => isTyped(folder, it.module));
  const leaves = await folder.leaves(mine.map((it) => [it.module, it.symbol]));
  /** @type {Map<string, { of: Shown, at: string }[]>} */
  const asked = new Map();
  mine.forEach((of, i) => {
    const own = leaves[i].filter(isDefinition).filter((it) => it.module === of.module && it.symbol === of.symbol);
    const found = typedBy(folder, own);
    if (found) asked.set(of.module, [...asked.get(of.module) ?? [], { of, at: `${found.start} ${found.end}` }]);
  });
  return [...asked].flatMap(([module, rows]) => {
    const tree = Tree.of(/** @type {import('../folder/sources.js').Module} */ (folder.sources.modules.get(module)));
    const initializers = new Initializers(tree);
    return rows.flatMap(({ of, at }) => initializers.at(at).map((reference) => ({ of, reference })));
  });
}

/** @param {Folder} folder @param {string} module @returns {boolean} whether initializers in it may have types: it is TypeScript and no declaration file */
function isTyped(folder, module) {
  const file = folder.sources.modules.get(module)?.file ?? '';
  return /^tsx?$/.test(languageOf(file).language) && !languageOf(file).declaration;
}

/**
 * What the declarations of the symbols need that isn't among them.
 * @param {Folder} folder
 * @param {Shown[]} all
 * @param {Definition[]} values that are exported as `default`
 * @returns {Promise<Map<string, Need>>} by symbol and module
 */
async function needed(folder, all, values) {
  const shown = new Set(all.map((it) => `${it.symbol} ${it.module}`));
  const answers = await folder.ask(all.map((it) => ['deps', it.module, it.symbol, 'types']));
  const written = new Map(values.map((it) => [`${it.symbol} ${it.module}`, writtenIn(folder, it)]));
  const isWritten = (/** @type {Shown} */ of, /** @type {any[]} */ reference) => reference[0] === 'import' || (written.get(`${of.symbol} ${of.module}`)?.has(JSON.stringify(reference)) ?? true);
  const declared = answers.flatMap((answer, i) => (answer?.deps ?? []).flat().map((/** @type {any} */ [reference]) => ({ of: all[i], reference })));
  const asked = [...declared.filter(({ of, reference }) => isWritten(of, reference)), ...await initialized(folder, all)];
  const paths = await folder.resolve(asked.map((it) => [it.of.module, it.reference]));
  /** @type {Map<string, Need>} */
  const found = new Map();
  paths.forEach((entries, i) => {
    for (const it of endsOf(entries).filter(isDefinition)) {
      const key = `${it.symbol} ${it.module}`;
      const file = folder.sources.modules.get(it.module)?.file;
      if (shown.has(key) || !file || !folder.sources.files.holds(file)) continue;
      const row = found.get(key) ?? { at: it, as: referredAs(asked[i].reference), by: new Set() };
      found.set(key, row);
      row.by.add(readable(asked[i].of.name));
    }
  });
  return found;
}

/** @param {Folder} folder @returns {Promise<{ count: number, leaks: Leak[] }>} */
export async function findLeaks(folder) {
  const shown = await publicSymbols(folder);
  const names = new Names(folder);
  await names.read(shown.map((it) => it.module));
  const values = shown.flatMap((it) => it.value ?? []);
  const found = [...(await needed(folder, await withMembers(folder, names, shown), values)).values()];
  const modules = [...new Set(found.map((it) => it.at.module))];
  await names.read(modules);
  const exported = await ownExports(folder, modules);
  const leaks = found.map((it) => ({
    name: nameOf(names, it), ...folder.defined(it.at), exported: exported.has(`${it.at.symbol} ${it.at.module}`), neededBy: [...it.by] }));
  const count = new Set((await folder.exports(folder.entries)).flatMap((it, i) => it.exports.map((row) => `${i} ${row.name}`))).size;
  const above = new Set(leaks.map((it) => `${it.file} ${it.name}`));
  const outer = leaks.filter((it) => !it.name.split('.').some((_, i, parts) => i > 0 && above.has(`${it.file} ${parts.slice(0, i).join('.')}`)));
  return { count, leaks: outer.sort((a, b) => b.neededBy.length - a.neededBy.length || (a.name < b.name ? -1 : 1)) };
}

/** @param {Folder} folder @param {string[]} modules @returns {Promise<Set<string>>} the symbols, by number and module, that each exports itself */
async function ownExports(folder, modules) {
  const rows = (await folder.exports(modules)).flatMap((it, i) => it.exports.filter((row) => row.module === modules[i]));
  const leaves = await folder.leaves(rows.map((it) => [it.module, it.symbol]));
  return new Set(rows.flatMap((it, i) => [it, ...leaves[i].filter(isDefinition)].map(({ symbol, module }) => `${symbol} ${module}`)));
}

/** How many are named of those that need a type. */
const NEEDING = 4;

/** @param {Run} run @param {Folder} folder @returns {Promise<number>} the status */
export async function leaks(run, folder) {
  const { print, paint, options, report } = run;
  const { count, leaks: all } = await findLeaks(folder);
  const found = report.found.rest(all, leakFinding);
  if (options.json) {
    report.json({ entries: folder.entries.map((it) => folder.short(it)), leaks: found });
    return report.found.status;
  }
  for (const it of found) {
    const state = it.exported ? 'exported by its file, re-exported by no entry' : 'exported by no file';
    columns([[it.name, it.kind, placeText(it)]], ([name, ...rest]) => [paint.yellow(name), ...rest, paint.dim(`(${state})`)]).forEach(print);
    const shown = options.all ? it.neededBy : it.neededBy.slice(0, NEEDING);
    const more = it.neededBy.length - shown.length;
    wrapped(`referenced by ${shown.join(', ')}${more > 0 ? ` and ${more} more` : ''}`, 92).forEach((line, i) => print(`    ${i > 0 ? '  ' : ''}${line}`));
  }
  const entries = folder.entries.length > 3 ? counted(folder.entries.length, 'entry') : folder.entries.map((it) => folder.short(it)).join(', ');
  const told = found.length === 0 ? 'all types that they reference are exported' : `${counted(found.length, 'declaration')} that they reference can't be imported`;
  report.conclude(`${counted(count, 'public name')} of ${entries}: ${told}`);
  return report.found.status;
}
