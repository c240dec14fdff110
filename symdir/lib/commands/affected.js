// `symdir affected`: which public names and which answers a change of files can touch, by what symq says that they rest on.
import path from 'node:path';

import { changedByFiles, isConfig } from '../affected/changes.js';
import { filesBefore } from '../affected/git.js';
import { sourcesBefore } from '../affected/before.js';
import { inputsOf, restingNames } from '../affected/names.js';
import { Failure } from '../failure.js';
import { endText } from '../folder/ends.js';
import { entriesOf } from '../folder/entries.js';
import { Folder } from '../folder/folder.js';
import { piecesOf } from '../folder/graph.js';
import { Temporary } from '../folder/temporary.js';
import { partOf, reachedFrom } from '../inputs/part.js';
import { changedBetween, statesOf } from '../inputs/states.js';
import { byName, columns, counted, placeText } from '../output.js';
import { Symq } from '../symq.js';
import { replaceFile } from '../write.js';
import { publicNames } from './api.js';

/** @typedef {import('../cli.js').Run} Run */
/** @typedef {import('../affected/names.js').Name} Name */
/** @typedef {import('../folder/sources.js').Sources} Sources */
/** @typedef {import('../surface/compare.js').Change} Change */

/**
 * What a change of files touches.
 * @typedef {object} Touched
 * @property {string[]} files
 * @property {Set<string>} specifiers under which a graph has something else
 * @property {{ names: Name[], edited: Set<string> } | null} before the names before, and the specifiers whose texts differ; null where this isn't known
 */

/**
 * A public name that can change, as `--json` tells it.
 * @typedef {object} AffectedName
 * @property {string} entry
 * @property {string} name
 * @property {string} kind
 * @property {import('../folder/folder.js').Place[]} defined
 * @property {import('../folder/ends.js').End[]} unresolved
 * @property {'added' | 'removed'} [change] if it is known
 */

/**
 * @typedef {object} Affected
 * @property {string[]} files
 * @property {AffectedName[]} names
 * @property {string[]} lists entries whose lists of names can change
 * @property {{ file: string, exports: boolean, definitions: boolean }[]} modules whose answers can change: what they export, and where names in them are defined
 */

/** @param {Iterable<string>} some @param {Set<string>} specifiers @returns {boolean} whether one of them is among these */
function meets(some, specifiers) {
  for (const it of some) if (specifiers.has(it)) return true;
  return false;
}

/** @param {{ entry: string, name: string }} it @returns {string} */
function keyOf({ entry, name }) {
  return `${entry}\n${name}`;
}

/** @param {Folder} now @param {Sources} sources before @param {string[]} words of `--entry` @param {string} temporary @returns {Promise<Name[]>} the public names before */
async function namesBefore(now, sources, words, temporary) {
  if (sources.modules.size === 0) return [];
  const folder = new Folder(sources, entriesBefore(sources, words), { last: null, results: null });
  const graph = path.join(temporary, 'graph.json');
  replaceFile(graph, piecesOf(partOf(sources, reachedFrom(sources, folder.entries))));
  const symq = new Symq(/** @type {Symq} */ (now.symq).program, graph);
  try {
    folder.symq = symq;
    folder.isStrict = now.isStrict;
    return await restingNames(folder);
  } finally {
    await symq.close();
  }
}

/** @param {Sources} sources @param {string[]} words @returns {string[]} none where what is named wasn't there */
function entriesBefore(sources, words) {
  try {
    return entriesOf(sources, words);
  } catch (error) {
    if (error instanceof Failure) return [];
    throw error;
  }
}

/** @param {Sources} sources @param {string} specifier @returns {string} equal for equal texts */
function textOf({ modules, external }, specifier) {
  const parsed = modules.get(specifier)?.parsed;
  return parsed ? JSON.stringify([parsed.hash, parsed.namespaces]) : `${external.has(specifier)}`;
}

/** @param {Run} run @param {Folder} folder @param {string} temporary @returns {Promise<Touched>} by what Git knows */
async function touchedSince({ options }, folder, temporary) {
  const { sources } = folder;
  const texts = filesBefore(sources.folder, options.since);
  const before = await sourcesBefore(sources, texts, temporary);
  const [old, fresh] = [statesOf(before), statesOf(sources)];
  const specifiers = changedBetween(old, fresh);
  const isOne = (/** @type {string} */ file) => isConfig(file) || [old, fresh].some((it) => it.has(sources.specifierOf(file)));
  const files = [...texts.keys()].filter(isOne).map((it) => sources.files.below(it)).sort();
  if (specifiers.size === 0) return { files, specifiers, before: null };
  const edited = new Set([...specifiers].filter((it) => textOf(before, it) !== textOf(sources, it)));
  return { files, specifiers, before: { names: await namesBefore(folder, before, options.entry ?? [], temporary), edited } };
}

/** @param {Run} run @param {Folder} folder @returns {Promise<Touched>} */
async function touchedBy(run, folder) {
  const temporary = new Temporary();
  try {
    if (run.options.since !== undefined) return await touchedSince(run, folder, temporary.path);
    return { ...await changedByFiles(folder.sources, run.words.slice(1), temporary.path, run.warn), before: null };
  } finally {
    temporary.close();
  }
}

/** @param {Folder} folder @param {Touched} touched @returns {Promise<AffectedName[]>} in the order of `api`; those that have gone last */
async function affectedNames(folder, { specifiers, before }) {
  const now = await restingNames(folder);
  const old = new Map((before?.names ?? []).map((it) => [keyOf(it), it]));
  const isTouched = (/** @type {Name} */ it) => {
    const was = old.get(keyOf(it));
    if (meets(it.whole, specifiers) || (was && meets(was.whole, specifiers))) return true;
    // where its paths are the same, texts on them alone can say something else of it
    return before === null ? meets(it.rests, specifiers) : was?.answer !== it.answer || meets(it.rests, before.edited);
  };
  const touched = new Map(now.filter(isTouched).map((it) => [keyOf({ entry: folder.short(it.entry), name: it.name }), it]));
  const shown = (await publicNames(folder)).flatMap(({ entry, name, kind, defined, unresolved }) => {
    const found = touched.get(keyOf({ entry, name }));
    if (!found) return [];
    return [{ entry, name, kind, defined, unresolved, ...(before && !old.has(keyOf(found)) && { change: /** @type {const} */ ('added') }) }];
  });
  const there = new Set(now.map(keyOf));
  const gone = [...old.values()].filter((it) => !there.has(keyOf(it)));
  return [...shown, ...gone.map(({ entry, name }) => ({ entry: folder.short(entry), name, kind: '', defined: [], unresolved: [], change: /** @type {const} */ ('removed') }))];
}

/** @param {Folder} folder @param {Set<string>} specifiers @returns {Promise<Affected['modules']>} */
async function affectedModules(folder, specifiers) {
  const { modules, files } = folder.sources;
  const own = [...modules.values()].filter((it) => files.holds(it.file)).map((it) => it.specifier).sort();
  const all = await inputsOf(folder, [...own.map((it) => ['exports', it]), ...own.map((it) => ['paths', it, 0])]);
  const rows = own.map((it, i) => ({ file: folder.short(it), exports: meets(all[i], specifiers), definitions: meets(all[own.length + i], specifiers) }));
  return rows.filter((it) => it.exports || it.definitions);
}

/** @param {Folder} folder @param {Touched} touched @returns {Promise<Affected>} */
async function affectedBy(folder, touched) {
  const { files, specifiers } = touched;
  if (specifiers.size === 0) return { files, names: [], lists: [], modules: [] };
  const lists = await inputsOf(folder, folder.entries.map((it) => ['exports', it]));
  return {
    files, names: await affectedNames(folder, touched),
    lists: folder.entries.filter((_, i) => meets(lists[i], specifiers)).map((it) => folder.short(it)),
    modules: await affectedModules(folder, specifiers),
  };
}

/** @param {Run} run @param {Folder} folder @param {Affected} found @param {import('./diff.js').How['read']} read @returns {Promise<{ changes: Change[], others: number }>} those of names that can change, and how many others there are */
async function changesIn(run, folder, { names }, read) {
  const [{ changesBetween, surfaceFor }, { surfaceOf }] = await Promise.all([import('./diff.js'), import('../surface/surface.js')]);
  const asked = { symq: /** @type {Symq} */ (folder.symq).program, strict: folder.isStrict };
  const old = await surfaceFor(run, run.options.check, { read, asked });
  const all = await changesBetween(old, { items: await surfaceOf(folder), isWhole: true });
  const known = new Set(names.map(keyOf));
  const changes = all.filter(({ entry, name }) => known.has(keyOf({ entry, name: topOf(name) })));
  return { changes, others: all.length - changes.length };
}

/** @param {string} name of a member, as `Shape#at` or `Shape.make` @returns {string} that of what it is one of */
function topOf(name) {
  return name.replace(/(?<=.)[.#[].*$/, '');
}

/** @param {AffectedName} it @returns {string} */
function whereText({ defined: [first], unresolved: [end] }) {
  if (first) return placeText(first);
  return end ? endText(end) : '';
}

/** How many modules are shown without `--all`. */
const SHOWN = 20;

/** @param {Run} run @param {Affected} found */
function print({ print: line, paint, options }, { files, names, lists, modules }) {
  line(paint.bold(`${counted(files.length, 'file')} changed${files.length > 0 ? `: ${files.length > 3 && !options.all ? `${files.slice(0, 3).join(', ')} and ${files.length - 3} more` : files.join(', ')}` : ''}`));
  for (const entry of [...new Set([...lists, ...names.map((it) => it.entry)])]) {
    const mine = names.filter((it) => it.entry === entry).sort(byName);
    line(`${paint.bold(entry)}: ${counted(mine.length, 'public name')} can change${lists.includes(entry) ? ', and which there are' : ''}`);
    columns(mine.map((it) => [`  ${it.name}`, it.kind, whereText(it), it.change ?? '']), ([name, kind, where, change]) => [name, kind, where, paint.yellow(change ?? '')]).forEach(line);
  }
  if (modules.length > 0) line(`answers on ${counted(modules.length, 'module')} can change:`);
  const shown = options.all ? modules : modules.slice(0, SHOWN);
  columns(shown.map((it) => [`  ${it.file}`, [...(it.exports ? ['exports'] : []), ...(it.definitions ? ['definitions'] : [])].join(', ')])).forEach(line);
  if (shown.length < modules.length) line(`  and ${modules.length - shown.length} more (--all)`);
}

/** @param {Run} run @throws {Failure} where it isn't said what changed */
export function checkChanged({ words, options }) {
  const isSince = options.since !== undefined;
  if (words.length > 1 && isSince) throw new Failure('affected takes files or --since REV, not both', 2);
  if (words.length <= 1 && !isSince) throw new Failure('affected takes files that changed, or --since REV', 2);
}

/** @param {Run} run @param {Folder} folder @param {import('./diff.js').How['read']} read how another folder is read @returns {Promise<number>} the status */
export async function affected(run, folder, read) {
  const { options } = run;
  const found = await affectedBy(folder, await touchedBy(run, folder));
  const checked = options.check === undefined ? null : await changesIn(run, folder, found, read);
  if (options.json) run.print(JSON.stringify({ ...found, ...checked }, null, 1));
  else {
    print(run, found);
    if (checked) await printChecked(run, checked);
  }
  const isFound = checked ? checked.changes.length > 0 : found.names.length > 0 || found.lists.length > 0;
  return isFound ? 1 : 0;
}

/** @param {Run} run @param {{ changes: Change[], others: number }} checked */
async function printChecked(run, { changes, others }) {
  const { printChanges } = await import('./diff.js');
  run.print(changes.length === 0 ? `none of these names changed since ${run.options.check}` : `changed since ${run.options.check}:`);
  if (changes.length > 0) run.print(printChanges(run, changes));
  if (others > 0) run.print(`other names have ${counted(others, 'change')}, which these files don't explain`);
}
