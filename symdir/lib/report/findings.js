// What commands find, as findings of a report.
import { endText, isUnresolved } from '../folder/ends.js';
import { counted } from '../output.js';

/** @typedef {import('./rules.js').Finding} Finding */
/** @typedef {import('../folder/folder.js').Folder} Folder */
/** @typedef {import('../folder/ends.js').End} End */

/** How many of those that need a type a message names. */
const NEEDING = 4;

/** @param {import('../commands/leaks.js').Leak} leak @returns {Finding} */
export function leakFinding({ name, kind, file, line, column, neededBy }) {
  const more = neededBy.length - NEEDING;
  const by = `${neededBy.slice(0, NEEDING).join(', ')}${more > 0 ? ` and ${more} more` : ''}`;
  return { rule: 'leaks/not-exported', file, line, column, name, message: `${kind} ${name} is referenced by ${by}, and no entry exports it` };
}

/** @type {Record<import('../commands/missing.js').Finding['what'], (it: import('../commands/missing.js').Finding) => { rule: string, name: string, message: string }>} */
const MISSING = {
  syntax: ({ text }) => ({ rule: 'files/syntax', name: text, message: text }),
  unread: ({ text }) => ({ rule: 'files/unreadable', name: text, message: `can't be read (${text})` }),
  file: ({ how, text }) => ({ rule: 'missing/file', name: text, message: `${how} "${text}" resolves to no file` }),
  package: ({ how, text }) => ({ rule: 'missing/package', name: text, message: `${how} "${text}": the package is neither installed nor listed in package.json` }),
  name: ({ how, text }) => ({ rule: 'missing/name', name: `${text} of ${how}`, message: `${how} has no export ${text}` }),
  shared: ({ how, text }) => ({ rule: 'missing/ambiguous', name: text, message: `${text} is re-exported via export * from several modules: ${how}` }),
};

/** @param {import('../commands/missing.js').Finding} it @returns {Finding} */
export function missingFinding(it) {
  const { file, line, column } = it;
  return { file, line, column, ...MISSING[it.what](it) };
}

/** @param {string} file @returns {Finding} */
export function fileFinding(file) {
  return { rule: 'unused/file', file, line: 1, column: 1, name: file, message: 'no root reaches the file' };
}

/** @param {import('../commands/unused.js').Name} it @returns {Finding} */
export function exportFinding({ name, kind, file, line, column, inFile }) {
  const message = `${kind ? `${kind} ` : ''}${name} is exported and not used elsewhere${inFile ? '; its own file uses it' : ''}`;
  return { rule: 'unused/export', file, line, column, name, message };
}

/** @param {import('../uses/dependencies.js').Dependency} it @returns {Finding} */
export function dependencyFinding({ name, file, line, column }) {
  return { rule: 'unused/dependency', file, line, column, name, message: `no module imports the dependency ${name}` };
}

/** @param {import('../commands/cycles.js').Part} part @returns {Finding} at the import to cut */
export function cycleFinding({ modules, shortest, cut }) {
  const [{ file, line, column, how, text }] = cut.statements;
  const around = [...shortest.map((it) => it.from), shortest[0].from].join(' > ');
  const opened = cut.opens === modules.length ? 'without this import there is no cycle' : `without this import ${counted(cut.opens, 'module')} ${cut.opens === 1 ? 'is' : 'are'} in no cycle`;
  return { rule: 'cycles/cycle', file, line, column, name: modules.join(' '), message: `${counted(modules.length, 'module')} import each other (${around}); ${opened}: ${how} "${text}"` };
}

/** @typedef {import('../surface/compare.js').Change} Change */
/** @typedef {import('../surface/surface.js').Item} Item */

/** @param {Change} change @returns {string} */
export function changeText({ what, from, to }) {
  if (what === 'removed' || what === 'added') return `${what}: ${from ?? to}`;
  return `${what}: ${from === '' ? 'inferred' : from} -> ${to === '' ? 'inferred' : to}`;
}

/** @param {Folder} folder @param {Item[]} items @returns {Item[]} with their places */
export function placed(folder, items) {
  return items.map((it) => (it.definitions?.[0] ? { ...it, at: folder.defined(it.definitions[0]) } : it));
}

/** @param {Item[]} items of the newer surface @returns {(change: Change) => Finding} at what changed, as far as places are known, or else at the entry */
export function changeFinding(items) {
  const all = new Map(items.map((it) => [`${it.entry}\n${it.name}`, it]));
  return (change) => {
    const { entry, name, advice, reason, what, from, to } = change;
    const { file, line, column } = all.get(`${entry}\n${name}`)?.at ?? { file: entry, line: 1, column: 1 };
    return { rule: `diff/${advice}`, file, line, column, name: [entry, name, what, from ?? '', to ?? ''].join('\n'), message: `${name}: ${changeText(change)} (${advice}: ${reason})` };
  };
}

/** @param {Folder} folder @param {string} module @param {(reference: import('../tree/converter.js').Reference) => number | null} startOf @returns {{ file: string, line: number, column: number } | null} the first that has a start */
function placeIn(folder, module, startOf) {
  for (const it of folder.sources.modules.get(module)?.parsed.references ?? []) {
    const start = startOf(it);
    if (start !== null) return folder.place(module, start);
  }
  return null;
}

/** @param {Folder} folder @param {string} short @returns {string | undefined} the module that people read so */
function moduleOf(folder, short) {
  return [...folder.sources.modules.keys()].find((it) => folder.short(it) === short);
}

/** @param {Folder} folder @param {string} entry @param {End} end unresolved @returns {{ file: string, line: number, column: number }} the statement that isn't resolved, or else the file */
function placeOfEnd(folder, entry, { what, file, name }) {
  const module = moduleOf(folder, file);
  const none = { file, line: 1, column: 1 };
  if (module === undefined) return none;
  if (what === 'import') return placeIn(folder, module, (it) => (it.text === name ? it.start : null)) ?? none;
  const own = moduleOf(folder, entry);
  const others = [...folder.sources.modules.keys()].filter((it) => it !== own);
  for (const at of own === undefined ? others : [own, ...others]) {
    const table = folder.sources.resolutions.get(at);
    const found = placeIn(folder, at, ({ text, names }) => {
      const row = table?.get(text) === module ? names.find(([wanted]) => wanted === name) : undefined;
      return row ? row[3] : null;
    });
    if (found) return found;
  }
  return none;
}

/** @param {Folder} folder @param {import('../commands/api.js').Answer} answer @returns {Finding[]} */
export function apiFindings(folder, { names, open, shared }) {
  const lost = names.flatMap((it) => it.unresolved.filter(isUnresolved).map((end) => ({
    rule: 'api/unresolved', ...placeOfEnd(folder, it.entry, end), name: `${it.name} of ${it.entry}`, message: `${it.name} of ${it.entry}: ${endText(end)}` })));
  const stars = open.filter((it) => it.external === null).map(({ file, line, column, text, entry }) => ({
    rule: 'api/unresolved', file, line, column, name: `export * from "${text}" of ${entry}`, message: `export * from "${text}" resolves to no file` }));
  const several = shared.map(({ module, name, owners }) => ({
    rule: 'api/ambiguous', file: module, line: 1, column: 1, name, message: `${name} is re-exported via export * from several modules: ${owners.map((it) => it.file).join(', ')}` }));
  return [...lost, ...stars, ...several];
}
