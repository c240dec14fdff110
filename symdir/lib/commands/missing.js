// `symdir missing`: unresolved imports and `export *`, and imported names that no module exports.
import { isDefinition } from '../folder/folder.js';
import { endOf } from '../folder/ends.js';
import { endsOf } from '../folder/paths.js';
import { columns, counted, placeText } from '../output.js';
import { missingFinding } from '../report/findings.js';
import { ownersText, partingText, sharedNames } from './shared.js';

/** @typedef {import('../folder/folder.js').Folder} Folder */
/** @typedef {import('../cli.js').Run} Run */
/** @typedef {import('../tree/converter.js').Reference} Reference */

/**
 * Something that isn't there, as `--json` tells it.
 * @typedef {object} Finding
 * @property {'syntax' | 'unread' | 'file' | 'package' | 'name' | 'shared'} what
 * @property {string} file
 * @property {number} line
 * @property {number} column
 * @property {string} text the import's text, the name, or what is wrong
 * @property {string} how `import`, `export *` and so on; of a name the module that lacks it; of a shared name its owners
 */

/** @param {Folder} folder @returns {{ specifier: string, reference: Reference }[]} what refers to modules, in the folder's own files */
function references(folder) {
  const own = [...folder.sources.modules.values()].filter((it) => folder.sources.files.holds(it.file));
  return own.flatMap(({ specifier, parsed }) => parsed.references.map((reference) => ({ specifier, reference })));
}

/** @param {Folder} folder @returns {Finding[]} */
function unparsed(folder) {
  const unread = folder.sources.unreadable().map(({ file, error }) => ({
    what: /** @type {const} */ ('unread'), file, line: 1, column: 1, text: error, how: '' }));
  const faulty = folder.sources.unparsed().map(({ file, line, column, text }) => ({
    what: /** @type {const} */ ('syntax'), file, line, column, text, how: '' }));
  return [...unread, ...faulty];
}

/** @param {Folder} folder @returns {Finding[]} */
function unresolvedImports(folder) {
  const { resolutions, resolver, modules } = folder.sources;
  const fileOf = (/** @type {string} */ specifier) => /** @type {import('../folder/sources.js').Module} */ (modules.get(specifier)).file;
  const lost = references(folder).filter(({ specifier, reference }) => !resolutions.get(specifier)?.has(reference.text));
  return lost.map(({ specifier, reference }) => ({
    what: resolver.meansFile(fileOf(specifier), reference.text) ? 'file' : 'package',
    ...folder.place(specifier, reference.start), text: reference.text, how: reference.how,
  }));
}

/**
 * Finds imported and re-exported names that no module exports. Each is reported where the module that is named lacks it: what leads there
 * by a re-export of this directory isn't reported again. Of a name that may be there all the same nothing is said.
 * @param {Folder} folder
 * @returns {Promise<Finding[]>}
 */
async function missingExports(folder) {
  const { sources } = folder;
  const asked = references(folder).flatMap(({ specifier, reference }) => {
    const to = sources.resolutions.get(specifier)?.get(reference.text);
    if (to === undefined || !sources.modules.has(to)) return [];
    return reference.names.filter(([name]) => name !== '*').map(([name, , , start]) => ({ specifier, to: sources.typed(to), text: reference.text, name, start }));
  });
  const paths = await folder.resolve(asked.map((it) => [it.specifier, ['import', it.text, [it.name]]]));
  const found = paths.flatMap((entries, i) => missingIn(folder, endsOf(entries)).map((lack) => ({ ...asked[i], lack })));
  const isDirect = (/** @type {typeof found[0]} */ { to, lack }) => to === lack.module;
  const direct = new Set(found.filter(isDirect).map(({ lack }) => `${lack.name} ${lack.module}`));
  return found.filter((it) => isDirect(it) || !direct.has(`${it.lack.name} ${it.lack.module}`)).map(({ specifier, start, lack }) => ({
    what: 'name', ...folder.place(specifier, start), text: lack.name, how: folder.short(lack.module) }));
}

/** @param {Folder} folder @param {any[]} ends of paths @returns {{ module: string, name: string }[]} names that a module of the graph lacks, where nothing is found */
function missingIn(folder, ends) {
  if (ends.some(isDefinition)) return [];
  return ends.filter((it) => endOf(folder, it)?.what === 'name');
}

/**
 * Shared names, told at the module where their ways part: the modules that pass them on share them, too.
 * @param {Folder} folder
 * @returns {Promise<Finding[]>}
 */
async function ambiguousNames(folder) {
  const own = [...folder.sources.modules.values()].filter((it) => folder.sources.files.holds(it.file)).map((it) => it.specifier);
  const all = await sharedNames(folder, own);
  const stars = new Map(references(folder).filter(({ reference }) => reference.how === 'export *')
    .map(({ specifier, reference }) => [`${folder.short(specifier)} ${reference.text}`, { specifier, start: reference.start }]));
  return all.flatMap((it) => {
    const star = stars.get(`${it.module} ${partingText(it)}`);
    return star ? [{ what: /** @type {const} */ ('shared'), ...folder.place(star.specifier, star.start), text: it.name, how: ownersText(it) }] : [];
  });
}

const HEADS = {
  syntax: 'files with a syntax error, not analyzed',
  unread: 'unreadable files',
  file: 'unresolved imports',
  package: 'packages neither installed nor listed in package.json',
  name: 'missing exports',
  shared: 'ambiguous names, re-exported via `export *` from several modules',
};
/** How many are shown of each sort without `--all`. */
const SHOWN = 20;

/** @param {Finding[]} all @returns {[string, Finding[]][]} by what people read of them, the most frequent first */
function grouped(all) {
  /** @type {Map<string, Finding[]>} */
  const groups = new Map();
  for (const it of all) {
    const { what, text, how } = it;
    const key = what === 'name' ? `${text}  of ${how}` : what === 'shared' ? `${text}  from ${how}` : what === 'file' || what === 'package' ? `${how} "${text}"` : text;
    groups.set(key, [...(groups.get(key) ?? []), it]);
  }
  return [...groups].sort((a, b) => b[1].length - a[1].length);
}

/** @param {Run} run @param {Finding[]} found */
function print({ print: line, paint, options }, found) {
  for (const what of /** @type {(keyof typeof HEADS)[]} */ (Object.keys(HEADS))) {
    const mine = found.filter((it) => it.what === what);
    if (mine.length === 0) continue;
    const groups = grouped(mine);
    const shown = options.all ? groups : groups.slice(0, SHOWN);
    line(paint.bold(`${HEADS[what]}: ${mine.length}`));
    const rows = shown.map(([key, places]) => [`  ${key}`, placeText(places[0]) + (places.length > 1 ? ` and ${places.length - 1} more` : '')]);
    columns(rows, ([key, place]) => [paint.red(key), place]).forEach(line);
    if (shown.length < groups.length) line(`  and ${groups.length - shown.length} more (--all)`);
  }
}

/** @param {Folder} folder @param {boolean} isStrict @returns {Promise<Finding[]>} those that are shared, with `--strict` alone, last */
export async function findMissing(folder, isStrict) {
  const shared = await (isStrict ? ambiguousNames(folder) : []);
  return [...unparsed(folder), ...unresolvedImports(folder), ...(await missingExports(folder)), ...shared];
}

/** @param {Run} run @param {Folder} folder @returns {Promise<number>} the status */
export async function missing(run, folder) {
  const { report } = run;
  const found = report.found.rest(await findMissing(folder, run.options.strict ?? false), missingFinding);
  const all = references(folder);
  const { resolutions, external } = folder.sources;
  const targets = all.map(({ specifier, reference }) => resolutions.get(specifier)?.get(reference.text));
  const outside = new Set(targets.filter((it) => it !== undefined && external.has(it)));
  if (run.options.json) report.json({ missing: found, external: [...outside].sort() });
  else {
    print(run, found);
    const rest = outside.size > 0 ? `; ${counted(outside.size, 'external module')} not checked` : '';
    const shared = found.filter((it) => it.what === 'shared').length;
    const unread = found.filter(({ what }) => what === 'syntax' || what === 'unread').length;
    const missed = found.length - shared - unread;
    const told = [missed === 0 ? 'nothing is missing' : `${missed} missing`, ...(unread > 0 ? [`${counted(unread, 'file')} not analyzed`] : []),
      ...(shared > 0 ? [`${shared} shared`] : [])].join(', ');
    report.conclude(`${counted(all.length, 'import')} in ${counted(folder.sources.modules.size, 'module')}: ${told}${rest}`);
  }
  return report.found.status;
}
