// `symdir api`: what a folder exports.
import { existsSync, readFileSync, statSync } from 'node:fs';

import { Failure, fileFailure } from '../failure.js';
import { equalsMembers } from '../folder/equals.js';
import { isDefinition } from '../folder/folder.js';
import { endOf, endText } from '../folder/ends.js';
import { Open } from '../folder/open.js';
import { shortOf } from '../folder/specifier.js';
import { byName, columns, counted, placeText } from '../output.js';
import { apiFindings } from '../report/findings.js';
import { replaceFile } from '../write.js';
import { ownersText, sharedNames } from './shared.js';

/** @typedef {import('../folder/folder.js').Folder} Folder */
/** @typedef {import('../folder/folder.js').Definition} Definition */
/** @typedef {import('../cli.js').Run} Run */
/** @typedef {import('./shared.js').SharedName} SharedName */

/**
 * A public name, as `--json` tells it.
 * @typedef {object} PublicName
 * @property {string} entry the module that users import
 * @property {string} name
 * @property {string} kind what its definitions are, as `class+namespace`
 * @property {import('../folder/folder.js').Place[]} defined
 * @property {{ file: string, text: string }[]} through each `export *` that it comes by: the module, and what it names
 * @property {import('../folder/ends.js').End[]} unresolved the ends of its paths that are no definitions
 */

/** @param {string[]} kinds @returns {string} each once */
function joined(kinds) {
  return [...new Set(kinds)].join('+');
}

/**
 * @param {Folder} folder
 * @param {string} entry
 * @param {{ name: string, chain: [string, string][] }} row
 * @param {(Definition | import('../folder/folder.js').Unresolved)[]} leaves
 * @returns {PublicName}
 */
function publicName(folder, entry, { name, chain }, leaves) {
  const defined = folder.exported(leaves.filter(isDefinition)).map((it) => folder.defined(it));
  const unresolved = leaves.map((it) => endOf(folder, it)).filter((it) => it !== null);
  return {
    entry: folder.short(entry), name, kind: joined(defined.map((it) => it.kind)), defined,
    through: chain.map(([file, text]) => ({ file: folder.short(file), text })),
    unresolved: /** @type {import('../folder/ends.js').End[]} */ (unresolved),
  };
}

/** @param {Folder} folder @param {string[]} [entries] @returns {Promise<PublicName[]>} by entries, and in the order of the modules; those behind `export =` last */
export async function publicNames(folder, entries = folder.entries) {
  const all = await folder.exports(entries);
  const leaves = await folder.leaves(all.flatMap(({ exports }) => exports.map((row) => /** @type {[string, number]} */ ([row.module, row.symbol]))));
  const members = await Promise.all(entries.map((it) => equalsMembers(folder, it)));
  let next = 0;
  return entries.flatMap((entry, k) => [
    ...all[k].exports.map((row) => publicName(folder, entry, row, leaves[next++])),
    ...members[k].filter(({ name }) => all[k].exports.every((it) => it.name !== name)).map((it) => publicName(folder, entry, { ...it, chain: [] }, it.leaves)),
  ]);
}

/**
 * An `export *` whose names aren't known.
 * @typedef {{ entry: string, file: string, line: number, column: number, text: string, external: string | null, isLost?: boolean }} OpenStar `isLost`: it can't be read or parsed
 */

/** @param {Folder} folder @param {string} module @param {string} text @returns {{ file: string, line: number, column: number }} where its `export * from "text"` stands */
function starPlace(folder, module, text) {
  const all = folder.sources.modules.get(module)?.parsed.references ?? [];
  return folder.place(module, all.find((it) => it.how === 'export *' && it.text === text)?.start ?? 0);
}

/** @param {Folder} folder @param {string[]} entries @returns {Promise<OpenStar[]>} */
async function openStars(folder, entries) {
  const all = await folder.exports(entries);
  const lost = new Set([...folder.sources.unparsed(), ...folder.sources.unreadable()].map(({ file }) => file));
  return all.flatMap(({ unresolved }, i) => unresolved.map(([module, text]) => {
    const external = folder.sources.resolutions.get(module)?.get(text) ?? null;
    const isLost = external !== null && lost.has(folder.short(external));
    return { entry: folder.short(entries[i]), ...starPlace(folder, module, text), text, external, ...(isLost && { isLost }) };
  }));
}

/** @param {Folder} folder @param {string[]} entries @param {PublicName[]} names @returns {{ entry: string, module: string }[]} the modules that entries without names of their own declare by `declare module "name"` */
function declaredModules(folder, entries, names) {
  const full = new Set(names.map((it) => it.entry));
  return entries.filter((it) => !full.has(folder.short(it))).flatMap((entry) => (
    (folder.sources.modules.get(entry)?.parsed.modules ?? []).map((module) => ({ entry: folder.short(entry), module }))));
}

/** @param {Folder} folder @param {string[]} entries @param {PublicName[]} names @returns {{ entry: string, why: string }[]} the entries without names whose names `export` doesn't tell, as those of CommonJS */
function unlistedEntries(folder, entries, names) {
  const full = new Set(names.map((it) => it.entry));
  const open = new Open(folder.sources);
  return entries.filter((it) => !full.has(folder.short(it))).flatMap((entry) => {
    const why = open.reason(entry);
    // a script that imports is no CommonJS, and exports nothing
    const isScript = folder.sources.modules.get(entry)?.parsed.references.some(({ how }) => how === 'import');
    return why === null || isScript ? [] : [{ entry: folder.short(entry), why }];
  });
}

/** @param {PublicName} it @returns {string} where its first definition is, and how many more there are */
function whereText(it) {
  const [first, ...more] = it.defined;
  if (!first) return it.unresolved.length > 0 ? endText(it.unresolved[0]) : 'no definition';
  return placeText(first) + (more.length > 0 ? ` and ${more.length} more` : '');
}

/** @param {PublicName} it @returns {string} the statements by which it comes */
function throughText({ through, defined: [first] }) {
  const whole = first?.by ? [`${first.by.text} in ${placeText(first.by)}`] : [];
  const stars = through.length > 0 ? [`export * from ${through.map((it) => `"${it.text}"`).join(' > ')}`] : [];
  return [...stars, ...whole].join(', ');
}

/** @param {Run} run @param {string} entry @param {Answer} answer whole, of which what belongs to the entry is printed */
function printEntry({ print, paint }, entry, answer) {
  const names = answer.names.filter((it) => it.entry === entry);
  const files = new Set(names.flatMap((it) => it.defined.map((place) => place.file)));
  print(`${paint.bold(entry)}: ${counted(names.length, 'public name')}${files.size > 0 ? `, defined in ${counted(files.size, 'file')}` : ''}`);
  const sorted = [...names].sort(byName);
  const rows = sorted.map((it) => [`  ${it.name}`, it.kind, whereText(it), throughText(it)]);
  const lines = columns(rows, ([name, kind, where, through]) => [name, kind, /^unresolved/.test(where) ? paint.red(where) : where, paint.dim(through ?? '')]);
  lines.forEach((line, i) => [line, ...(answer.docLines?.(sorted[i]) ?? []).map((it) => paint.dim(it))].forEach(print));
  for (const it of answer.shared.filter(({ module }) => module === entry)) print(`  ${it.name} ${paint.yellow(`is re-exported via export * from ${it.owners.length} modules`)}: ${ownersText(it)}`);
  for (const it of answer.declared.filter((one) => one.entry === entry)) print(`  declare module "${it.module}" in ${entry}: its names aren't listed`);
  for (const it of answer.unlisted.filter((one) => one.entry === entry)) print(`  not known: ${entry} ${it.why}`);
  for (const it of answer.open.filter((one) => one.entry === entry)) {
    const what = it.external ? `${shortOf(it.external)} is${it.isLost ? 'n\'t analyzed' : ' external'}, and its names are public too` : 'unresolved';
    print(`  ${placeText(it)}: export * from "${it.text}": ${it.external ? what : paint.red(what)}`);
  }
}

/**
 * @typedef {object} Answer
 * @property {PublicName[]} names
 * @property {OpenStar[]} open
 * @property {SharedName[]} shared
 * @property {{ entry: string, module: string }[]} declared
 * @property {{ entry: string, why: string }[]} unlisted
 * @property {(it: any) => string[]} [docLines] of names with signatures and doc comments
 */

/** @param {Folder} folder @param {string[]} [entries] @returns {Promise<Answer>} what these modules export */
export async function exportsOf(folder, entries = folder.entries) {
  const names = await publicNames(folder, entries);
  return {
    names, open: await openStars(folder, entries), shared: await sharedNames(folder, entries),
    declared: declaredModules(folder, entries, names), unlisted: unlistedEntries(folder, entries, names),
  };
}

/** @param {Run} run @throws {Failure} where `--save` names a file that it didn't write, as package.json */
export async function checkSave({ options }) {
  if (!options.save || !statSync(options.save, { throwIfNoEntry: false })?.isFile()) return;
  const { isSnapshot } = await import('../surface/text.js');
  if (!isSnapshot(textOf(options.save))) throw new Failure(`${options.save} isn't a snapshot, and isn't overwritten`, 2);
}

/** @param {Run} run @param {Folder} folder @returns {Promise<number>} */
async function save({ options, print }, folder) {
  const [{ keptSurface }, { surfaceText, withoutMembers }] = await Promise.all([import('../surface/kept.js'), import('../surface/text.js')]);
  const file = /** @type {string} */ (options.save);
  const items = await keptSurface(folder, false);
  replaceFile(file, [Buffer.from(surfaceText(items))]);
  print(`${file}: ${counted(withoutMembers(items).length, 'public name')}`);
  return 0;
}

/** @param {string} file a snapshot @returns {string} */
function textOf(file) {
  if (!existsSync(file)) throw new Failure(`no such file: ${file}; \`symdir api DIR --save ${file}\` writes it`);
  try {
    return readFileSync(file, 'utf8');
  } catch (error) {
    throw fileFailure(file, 'read', error);
  }
}

/** @param {Run} run @param {Folder} folder @returns {Promise<number>} */
async function check(run, folder) {
  const [{ keptSurface }, { readSurface }, { changesBetween, reportChanges }] = await Promise.all([
    import('../surface/kept.js'), import('../surface/text.js'), import('./diff.js')]);
  const file = /** @type {string} */ (run.options.check);
  const before = readSurface(textOf(file), file);
  const items = await keptSurface(folder, run.report.format !== undefined);
  const texts = { same: `the public names are those of ${file}`, hint: `; \`symdir api DIR --save ${file}\` updates the snapshot` };
  return reportChanges(run, await changesBetween(before, { items, isWhole: true }), items, texts);
}

/** @param {Run} run @param {Folder} folder @returns {Promise<string>} the section of a page with its picture, which Graphviz draws while the rest of the page is made */
async function drawn(run, folder) {
  if (run.report.format !== 'html') return '';
  // what makes the page is loaded while symq reads the graph
  const [{ pictureHtml }] = await Promise.all([import('../report/picture.js'), import('../report/html.js')]);
  return pictureHtml(run, folder);
}

/** @param {Folder} folder @param {Promise<Answer>} answer asked before @returns {Promise<Answer>} with signatures and doc comments of its names, which are asked for at the same time */
async function withDocs(folder, answer) {
  const { described, docLines } = await import('../report/described.js');
  const names = await described(folder, answer);
  return { ...await answer, names, docLines };
}

/** @param {Run} run @param {Folder} folder @param {import('../report/api.js').Answer} answer @param {Promise<string>} picture of a page @returns {Promise<string | Buffer>} in the format that the run reports in, what makes the other one isn't loaded */
async function bodyOf(run, folder, answer, picture) {
  if (run.report.format === 'html') return (await import('../report/html.js')).page(run, folder, answer, picture);
  return (await import('../report/api.js')).apiMarkdown(run, answer);
}

/** @param {Run} run @param {Folder} folder @returns {Promise<number>} the status, with the page of the run before where that is kept */
async function paged(run, folder) {
  const { report } = run;
  const [{ titleOf }, { identityOf }] = await Promise.all([import('../report/title.js'), import('../folder/results.js')]);
  const of = [titleOf(folder), identityOf('dot')];
  const kept = folder.kept(of);
  if (kept) {
    report.found.rest(kept, (it) => it);
    report.body = folder.keptBytes();
    return report.found.status;
  }
  const before = report.found.all.length;
  let isWhole = true;
  const warn = (/** @type {string} */ line) => {
    isWhole = false;
    run.warn(line);
  };
  const status = await reported({ ...run, warn }, folder);
  if (isWhole) folder.keep(report.found.all.slice(before), of, /** @type {Buffer} */ (report.body));
  return status;
}

/** @param {Run} run @param {Folder} folder @returns {Promise<number>} the status */
export async function api(run, folder) {
  if (run.options.save) return save(run, folder);
  if (run.options.check) return check(run, folder);
  return run.report.format === 'html' ? paged(run, folder) : reported(run, folder);
}

/** @param {Run} run @param {Folder} folder @returns {Promise<number>} the status */
async function reported(run, folder) {
  const { report, options } = run;
  const picture = drawn(run, folder);
  // where the page fails before, that is told
  picture.catch(() => {});
  const found = exportsOf(folder);
  const isDescribed = options.docs || report.format === 'markdown' || report.format === 'html';
  const [answer] = await Promise.all([isDescribed ? withDocs(folder, found) : found, found]);
  const { names, open, shared, declared, unlisted } = answer;
  const entries = folder.entries.map((it) => folder.short(it));
  report.found.rest(apiFindings(folder, answer), (it) => it);
  if (report.format === 'markdown' || report.format === 'html') {
    report.body = await bodyOf(run, folder, { ...answer, entries, names: /** @type {any} */ (names) }, picture);
  } else if (options.json) {
    report.json({ entries, names, ...(options.strict && { shared }), open, ...(declared.length > 0 && { declared }), ...(unlisted.length > 0 && { unlisted }) });
  } else for (const it of entries) printEntry(run, it, answer);
  return report.found.status;
}
