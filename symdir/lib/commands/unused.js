// `symdir unused`: exported names that nothing uses, files that nothing reaches, dependencies that nothing imports.
import { isDefinition } from '../folder/folder.js';
import { columns, counted, placeText } from '../output.js';
import { dependencyFinding, exportFinding, fileFinding } from '../report/findings.js';
import { dependenciesOf } from '../uses/dependencies.js';
import { Reach, keyOf } from '../uses/reach.js';

/** @typedef {import('../folder/folder.js').Folder} Folder */
/** @typedef {import('../folder/folder.js').Export} Export */
/** @typedef {import('../cli.js').Run} Run */

/**
 * An exported name, as `--json` writes it.
 * @typedef {object} Name
 * @property {string} name
 * @property {string} kind what its definitions are, as `class+namespace`; empty where there are none
 * @property {string} file
 * @property {number} line
 * @property {number} column
 * @property {boolean} inFile whether its own module uses it
 */

/**
 * @typedef {object} Unused
 * @property {string[]} files that no root reaches
 * @property {Name[]} exports that no entry exports, and no other module imports or re-exports
 * @property {Name[]} typesOnly values that others need as types alone
 * @property {import('../uses/dependencies.js').Dependency[]} dependencies but for those that values are imported of
 */

const VALUES = /^(class|function|enum|namespace|const|let|var|using|default|export =)$/;

/** @param {Reach} reach @param {{ module: string, row: Export }[]} found @returns {Promise<(Name & { isValue: boolean })[]>} */
async function namesOf({ folder, facts }, found) {
  const leaves = await folder.leaves(found.map(({ row }) => [row.module, row.symbol]));
  return found.map(({ module, row }, i) => {
    const definitions = leaves[i].filter(isDefinition);
    const kinds = definitions.map((it) => folder.kindOf(it));
    const specifier = facts.get(module)?.specifiers.get(row.name);
    const own = definitions.find((it) => it.module === module);
    const { file, line, column } = !specifier && own ? folder.defined(own) : folder.place(module, specifier?.start ?? 0);
    const inFile = facts.get(module)?.own.has(specifier?.local ?? row.name) ?? false;
    return { name: row.name, kind: [...new Set(kinds)].join('+'), file, line, column, inFile, isValue: kinds.some((it) => VALUES.test(it)) };
  });
}

/** @param {Folder} folder @param {string} specifier @returns {boolean} whether it is JavaScript beside what has its types, which stands for it */
function isShadowed({ sources }, specifier) {
  const { file } = /** @type {import('../folder/sources.js').Module} */ (sources.modules.get(specifier));
  return /\.[mc]?jsx?$/.test(file) && sources.hasTypes(file);
}

/** @param {Folder} folder @param {boolean} isProduction @returns {Promise<Unused>} */
export async function findUnused(folder, isProduction) {
  const reach = new Reach(folder, isProduction);
  await reach.read();
  const reached = reach.reached();
  const own = [...reach.facts.keys()].filter((it) => !it.endsWith('.json') && !isShadowed(folder, it));
  const rows = own.filter((it) => reached.has(it) && !reach.roots.has(it)).flatMap((module) => reach.ownExports(module).map((row) => ({ module, row })));
  const names = await namesOf(reach, rows.filter(({ row }) => !reach.used.has(keyOf(row.module, row.name))));
  const typed = rows.filter(({ module, row }) => reach.used.get(keyOf(row.module, row.name)) === true && !reach.facts.get(module)?.isDeclaration);
  const plain = (/** @type {Name & { isValue: boolean }} */ { isValue, ...it }) => it;
  return {
    files: own.filter((it) => !reached.has(it)).map((it) => folder.short(it)).sort(),
    exports: names.map(plain),
    typesOnly: (await namesOf(reach, typed)).filter((it) => it.isValue).map(plain),
    dependencies: dependenciesOf(folder, reach).filter((it) => it.use !== 'values'),
  };
}

/** How many are shown of each sort without `--all`. */
const SHOWN = 20;

/** @param {Run} run @param {string} head @param {string[][]} rows */
function printRows({ print, paint, options }, head, rows) {
  if (rows.length === 0) return;
  print(paint.bold(`${head}: ${rows.length}`));
  const shown = options.all ? rows : rows.slice(0, SHOWN);
  columns(shown.map(([first, ...more]) => [`  ${first}`, ...more]), ([first, ...more]) => [paint.yellow(first), ...more]).forEach(print);
  if (shown.length < rows.length) print(`  and ${rows.length - shown.length} more (--all)`);
}

/** @param {Name} it @returns {string[]} */
function nameRow(it) {
  return [it.name, it.kind, placeText(it), it.inFile ? 'used in its own file' : ''];
}

/** @param {Run} run @param {Folder} folder @returns {Promise<number>} the status */
export async function unused(run, folder) {
  const { report: { found: findings }, report } = run;
  const all = await findUnused(folder, run.options.production ?? false);
  const found = {
    ...all, files: findings.rest(all.files, fileFinding), exports: findings.rest(all.exports, exportFinding),
    dependencies: all.dependencies.filter((it) => it.use !== 'nothing' || findings.add(dependencyFinding(it))),
  };
  const by = (/** @type {string} */ use) => found.dependencies.filter((it) => it.use === use);
  const lost = by('nothing');
  if (run.options.json) {
    report.json({ entries: folder.entries.map((it) => folder.short(it)), ...found });
    return findings.status;
  }
  printRows(run, 'unreachable files', found.files.map((it) => [it]));
  printRows(run, 'unused exports', found.exports.map(nameRow));
  printRows(run, 'unused dependencies', lost.map((it) => [it.name, placeText(it)]));
  printRows(run, 'values that are used as types only', found.typesOnly.map(nameRow));
  printRows(run, 'dependencies that are imported for types only', by('types').map((it) => [it.name, placeText(it)]));
  printRows(run, 'dependencies that only unread JavaScript may import (--js reads it)', by('unknown').map((it) => [it.name, placeText(it)]));
  const counts = [[found.files.length, 'file'], [found.exports.length, 'export'], [lost.length, 'dependency']];
  const told = counts.flatMap(([many, word]) => (many ? [counted(Number(many), String(word))] : [])).join(', ');
  report.conclude(`${counted(folder.sources.modules.size, 'module')}, ${counted(folder.entries.length, 'entry')}: ${told ? `${told} unused` : 'nothing is unused'}`);
  return findings.status;
}
