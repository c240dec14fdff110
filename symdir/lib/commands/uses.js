// `symdir uses`: each import, re-export and reference that leads to a declaration.
import { columns, counted, placeText } from '../output.js';
import { isDefinition } from '../folder/folder.js';
import { Places } from '../folder/text.js';
import { definitionsOf } from '../uses/ends.js';
import { Finder } from '../uses/finder.js';
import { Tree } from '../uses/tree.js';
import { hitsAt, hitsOf, moduleOf, pathsOf, spotOf, treeOf } from './where.js';

/** @typedef {import('../folder/folder.js').Folder} Folder */
/** @typedef {import('../folder/folder.js').Definition} Definition */
/** @typedef {import('../folder/sources.js').Module} Module */
/** @typedef {import('../cli.js').Run} Run */
/** @typedef {import('./where.js').Hit} Hit */
/** @typedef {import('../uses/finder.js').Use} Use */
/** @typedef {{ kind: string, file: string, line: number, column: number }} Place */

/**
 * A declaration, as `--json` writes it.
 * @typedef {object} Used
 * @property {string} name as it stands where it is asked of
 * @property {Place[]} defined
 * @property {Use[]} uses by file, line and column
 */

/** @typedef {{ name: string, definitions: Definition[], hit: Hit }} Target */

/**
 * Finds the default export that is declared at a place, which may have no name there: its place is where `api` has it, or `default`.
 * @param {Folder} folder @param {Module} module @param {import('./where.js').Spot} spot
 * @returns {Promise<Target[]>} at most one
 */
async function defaultAt(folder, { specifier }, spot) {
  const [{ exports }] = await folder.exports([specifier]);
  const row = exports.find((it) => it.name === 'default' && it.module === specifier);
  const [leaves] = row ? await folder.leaves([[specifier, row.symbol]]) : [[]];
  const places = folder.placesOf(specifier);
  const [before] = /^\s*export\s+(?=default\b)/.exec(places.bytes.toString('utf8', ...(places.line(spot.line) ?? [0, 0]))) ?? [''];
  const isAt = (/** @type {Place} */ { line, column }) => line === spot.line && (spot.column === null || spot.column === column || (before !== '' && spot.column === before.length + 1));
  const definitions = leaves.filter(isDefinition).filter((it) => it.module === specifier && isAt(folder.defined(it)));
  return definitions.length > 0 ? [{ name: 'default', definitions, hit: { start: 0, end: 0, name: 'default', reference: [] } }] : [];
}

/**
 * What is asked of: of several names at the place those that are declared there, else each; of names for the same declarations the first.
 * @param {Folder} folder @param {Module} module @param {Hit[]} hits @param {import('./where.js').Spot} spot @param {string | undefined} name
 * @returns {Promise<Target[]>}
 */
async function targetsOf(folder, module, hits, spot, name) {
  const answers = await pathsOf(folder, module.specifier, hits);
  const named = hits.map((hit, i) => ({ name: hit.name, hit, definitions: definitionsOf(answers[i]) }));
  const all = [...named, ...(name === undefined || name === 'default' ? await defaultAt(folder, module, spot) : [])];
  const isDeclared = (/** @type {Definition} */ it) => it.module === module.specifier && folder.defined(it).line === spot.line;
  const declared = all.filter((it) => it.definitions.some(isDeclared));
  const some = declared.length > 0 ? declared : all.filter((it) => it.definitions.length > 0 || isLocal(it.hit));
  const key = (/** @type {Definition} */ it) => `${it.symbol} ${it.module}`;
  const keys = some.map(({ definitions, hit }) => (definitions.length > 0 ? definitions.map(key).sort().join('\n') : JSON.stringify(hit.reference)));
  return some.filter((_, i) => keys.indexOf(keys[i]) === i);
}

/** @param {Hit} hit @returns {boolean} whether a function or a block declares it */
function isLocal({ reference: [how, , scope] }) {
  return how === 'id' && scope !== 1;
}

/** @param {Folder} folder @param {Module} module @param {Tree} tree with bodies @param {Target} target that is no symbol of the module @returns {Used} */
function localUses(folder, { specifier }, tree, { name, hit: { reference } }) {
  const [, text, scope] = reference;
  const same = tree.nodes.flatMap(({ sym }, i) => (sym && sym[0] === text && sym[1] === scope ? [i] : []));
  const place = (/** @type {number} */ i) => folder.place(specifier, tree.nodes[i].range[0]);
  const found = same.filter((i) => tree.isLookedUp(i)).map((i) => ({
    ...place(i), how: /** @type {const} */ ('reference'), isType: tree.erased[i] === 1 }));
  return { name, defined: same.filter((i) => tree.isDeclared(i)).map((i) => ({ kind: 'local', ...place(i) })), uses: found };
}

/** @param {Folder} folder @param {{ file: string, line: number }} place @returns {string} the line of the text, as far as it is shown */
function lineText({ places }, { file, line }) {
  const found = places.get(file) ?? places.get(`file:///${file}`);
  const range = found?.line(line);
  return found && range ? found.bytes.toString('utf8', ...range).trim().slice(0, SHOWN) : '';
}

/** How much of a line is shown. */
const SHOWN = 80;

/** @param {Run} run @param {Folder} folder @param {Used} used */
function print({ print: line, paint, options }, folder, { name, defined, uses }) {
  const kinds = [...new Set(defined.map((it) => it.kind))].join('+');
  const files = new Set(uses.map((it) => it.file)).size;
  const told = uses.length === 0 ? 'no use' : `${counted(uses.length, 'use')} in ${counted(files, 'file')}`;
  line(`${[paint.bold(name), kinds, defined.map(placeText).join(', ')].filter(Boolean).join('  ')}: ${told}`);
  const rows = uses.map((it) => [`  ${placeText(it)}`, `${it.how}${it.isType ? ' (type)' : ''}`, lineText(folder, it)]);
  columns(rows, ([place, how, text]) => [place, how, paint.dim(text ?? '')]).forEach(line);
  if (!options.bodies && defined.some((it) => it.kind !== 'local')) line('  function bodies aren\'t searched: --bodies searches them');
}

/**
 * @param {Folder} folder @param {import('./where.js').Spot} spot @param {string | undefined} name
 * @returns {Promise<{ all: Used[], isName: boolean }>} the declarations there, and whether a name is there at all
 */
export async function findUses(folder, spot, name) {
  const module = moduleOf(folder, spot.file);
  const made = await treeOf(folder, module, spot.file);
  const hits = hitsAt(hitsOf(made), spot, new Places(made.text), name);
  const targets = await targetsOf(folder, module, hits, spot, name);
  if (targets.length === 0) return { all: [], isName: hits.length > 0 };
  const finder = new Finder(folder, targets.map((it) => it.definitions));
  const found = await finder.find();
  const tree = new Tree(made.text, targets.some(({ definitions }) => definitions.length === 0) ? made.rows() : [], false);
  const all = targets.map((it, i) => (it.definitions.length === 0 ? localUses(folder, module, tree, it) : {
    name: it.name, defined: it.definitions.map((at) => folder.defined(at)), uses: found[i] }));
  return { all, isName: true };
}

/** @param {Run} run @param {Folder} folder @returns {Promise<number>} the status: 0 where a use is found */
export async function uses(run, folder) {
  const name = run.words[2];
  const { all, isName } = await findUses(folder, spotOf(run.words[1], 'uses'), name);
  if (all.length === 0) {
    const what = isName ? 'no name that the analyzed modules declare' : 'no name of a variable or a type';
    run.print(run.options.json ? '[]' : `${name ? `no name ${name}` : what} at ${run.words[1]}`);
  } else if (run.options.json) run.print(JSON.stringify(all, null, 1));
  else for (const it of all) print(run, folder, it);
  return all.some((it) => it.uses.length > 0) ? 0 : 1;
}
