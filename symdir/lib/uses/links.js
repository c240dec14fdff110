// What each module takes of others: by imports, re-exports and import types, and what its text mentions besides.
import { isJavaScript } from '../language.js';
import { Tree } from './tree.js';

/** @typedef {import('../folder/folder.js').Folder} Folder */
/** @typedef {import('../folder/sources.js').Module} Module */
/** @typedef {import('../tree/converter.js').Reference} Reference */

/**
 * A name that is taken of a module.
 * @typedef {object} Taken
 * @property {string} name `*` is all
 * @property {number} start in bytes
 * @property {boolean} isType whether types alone need it
 * @property {boolean} isPassed whether nothing is done with it but to export it
 * @property {string[] | null} parts of all: what is taken of it; null where it is passed on
 */

/**
 * A statement, or a part of one, that leads to another module.
 * @typedef {object} Link
 * @property {string} from the specifier of its module
 * @property {string} text
 * @property {string | null} to the specifier of the other module; null where it is unresolved
 * @property {Reference['how'] | 'mention'} how a `mention` is no import: a path in a string, a comment
 * @property {number} start in bytes
 * @property {boolean} isType whether no code is made of it
 * @property {boolean} isErased whether no code is made of it by any option: the word `type` is before all of it, or it is in a declaration file
 * @property {Taken[]} taken
 */

/** @typedef {{ values: number, types: number, passed: number, parts: Set<string>, isWhole: boolean }} Local what is done with an imported name */

const PASSING = new Set(['ExportSpecifier orig', 'ExportDefaultExpr expr', 'TsExportAssignment expr', 'TsImportEqualsDecl entity']);
const WITH_FLAG = new Set(['Import', 'ExportNamed', 'ExportAll', 'TsImportEqualsDecl']);

/** @param {Tree} tree @param {Reference[]} references @returns {Map<string, Local>} what is done with each name that is imported, by scope and name */
function locals(tree, references) {
  const imported = references.filter(({ how }) => how === 'import' || how === 'require').flatMap(({ names }) => names);
  /** @type {Map<string, Local>} */
  const found = new Map(imported.map(([, local, scope]) => [`${scope} ${local}`, { values: 0, types: 0, passed: 0, parts: new Set(), isWhole: false }]));
  for (const i of found.size > 0 ? tree.names() : []) {
    const [name, scope] = /** @type {[string, number]} */ (tree.nodes[i].sym);
    const local = found.get(`${scope} ${name}`);
    if (local) look(tree, i, local);
  }
  return found;
}

/** @param {Tree} tree @param {number} i where an imported name is looked up @param {Local} local is told what is done with it there */
function look(tree, i, local) {
  const part = tree.partBehind(i);
  const parts = part !== null ? [part] : tree.takenApart(i)?.map((it) => it.part);
  if (parts) for (const it of parts) local.parts.add(it);
  else local.isWhole = true;
  const specifier = tree.nodes[tree.above[i]];
  const isTypeExport = tree.stand(i) === 'ExportSpecifier orig' && Boolean(specifier.type_only || tree.nodes[tree.above[tree.above[i]]].type_only);
  if (tree.erased[i] || isTypeExport) local.types++;
  else if (PASSING.has(tree.stand(i))) local.passed++;
  else local.values++;
}

/** @param {Tree} tree @returns {Map<number, import('./tree.js').Node>} the statements that import or export, by where they start */
function statements({ nodes }) {
  return new Map(nodes.filter((it) => WITH_FLAG.has(it.kind)).map((it) => [it.range[0], it]));
}

/** @typedef {{ tree: Tree, locals: Map<string, Local>, isJs: boolean, isJsx: boolean, isPartly: boolean }} Around `isPartly`: without bodies */

/** @param {Around} around @param {Reference} reference @param {number} k which of its names @param {boolean} isFlagged by the word `type` @returns {Taken} */
function takenBy({ tree, locals: all, isJs, isJsx, isPartly }, { how, names }, k, isFlagged) {
  const [name, local, scope, start] = names[k];
  const found = how === 'import' || how === 'require' ? all.get(`${scope} ${local}`) : undefined;
  const isNoCode = isFlagged || tree.isDeclaration || how === 'import type';
  if (!found) return { name, start, isType: isNoCode, isPassed: !isNoCode && !isJs && how === 'export', parts: null };
  // what makes elements of `<a>` needn't be named
  const isKept = isJs || isPartly || found.values > 0 || (isJsx && found.types + found.passed === 0);
  const isType = isNoCode || (!isKept && found.passed === 0);
  return { name, start, isType, isPassed: !isType && !isKept, parts: found.isWhole ? null : [...found.parts] };
}

/** @param {Around} around @param {Reference} reference @param {import('./tree.js').Node | undefined} statement @returns {{ isType: boolean, isErased: boolean, taken: Taken[] }} */
function partsOf(around, reference, statement) {
  const { how, names, start } = reference;
  const isTypeStatement = how === 'import type' || around.tree.isDeclaration || statement?.type_only === true;
  const isWhole = names.length === 0 && (how === 'import type' || how === 'import()');
  if (isWhole) return { isType: isTypeStatement, isErased: isTypeStatement, taken: [{ name: '*', start, isType: isTypeStatement, isPassed: false, parts: null }] };
  const flags = (statement?.specifiers ?? []).map((/** @type {number} */ it) => around.tree.nodes[it].type_only === true);
  const taken = names.map((_, k) => takenBy(around, reference, k, isTypeStatement || flags[k] === true));
  return { isType: isTypeStatement || (taken.length > 0 && taken.every((it) => it.isType)), isErased: isTypeStatement, taken };
}

/** @param {Folder} folder @param {Module} module @param {Tree} tree its own @returns {Link[]} in the order of the text, import types apart */
export function linksOf(folder, module, tree) {
  const { specifier, file, parsed: { references } } = module;
  const isPartly = !folder.sources.reading.bodies;
  const around = { tree, locals: locals(tree, references), isJs: isJavaScript(file), isJsx: /x$/.test(file), isPartly };
  const all = statements(tree);
  return references.map((it) => {
    const statement = it.how === 'import type' || it.how === 'import()' ? undefined : all.get(it.start);
    const to = folder.sources.resolutions.get(specifier)?.get(it.text) ?? null;
    return { from: specifier, text: it.text, to, how: it.how, start: it.start, ...partsOf(around, it, statement) };
  });
}

/** @typedef {{ how: 'require' | 'mention', text: string, start: number, name: string | null }} Mention */

/** @param {Tree} tree @returns {Mention[]} what calls of `require` name, and relative paths in strings */
function mentionedStrings({ nodes, above }) {
  return nodes.flatMap(({ kind, value, range: [start] }, i) => {
    if (kind !== 'Str' || i === 0) return [];
    const [callee, first] = nodes[above[i]].kind === 'Other' ? nodes[above[i]].children : [];
    const isRequired = first === i && nodes[callee].sym?.[0] === 'require';
    return isRequired || /^\.{1,2}\//.test(value) ? [{ how: isRequired ? 'require' : 'mention', text: value, start, name: null }] : [];
  });
}

const REFERENCE_COMMENT = /^\/\/\/[ \t]*<reference[ \t]+(path|types)[ \t]*=[ \t]*["']([^"']+)["']/gm;
const DOC_COMMENT = /\/\*\*[^]*?\*\//g;
const DOC_IMPORT = /\bimport\(\s*["']([^"']+)["']\s*\)(?:\.([\p{ID_Start}$_][\p{ID_Continue}$]*))?/gu;

/**
 * @param {Tree} tree
 * @param {boolean} isJs
 * @returns {Mention[]} what comments lead to: other files and packages by `/// <reference>`, and types in those of JavaScript
 */
function mentionedInComments({ text }, isJs) {
  const how = /** @type {const} */ ('mention');
  const paths = [...text.matchAll(REFERENCE_COMMENT)].map(({ index = 0, 1: sort, 2: name }) => ({
    how, text: sort === 'path' && !/^\.{0,2}\//.test(name) ? `./${name}` : name, start: Buffer.byteLength(text.slice(0, index)), name: null }));
  if (!isJs) return paths;
  const comments = [...text.matchAll(DOC_COMMENT)].map(([comment]) => comment).join('\n');
  return [...paths, ...[...comments.matchAll(DOC_IMPORT)].map(([, from, name]) => ({ how, text: from, start: 0, name: name ?? null }))];
}

/** @param {Folder} folder @param {Module} module @param {Tree} tree @returns {Link[]} what leads to other modules and is no import: each text once */
export function mentionsOf(folder, { specifier, file, parsed }, tree) {
  const { resolver } = folder.sources;
  const known = new Set(parsed.references.map((it) => it.text));
  const strings = mentionedStrings(tree).filter((it) => !known.has(it.text));
  const all = new Map([...mentionedInComments(tree, isJavaScript(file)), ...strings].map((it) => [`${it.text} ${it.name}`, it]));
  return [...all.values()].map(({ how, text, start, name }) => {
    const found = resolver.resolve(file, text);
    const to = found?.external ?? (found?.file ? folder.sources.specifierOf(found.file) : null);
    const taken = [{ name: name ?? '*', start, isType: name !== null, isPassed: false, parts: null }];
    return { from: specifier, text, to, how, start, isType: name !== null, isErased: name !== null, taken };
  });
}
