// `symdir where`: go to definition, with the whole path.
import { readFileSync } from 'node:fs';
import path from 'node:path';

import { Failure } from '../failure.js';
import { isDefinition } from '../folder/folder.js';
import { endOf, endText } from '../folder/ends.js';
import { openMembers } from '../folder/members.js';
import { endsOf, visitPaths } from '../folder/paths.js';
import { Places, decoded } from '../folder/text.js';
import { isCode, isJavaScript, languageOf } from '../language.js';
import { columns, placeText } from '../output.js';
import { TreeNode, nodesFrom, nodesText } from '../tree/node.js';

/** @typedef {import('../folder/folder.js').Folder} Folder */
/** @typedef {import('../cli.js').Run} Run */

/** @typedef {{ file: string, line: number, column: number | null }} Spot */

/** @param {string | undefined} word as `FILE:LINE` or `FILE:LINE:COLUMN` @param {string} [command] @returns {Spot} */
export function spotOf(word, command = 'where') {
  const found = /^(.+?):(\d+)(?::(\d+))?$/.exec(word ?? '');
  if (!found) throw new Failure(`${command} takes FILE:LINE or FILE:LINE:COLUMN, as \`symdir ${command} . src/a.ts:3:14\``, 2);
  return { file: found[1], line: Number(found[2]), column: found[3] ? Number(found[3]) : null };
}

/** @param {import('../folder/sources.js').Sources} sources @param {string} file absolute @returns {string | null} why it isn't read, where it is there and could be */
function whyUnread(sources, file) {
  if (!isCode(file) || !sources.files.holds(file) || !sources.files.has(file)) return null;
  if (sources.files.isSkipped(file)) return '--skip leaves it out';
  return isJavaScript(file) && sources.hasTypes(file) ? 'a file with its types is read in its place (--js reads both)' : null;
}

/** @param {Folder} folder @param {string} file @returns {import('../folder/sources.js').Module} */
export function moduleOf({ sources }, file) {
  const files = [sources.folder, process.cwd()].map((it) => path.resolve(it, file));
  for (const it of files) {
    const found = sources.modules.get(sources.specifierOf(it));
    if (found) return found;
  }
  const why = files.map((it) => whyUnread(sources, it)).find((it) => it !== null);
  throw new Failure(why ? `${file} isn't read: ${why}` : `no such module: ${file} in ${sources.folder}`, 2);
}

/**
 * A name in a text, and what is asked of it.
 * @typedef {object} Hit
 * @property {number} start in bytes
 * @property {number} end
 * @property {string} name with the parts behind it, as `a.b`
 * @property {unknown[]} reference as `symq` takes it
 * @property {number} [from] where the statement stands that makes it stand for a whole module
 */

/** @param {TreeNode[]} nodes @returns {Map<TreeNode, string>} the names behind `import("x")` in types, with the text between its quotes */
function namesOfImportTypes(nodes) {
  const found = new Map();
  for (const { kind, fields: { arg, qualifier } } of nodes) {
    if (kind !== 'TsImportType') continue;
    for (let at = /** @type {TreeNode | null} */ (qualifier); at; at = /** @type {TreeNode | null} */ (at.fields.left ?? null)) found.set(at, arg);
  }
  return found;
}

/** @param {TreeNode[]} nodes @returns {Hit[]} each name that is a variable or a type, and each dotted name */
export function namesIn(nodes) {
  /** @type {Hit[]} */
  const hits = [];
  /** @type {Map<TreeNode, { base: TreeNode, parts: string[] } | null>} */
  const dotted = new Map();
  const imported = namesOfImportTypes(nodes);
  for (const node of nodes) {
    const text = imported.get(node);
    if (text === undefined && (node.kind === 'Ident' || node.kind === 'BindingIdent')) {
      const [name, scope] = /** @type {[string, number]} */ (node.fields.sym);
      hits.push({ start: node.start, end: node.start + Buffer.byteLength(name), name, reference: ['id', name, scope] });
    }
    const whole = dottedName(node, dotted);
    if (!whole || whole.parts.length === 0) continue;
    const [name, scope] = /** @type {[string, number]} */ (whole.base.fields.sym);
    const last = /** @type {string} */ (whole.parts[whole.parts.length - 1]);
    hits.push({ start: node.end - Buffer.byteLength(last), end: node.end, name: [name, ...whole.parts].join('.'),
      reference: text === undefined ? ['qualified', name, scope, whole.parts] : ['import', text, [name, ...whole.parts]] });
  }
  return hits;
}

/** @param {TreeNode} node @param {Map<TreeNode, any>} known @returns {{ base: TreeNode, parts: string[] } | null} */
function dottedName(node, known) {
  if (known.has(node)) return known.get(node);
  let found = null;
  const { left, right, obj, prop } = node.fields;
  if (node.kind === 'Ident') found = { base: node, parts: [] };
  else if (node.kind === 'TsQualifiedName' || node.kind === 'Member') {
    const before = dottedName(/** @type {TreeNode} */ (left ?? obj), known);
    const name = node.kind === 'Member' ? /** @type {TreeNode} */ (prop).fields.name : right;
    found = before && typeof name === 'string' ? { base: before.base, parts: [...before.parts, name] } : null;
  }
  known.set(node, found);
  return found;
}

/** @param {import('../tree/converter.js').Reference[]} references @returns {Hit[]} the names that are imported or exported from elsewhere */
export function importedNames(references) {
  return references.flatMap(({ text, names }) => names.filter(([name]) => name !== '*').map(([name, , , start]) => ({
    start, end: start + Buffer.byteLength(name), name, reference: ['import', text, [name]] })));
}

/** @param {TreeNode[]} nodes @returns {Hit[]} the names behind `as` in exports, which stand for the ones before it */
export function exportedNames(nodes) {
  return nodes.filter(({ kind }) => kind === 'ExportNamed').flatMap(({ fields: { src, specifiers } }) => (
    /** @type {TreeNode[]} */ (specifiers ?? []).flatMap(({ kind, start: from, end, fields: { orig, exported, name: all } }) => {
      const name = /** @type {string | undefined} */ (kind === 'ExportNamespace' ? all : exported);
      // of a name in quotes the place isn't known here
      if (!name || !/^[\p{ID_Start}$_][\p{ID_Continue}$]*$/u.test(name)) return [];
      const at = { start: end - Buffer.byteLength(name), end, name };
      if (kind === 'ExportNamespace') return [{ ...at, reference: ['import', src, []], from }];
      const { sym, value } = /** @type {TreeNode} */ (orig).fields;
      const own = Array.isArray(sym) ? sym : [value];
      return [{ ...at, reference: src ? ['import', src, [own[0]]] : ['id', ...own] }];
    })));
}

/** @param {{ references: import('../tree/converter.js').Reference[], nodes: TreeNode[] }} made of a text @returns {Hit[]} */
export function hitsOf({ references, nodes }) {
  return [...importedNames(references), ...namesIn(nodes), ...exportedNames(nodes)];
}

/** @param {Folder} folder @param {string} module @param {Hit[]} hits @returns {Promise<any[][]>} the paths of each to where it is defined */
export async function pathsOf(folder, module, hits) {
  const answers = await folder.resolve(hits.filter(({ from }) => from === undefined).map((it) => [module, it.reference]));
  return hits.map(({ from: start, reference: [, star] }) => (start === undefined ? answers.shift() ?? []
    : [folder.settling.wholeModule({ module, start, star })]));
}

/** @param {Hit[]} hits @param {Spot} spot @param {Places} places @param {string | undefined} name @returns {Hit[]} each name once; those of other modules go first */
export function hitsAt(hits, spot, places, name) {
  const line = places.line(spot.line);
  if (!line) throw new Failure(`${spot.file} has ${places.starts.length} lines`, 2);
  const at = spot.column === null ? null : /** @type {number} */ (places.offset(spot.line, spot.column));
  const isAt = (/** @type {Hit} */ it) => (at === null ? it.start >= line[0] && it.start < line[1] : it.start <= at && at < it.end);
  const met = new Set();
  const found = [];
  for (const it of hits.filter((hit) => isAt(hit) && (!name || hit.name === name))) {
    const keys = [`${it.start}`, JSON.stringify(it.reference)];
    if (!keys.some((key) => met.has(key))) found.push(it);
    keys.forEach((key) => met.add(key));
  }
  return found.sort((a, b) => a.start - b.start);
}

/**
 * @typedef {object} Way
 * @property {string[]} through the modules on the way
 * @property {{ kind: string, file: string, line: number, column: number } | null} defined
 * @property {import('../folder/ends.js').End | null} unresolved
 */

/** @param {Folder} folder @param {string} specifier @param {any[]} entries of paths @returns {Set<any>} the definitions in other modules that they don't export, where they export others of the symbol */
function hiddenFrom(folder, specifier, entries) {
  const elsewhere = endsOf(entries).filter(isDefinition).filter((it) => it.module !== specifier);
  const exported = new Set(folder.exported(elsewhere));
  return new Set(elsewhere.filter((it) => !exported.has(it)));
}

/** @param {Folder} folder @param {any[]} entries of paths @param {Set<any>} hidden definitions that aren't told @returns {Way[]} */
function waysOf(folder, entries, hidden) {
  /** @type {Way[]} */
  const found = [];
  visitPaths(entries, /** @type {string[]} */ ([]), (it, through) => {
    const here = folder.short(it.module);
    if ('next' in it) return through[through.length - 1] === here ? through : [...through, here];
    if (isDefinition(it) && !hidden.has(it)) found.push({ through, defined: folder.defined(it), unresolved: null });
    if (!isDefinition(it)) found.push({ through, defined: null, unresolved: endOf(folder, it) });
    return through;
  });
  return found;
}

/** @param {TreeNode} node @returns {TreeNode[]} the names that it declares by a field */
function declaredBy(node) {
  const { ident, id } = node.fields;
  const names = [node, ident, id].filter((it) => it instanceof TreeNode && /^(Ident|BindingIdent)$/.test(it.kind) && (it !== node || it.kind === 'BindingIdent'));
  return /** @type {TreeNode[]} */ (names);
}

/**
 * Where a name that is no symbol of the module is declared, as a variable in the body of a function.
 * @param {Folder} folder
 * @param {string} specifier
 * @param {TreeNode[]} nodes
 * @param {Hit} hit
 * @returns {Way[]}
 */
function localWays(folder, specifier, nodes, { reference: [how, name, scope] }) {
  if (how !== 'id' || scope === 1) return [];
  const found = nodes.flatMap(declaredBy).find(({ fields: { sym } }) => Array.isArray(sym) && sym[0] === name && /** @type {any} */ (sym)[1] === scope);
  return found ? [{ through: [], defined: { kind: 'local', ...folder.place(specifier, found.start) }, unresolved: null }] : [];
}

/** @param {Run} run @param {Folder} folder @param {{ hit: Hit, ways: Way[] }[]} found @param {import('../folder/sources.js').Module} module */
function printWays({ print, paint }, folder, found, module) {
  for (const { hit, ways } of found) {
    print(`${paint.bold(hit.name)}  at ${placeText(folder.place(module.specifier, hit.start))}`);
    const rows = ways.map(({ through, defined, unresolved }) => [
      `  ${defined ? defined.kind : unresolved ? endText(unresolved) : ''}`,
      defined ? placeText(defined) : '',
      through.length > 0 ? `via ${through.join(' > ')}` : '',
    ]);
    columns(rows, ([kind, where, through]) => [/^ *unresolved/.test(kind) ? paint.red(kind) : kind, where, paint.dim(through)]).forEach(print);
    if (ways.length === 0) print('  no definition in the analyzed modules: a local name or a global');
  }
}

/** @param {Way[]} ways @param {Way[]} local @returns {Way[]} */
function orOwn(ways, local) {
  return local.length > 0 ? local : ways;
}

/** @typedef {{ text: string, references: import('../tree/converter.js').Reference[], nodes: TreeNode[], rows: () => import('../uses/tree.js').Node[] }} Made of a text, with the nodes as they are kept, too */

/** @param {import('../folder/sources.js').Module['parsed']} parsed with all nodes of its text @returns {Made} from its tree, without TypeScript, which takes longer to load */
export function madeOf({ text: json, references }) {
  const { text, tree: { nodes } } = JSON.parse(`${json}}`);
  return { text, references, nodes: nodesFrom(nodes), rows: () => nodes };
}

/** @param {Folder} folder @param {import('../folder/sources.js').Module} module @param {string} name of its file @returns {Promise<Made>} its nodes, with those in the bodies of functions */
export async function treeOf(folder, { file, parsed }, name) {
  if (file.endsWith('.json')) throw new Failure(`${name} is JSON: names are looked up in modules that import it`, 2);
  if (parsed.fault) throw new Failure('a file with a syntax error isn\'t analyzed', 3, 'source');
  if (folder.sources.reading.bodies || languageOf(file).declaration) return madeOf(parsed);
  const [{ nodesOf }, { storeCompiled }] = await Promise.all([import('../tree/convert.js'), import('../tree/typescript.js')]);
  const made = parsedDeep(() => nodesOf(file, decoded(readFileSync(file)), { ...languageOf(file), bodies: true, ambient: false }));
  storeCompiled();
  if (!made?.nodes) throw new Failure(`${name} is nested too deep for \`where\` and \`uses\``, 3, 'source');
  const { text, references, nodes } = made;
  return { text, references, nodes, rows: () => JSON.parse(nodesText(nodes)) };
}

/** @template T @param {() => T} parse @returns {T | null} null where the stack isn't deep enough */
function parsedDeep(parse) {
  try {
    return parse();
  } catch (error) {
    if (error instanceof RangeError) return null;
    throw error;
  }
}

/**
 * @param {Folder} folder @param {Spot} spot @param {string | undefined} name
 * @returns {Promise<{ module: import('../folder/sources.js').Module, found: { hit: Hit, ways: Way[] }[] }>} each name there, and where it leads
 */
async function waysAt(folder, spot, name) {
  const module = moduleOf(folder, spot.file);
  const made = await treeOf(folder, module, spot.file);
  const hits = hitsAt(hitsOf(made), spot, new Places(made.text), name);
  const paths = await pathsOf(folder, module.specifier, hits);
  await openMembers(folder, paths);
  /** @type {{ hit: Hit, ways: Way[] }[]} */
  const found = hits.map((hit, i) => ({ hit, ways: waysOf(folder, paths[i], hiddenFrom(folder, module.specifier, paths[i])) }));
  for (const it of found) if (!it.ways.some((way) => way.defined)) it.ways = orOwn(it.ways, localWays(folder, module.specifier, made.nodes, it.hit));
  return { module, found };
}

/** @typedef {{ name: string, at: { file: string, line: number, column: number }, ways: Way[] }} Found a name, as `--json` tells it */

/** @param {Folder} folder @param {import('../folder/sources.js').Module} module @param {{ hit: Hit, ways: Way[] }[]} found @returns {Found[]} */
function told(folder, module, found) {
  return found.map(({ hit, ways }) => ({ name: hit.name, at: folder.place(module.specifier, hit.start), ways }));
}

/** @param {Folder} folder @param {Spot} spot @param {string | undefined} name @returns {Promise<Found[]>} */
export async function findDefinitions(folder, spot, name) {
  const { module, found } = await waysAt(folder, spot, name);
  return told(folder, module, found);
}

/** @param {Run} run @param {Folder} folder @returns {Promise<number>} the status: 0 where a definition is found */
export async function where(run, folder) {
  const name = run.words[2];
  const { module, found } = await waysAt(folder, spotOf(run.words[1]), name);
  if (run.options.json) run.print(found.length > 0 ? JSON.stringify(told(folder, module, found), null, 1) : '[]');
  else if (found.length === 0) run.print(`no ${name ? `name ${name}` : 'name of a variable or a type'} at ${run.words[1]}`);
  else printWays(run, folder, found, module);
  return found.some(({ ways }) => ways.some((it) => it.defined)) ? 0 : 1;
}
