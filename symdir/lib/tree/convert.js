// One text to one tree.
import { Converter, K, hasModifier, ts } from './converter.js';
import { declaredNames, hoistBody } from './scopes.js';
import { TreeNode, numbered } from './node.js';
import { TreeText } from './treetext.js';
import { expect, expectNone } from './typescript.js';
import { overNewer } from './newer.js';
import { item } from './items.js';
import { moduleName } from './names.js';
import { wellFormed } from './offsets.js';

/** @typedef {import('./converter.js').Options} Options */
/** @typedef {import('./nodes.js').Made} Made */

/**
 * @typedef {object} Fault
 * @property {number} line from 1
 * @property {number} column from 1, in UTF-16 units
 * @property {string} text
 */

/**
 * @typedef {object} Converted
 * @property {string} text well formed
 * @property {Buffer[] | null} tree the JSON text of the tree's nodes, in pieces; null where there is none
 * @property {(before: string[], behind: string) => Buffer} between that text between others, once: its memory may be used for another tree then
 * @property {number} nodes how many there are
 * @property {Fault | null} fault why there is none
 * @property {import('./converter.js').Reference[]} references
 * @property {number[]} declarations
 * @property {string[]} implicit names that TypeScript exports of a declaration file without a word
 * @property {string[] | null} equals the parts of the name behind `export =`; none where something else stands there
 * @property {string[]} modules that it declares by `declare module "name"`
 * @property {boolean} isScript whether it is no module, so that what it declares is there for all
 * @property {import('./converter.js').Block[]} blocks of namespaces that have `export { .. }` or `export import`
 * @property {number} start of the first statement, in bytes
 */

/** What is noted of a text without a tree. */
const NOTHING = { references: [], declarations: [], implicit: [], equals: null, modules: [], isScript: false, blocks: [], start: 0 };

/** @param {string} text @param {number} at @returns {boolean} whether nothing but spaces and tabs stands before it in its line */
function beginsLine(text, at) {
  let unit = 32;
  while (unit === 32 || unit === 9) unit = text.charCodeAt(--at);
  return at < 0 || unit === 10 || unit === 13 || unit === 0x2028 || unit === 0x2029;
}

/**
 * @param {string} text
 * @returns {string} of equal length, in which TypeScript parses no comment for its tags: the second star is a space in those that
 * begin a line, where nothing of a tree is a string
 */
function withoutTags(text) {
  const parts = [];
  let from = 0;
  for (let at = text.indexOf('/**'); at >= 0; at = text.indexOf('/**', at + 3)) {
    if (text.charCodeAt(at + 3) === 47 || !beginsLine(text, at)) continue;
    parts.push(text.slice(from, at), '/* ');
    from = at + 3;
  }
  return from === 0 ? text : parts.join('') + text.slice(from);
}

/** @param {string} name @param {string} source @param {Options} options @returns {import('typescript').SourceFile} without what comments say, which takes long and isn't needed */
function parsed(name, source, options) {
  expect(source);
  const text = withoutTags(source);
  const kind = { ts: ts.ScriptKind.TS, tsx: ts.ScriptKind.TSX, js: ts.ScriptKind.JS, jsx: ts.ScriptKind.JSX }[options.language];
  const how = { languageVersion: ts.ScriptTarget.Latest, jsDocParsingMode: 1 };
  try {
    return ts.createSourceFile(name, text, /** @type {any} */ (how), false, kind);
  } catch (error) {
    // what the parser noted of a text that it left halfway would stand for the next one, until it comes to an end
    ts.createSourceFile(name, '', /** @type {any} */ (how), false, kind);
    throw error;
  } finally {
    expectNone(source);
  }
}

/** @param {import('typescript').SourceFile} file @returns {readonly import('typescript').DiagnosticWithLocation[]} */
function faultsOf(file) {
  return /** @type {any} */ (file).parseDiagnostics;
}

/** @param {string} name @param {string} text @param {Options} options the text as it is, or written over where that has fewer faults */
function parsedAnyhow(name, text, options) {
  const file = parsed(name, text, options);
  if (faultsOf(file).length === 0) return { file, marks: null };
  const over = overNewer(text);
  if (over.text === text) return { file, marks: null };
  const again = parsed(name, over.text, options);
  return faultsOf(again).length < faultsOf(file).length ? { file: again, marks: over.marks } : { file, marks: null };
}

/** @param {import('typescript').SourceFile} file @returns {boolean} whether TypeScript exports its declarations without a word */
function exportsAll(file) {
  const isModule = file.statements.some((it) => ts.isImportDeclaration(it) || ts.isImportEqualsDeclaration(it) || hasModifier(it, K.ExportKeyword));
  return isModule && !file.statements.some((it) => ts.isExportDeclaration(it) || ts.isExportAssignment(it));
}

/** @param {Converter} c @param {import('typescript').ExportDeclaration} it of names of the module itself, which are noted */
function specify(c, { exportClause: clause }) {
  if (!clause || !ts.isNamedExports(clause)) return;
  for (const it of clause.elements) c.specified.add(moduleName(c, it.propertyName ?? it.name));
}

/** @param {readonly unknown[]} list @param {number} i of what is converted, and which isn't looked through again then for what is garbage */
function letGo(list, i) {
  /** @type {unknown[]} */ (list)[i] = null;
}

/** @param {Converter} c @param {(item: Made) => void} add is given each item of the module, in order, when it is made, and is there for that long alone, as is its statement */
function items(c, add) {
  const list = c.file.statements;
  hoistBody(list, c.scope);
  const isAmbient = c.options.ambient && c.options.declaration && exportsAll(c.file);
  if (!c.options.ambient && c.options.declaration && exportsAll(c.file)) c.implicit = list.flatMap(declaredNames);
  for (const it of list) if (ts.isExportDeclaration(it) && !it.moduleSpecifier) specify(c, it);
  c.exporting(isAmbient, () => list.forEach((it, i) => {
    const made = item(c, it, isAmbient);
    if (Array.isArray(made)) made.forEach(add);
    else add(made);
    c.nodes.clear();
    letGo(list, i);
  }));
}

/** @param {Converter} c before its statements are converted @returns {{ start: number, end: number }} where they stand */
function rangeOf(c) {
  const list = c.file.statements;
  return list.length === 0 ? { start: 0, end: 0 } : { start: c.byte(c.start(list[0])), end: c.byte(list[list.length - 1].end) };
}

/** @param {import('typescript').SourceFile} file @param {number} at @param {string} text @returns {Fault} */
function faultAt(file, at, text) {
  const { line, character } = ts.getLineAndCharacterOfPosition(file, at);
  return { line: line + 1, column: character + 1, text };
}

const TOO_DEEP = { line: 1, column: 1, text: 'it is nested more than 4,096 deep' };

/** @param {string} name @param {string} source @param {Options} options @returns {{ text: string, fault: Fault | null, c: Converter | null }} what converts the text, where it has no fault */
function begun(name, source, options) {
  const text = wellFormed(source);
  const { file, marks } = parsedAnyhow(name, text, options);
  const [first] = faultsOf(file);
  if (!first) return { text, fault: null, c: new Converter(file, marks, text, options) };
  const { messageText: said } = first;
  return { text, fault: faultAt(file, first.start, typeof said === 'string' ? said : said.messageText), c: null };
}

/** @param {Converter} c that has converted the text @param {boolean} isDeep whether the tree is too deep @returns {Fault | null} */
function faultOf(c, isDeep) {
  if (c.unnamed !== null) return faultAt(c.file, c.unnamed, 'String literal expected.');
  return isDeep ? TOO_DEEP : null;
}

/** @param {Converter} c that has converted the text @param {number} start of its first statement @returns what it noted on the way */
function notedBy(c, start) {
  const { references, declarations, implicit, equals, modules, blocks } = c;
  return { references, declarations, implicit, equals, modules, isScript: !ts.isExternalModule(c.file), blocks, start };
}

/**
 * The nodes of a text, for whoever looks at them.
 * @param {string} name of the file, which TypeScript is told
 * @param {string} source without a byte order mark
 * @param {Options} options
 */
export function nodesOf(name, source, options) {
  const { text, fault, c } = begun(name, source, options);
  if (!c) return { text, fault, nodes: null, ...NOTHING };
  const { start, end } = rangeOf(c);
  /** @type {TreeNode[]} */
  const body = [];
  items(c, (it) => body.push(c.nodes.tree(it)));
  if (c.unnamed !== null) return { text, fault: faultOf(c, false), nodes: null, ...NOTHING };
  const nodes = numbered(new TreeNode('Program', start, end, body.length > 0 ? { body } : {}));
  return { text, nodes, fault: faultOf(c, nodes === null), ...notedBy(c, start) };
}

/** @param {string} text @param {Fault | null} fault @returns {Converted} what is known where there is no tree */
export function withoutTree(text, fault) {
  return { text: wellFormed(text), tree: null, between: (before, behind) => Buffer.from([...before, behind].join('')), nodes: 0, fault, ...NOTHING };
}

/**
 * The tree of a text, as it is written, statement by statement: so no more nodes are there at a time than one of them has.
 * @param {string} name of the file, which TypeScript is told
 * @param {string} source without a byte order mark
 * @param {Options} options
 * @returns {Converted}
 * @throws {RangeError} where the text is nested deeper than the stack allows
 */
export function convert(name, source, options) {
  const { text, fault: first, c } = begun(name, source, options);
  if (!c) return withoutTree(text, first);
  const range = rangeOf(c);
  const made = new TreeText(text.length);
  items(c, (it) => made.add(c.nodes, it));
  const fault = faultOf(c, made.isTooDeep);
  if (c.unnamed !== null) return withoutTree(text, fault);
  const noted = notedBy(c, range.start);
  if (fault) return { ...withoutTree(text, fault), ...noted };
  return { text, tree: made.whole(range), between: (before, behind) => made.between(range, before, behind), nodes: made.count, fault, ...noted };
}
