// Which names of a text are one variable, by the tree and by TypeScript's checker.
import { isJavaScript, languageOf } from '../lib/language.js';
import { nodesOf } from '../lib/tree/convert.js';
import { ts } from './language.js';

/** What TypeScript gives a symbol in JavaScript though nothing declares it. */
const NOT_DECLARED = new Set(['exports', 'module', 'require', 'arguments', 'globalThis']);
const WITH_BODIES = { bodies: true, ambient: false };

/** @typedef {{ start: number, end: number, key: string }} Name */

/** @param {string} file @param {string} text @returns {Name[]} the names of the tree, by name and scope */
function treeNames(file, text) {
  const { nodes } = nodesOf(file, text, { ...languageOf(file), ...WITH_BODIES });
  return (nodes ?? []).filter((it) => it.fields.sym).map((it) => ({
    start: it.start, end: it.end, key: /** @type {[string, number]} */ (it.fields.sym).join(' ') }));
}

/** @param {import('typescript').Identifier} node @returns {boolean} whether the rules of scopes say nothing of it */
function isLeftOut(node) {
  const { parent } = node;
  if (ts.isExportSpecifier(parent) || ts.isImportSpecifier(parent) || ts.isNamedTupleMember(parent)) return true;
  // it is a variable and a member, and the checker tells the member
  if (ts.isParameter(parent) && parent.name === node && ts.isParameterPropertyDeclaration(parent, parent.parent)) return true;
  if ((ts.isTypeElement(parent) || ts.isClassElement(parent) || ts.isEnumMember(parent)) && parent.name === node) return true;
  // a qualified type name takes a type of the first part's name that stands nearer
  if (ts.isQualifiedName(parent) || (ts.isExpressionWithTypeArguments(parent.parent) && ts.isPropertyAccessExpression(parent))) return true;
  return false;
}

/** @param {import('typescript').Identifier} node @returns {boolean} whether it is a key, or what the tree has no name for: a type parameter where it is declared, `ns` of `export * as ns` */
function isKey(node) {
  const { parent } = node;
  if (ts.isTypeParameterDeclaration(parent) || ts.isNamespaceExport(parent) || ts.isJsxAttribute(parent)) return true;
  // what closes an element names what opens it again
  for (let at = /** @type {import('typescript').Node} */ (node); ts.isIdentifier(at) || ts.isPropertyAccessExpression(at); at = at.parent) if (ts.isJsxClosingElement(at.parent)) return true;
  if (ts.isPropertyAccessExpression(parent)) return parent.name === node;
  return (ts.isBindingElement(parent) && parent.propertyName === node) || (ts.isPropertyAssignment(parent) && parent.name === node);
}

/** @param {import('typescript').Symbol} symbol @returns {boolean} whether its declarations are in scopes that count apart: blocks of one namespace, merged type parameters, enums */
function isApart(symbol) {
  const all = symbol.declarations ?? [];
  return all.some((it) => {
    for (let at = /** @type {import('typescript').Node} */ (it.parent); at && !ts.isSourceFile(at); at = at.parent) if (ts.isModuleDeclaration(at) || ts.isEnumDeclaration(at)) return true;
    return ts.isTypeParameterDeclaration(it) && all.length > 1;
  });
}

/** @typedef {{ symbol: import('typescript').Symbol, isKey: boolean }} Known */

/**
 * JavaScript is given to the compiler as TypeScript, which has the same scopes and makes no symbols of assignments.
 * @param {string} path @param {string} text
 * @returns {Map<number, Known>} by where a name starts, in UTF-16 units, the symbol that is declared in the file
 */
function compilerNames(path, text) {
  const file = isJavaScript(path) ? `${path}.ts` : path;
  const source = ts.createSourceFile(file, text, ts.ScriptTarget.Latest, true);
  const host = { ...ts.createCompilerHost({}), getSourceFile: (/** @type {string} */ name) => (name === file ? source : undefined), fileExists: () => false };
  const program = ts.createProgram([file], { noLib: true, noResolve: true, allowJs: true, types: [], target: ts.ScriptTarget.ESNext }, host);
  const checker = program.getTypeChecker();
  /** @type {Map<number, Known>} */
  const found = new Map();
  const visit = (/** @type {import('typescript').Node} */ node) => {
    if (ts.isIdentifier(node) && !isLeftOut(node)) {
      const { parent } = node;
      const isShort = ts.isShorthandPropertyAssignment(parent) && parent.name === node;
      const symbol = isShort ? checker.getShorthandAssignmentValueSymbol(parent) : checker.getSymbolAtLocation(node);
      if (symbol?.declarations?.some((it) => it.getSourceFile() === source) && !isApart(symbol) && !NOT_DECLARED.has(node.text)) found.set(node.getStart(), { symbol, isKey: isKey(node) });
    }
    ts.forEachChild(node, visit);
  };
  visit(source);
  return found;
}

/** @param {string} file its name @param {string} text @returns {{ count: number, wrong: string[], lacking: number[] }} names that are one variable for one side alone; where the tree has none of the compiler's */
export function compareNames(file, text) {
  const symbols = compilerNames(file, text);
  const isAscii = Buffer.byteLength(text) === text.length;
  const places = isAscii ? null : new Map([...symbols.keys()].map((at) => [Buffer.byteLength(text.slice(0, at)), at]));
  /** @type {Map<string, import('typescript').Symbol>} */
  const ofKey = new Map();
  /** @type {Map<import('typescript').Symbol, string>} */
  const ofSymbol = new Map();
  const wrong = [];
  const met = new Set();
  for (const { start, key } of treeNames(file, text)) {
    const at = places ? places.get(start) ?? -1 : start;
    const symbol = symbols.get(at)?.symbol;
    if (!symbol) continue;
    met.add(at);
    if ((ofKey.get(key) ?? symbol) !== symbol) wrong.push(`${file}:${start}: ${key} is two symbols`);
    if ((ofSymbol.get(symbol) ?? key) !== key) wrong.push(`${file}:${start}: ${key} is ${ofSymbol.get(symbol)} too`);
    ofKey.set(key, symbol);
    ofSymbol.set(symbol, key);
  }
  return { count: met.size, wrong, lacking: [...symbols].filter(([at, it]) => !it.isKey && !met.has(at)).map(([at]) => at) };
}
