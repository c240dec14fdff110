// Where names are defined, which imports lack something, and who passes names on, worked out from TypeScript's checker.
import { forEachNode, ts } from './language.js';

/** @typedef {import('./language.js').Language} Language */
/** @typedef {import('typescript').Node} Node */
/** @typedef {import('typescript').SourceFile} SourceFile */
/** @typedef {import('typescript').Symbol} Symbol */

/** @param {Language} language @param {Symbol} symbol @returns {Symbol} what it stands for */
export function targetOf({ checker }, symbol) {
  return symbol.flags & ts.SymbolFlags.Alias ? checker.getAliasedSymbol(symbol) : symbol;
}

/** @param {{ parent: Node }} of @param {Node} node @returns {boolean} whether it is a name of a member, which takes types to find */
function isMember({ parent }, node) {
  if (ts.isPropertyAccessExpression(parent)) return parent.name === node;
  if (ts.isBindingElement(parent)) return parent.propertyName === node;
  return (ts.isPropertyAssignment(parent) || ts.isClassElement(parent) || ts.isTypeElement(parent) || ts.isEnumMember(parent) || ts.isNamedTupleMember(parent)
    || ts.isJsxAttribute(parent) || ts.isMetaProperty(parent)) && parent.name === node;
}

/** @param {Language} language @param {import('typescript').Identifier} node @returns {Symbol | undefined} */
function symbolAt({ checker }, node) {
  const { parent } = node;
  if (ts.isShorthandPropertyAssignment(parent)) return checker.getShorthandAssignmentValueSymbol(parent);
  if (ts.isExportSpecifier(parent) && !parent.parent.parent.moduleSpecifier) return checker.getExportSpecifierLocalTargetSymbol(parent);
  return checker.getSymbolAtLocation(node);
}

/** @param {Language} language @param {SourceFile} file @returns {import('typescript').Identifier[]} the names of variables, types and modules in it that are looked up or declared */
export function namesOf(language, file) {
  /** @type {import('typescript').Identifier[]} */
  const found = [];
  forEachNode(file, (it) => {
    if (ts.isIdentifier(it) && !isMember(/** @type {any} */ (it), it) && !(it.flags & ts.NodeFlags.JSDoc)) found.push(it);
  });
  return found;
}

/** @param {Node} declaration @returns {Node} its name, or what stands for it */
function nameOf(declaration) {
  const name = ts.getNameOfDeclaration(/** @type {any} */ (declaration));
  if (name) return name;
  return /** @type {any} */ (declaration).modifiers?.find((/** @type {Node} */ it) => it.kind === ts.SyntaxKind.DefaultKeyword) ?? declaration;
}

/** @param {Language} language @param {import('typescript').Identifier} node @returns {string[] | null} where what it names is declared, sorted; null where that is outside of the folder, or unknown */
export function declaredAt(language, node) {
  const symbol = symbolAt(language, node);
  const declarations = symbol ? targetOf(language, symbol).declarations ?? [] : [];
  if (declarations.length === 0 || declarations.some((it) => !language.files.includes(it.getSourceFile().fileName))) return null;
  return [...new Set(declarations.map((it) => language.place(it.getSourceFile(), ts.isSourceFile(it) ? 0 : nameOf(it).getStart())))].sort();
}

/** @param {Language} language @param {import('typescript').Identifier} node @returns {boolean} whether it names a type parameter or a member of an enum, which symq has no symbols for */
export function isWithoutSymbol(language, node) {
  const symbol = symbolAt(language, node);
  return symbol !== undefined && (targetOf(language, symbol).flags & (ts.SymbolFlags.TypeParameter | ts.SymbolFlags.EnumMember)) !== 0;
}

/** What the checker says of an import: no such module, of one of Node's also in another text, which newer versions have for modules too; a file that is no module; no such export. */
const NO_MODULE = new Set([2307, 2792, 7016]);
const NO_TYPES_OF_NODE = new Set([2580, 2591]);
const NO_MODULE_BUT_FILE = 2306;
const NO_EXPORT = new Set([2305, 2459, 2460, 2614, 2724, 1192, 2613]);

/** @param {SourceFile} file @param {number} at @returns {{ statement: Node, text: Node, names: Node[] } | null} the statement there, the module that it names, and each name that it takes */
function importAt(file, at) {
  const it = file.statements.find((one) => one.pos <= at && at < one.end);
  if (!it || !(ts.isImportDeclaration(it) || ts.isExportDeclaration(it)) || !it.moduleSpecifier) return null;
  const bindings = ts.isExportDeclaration(it) ? it.exportClause : it.importClause?.namedBindings;
  const listed = bindings && (ts.isNamedImports(bindings) || ts.isNamedExports(bindings)) ? bindings.elements.map((one) => one.propertyName ?? one.name) : [];
  const own = ts.isImportDeclaration(it) && it.importClause?.name ? [it.importClause.name] : [];
  return { statement: it, text: it.moduleSpecifier, names: [...own, ...listed] };
}

/** @param {Language} language @param {SourceFile} file @param {Set<SourceFile>} [met] @returns {boolean} whether an `export *` resolves to no file in it, or in what it leads to */
function hasOpenStar(language, file, met = new Set()) {
  if (met.has(file)) return false;
  met.add(file);
  return file.statements.some((it) => {
    if (!ts.isExportDeclaration(it) || it.exportClause || !it.moduleSpecifier) return false;
    const to = language.moduleOf(file, it.moduleSpecifier);
    return to === undefined || hasOpenStar(language, to, met);
  });
}

/** @typedef {Map<string, string>} Lacking by place a text or a name */

/** @param {Language} language @param {SourceFile} file @returns {[string, string][]} where its first syntax error stands, and what the parser says of it; none where it has none */
export function syntaxOf(language, file) {
  return language.service.getSyntacticDiagnostics(file.fileName).slice(0, 1).map(({ start, messageText }) => [language.place(file, start), ts.flattenDiagnosticMessageText(messageText, ' ')]);
}

/**
 * @param {Language} language
 * @returns {{ modules: Lacking, exports: Lacking, open: Lacking, syntax: Lacking }} the text of each import of a module that isn't there, at its statement; the name of each export that isn't there;
 *   and of each that isn't there as far as can be known, since an `export *` on the way resolves to no file; and of each file the first syntax error
 */
export function lackingBy(language) {
  const [modules, exports, open, syntax] = [new Map(), new Map(), new Map(), new Map()];
  for (const file of language.sources()) {
    for (const [place, text] of syntaxOf(language, file)) syntax.set(place, text);
    for (const { code, start = 0, length = 0 } of language.service.getSemanticDiagnostics(file.fileName)) {
      const text = file.text.slice(start, start + length);
      const of = importAt(file, start);
      if (NO_MODULE.has(code) || (NO_TYPES_OF_NODE.has(code) && /^["']/.test(text))) modules.set(language.place(file, of ? of.statement.getStart() : start), text.slice(1, -1));
      // each file is a module here: one that exports nothing lacks each name
      if (code === NO_MODULE_BUT_FILE) for (const it of of?.names ?? []) exports.set(language.place(file, it.getStart()), it.getText());
      if (!NO_EXPORT.has(code)) continue;
      const to = of ? language.moduleOf(file, of.text) : undefined;
      (to && hasOpenStar(language, to) ? open : exports).set(language.place(file, start), text);
    }
  }
  return { modules, exports, open, syntax };
}

/** @typedef {{ file: SourceFile, name: string }} Owner a module whose own text exports the name */

/**
 * @param {Language} language @param {SourceFile} file @param {string} name @param {Set<SourceFile>} [met]
 * @returns {SourceFile[] | null} the modules along `export *` to the first whose own text exports the name, with both; null where none does
 */
function alongStars(language, file, name, met = new Set()) {
  if (met.has(file)) return null;
  met.add(file);
  if (language.ownExports(file).some((it) => it.name === name)) return [file];
  if (name === 'default') return null;
  for (const it of file.statements) {
    if (!ts.isExportDeclaration(it) || it.exportClause || !it.moduleSpecifier) continue;
    const to = language.moduleOf(file, it.moduleSpecifier);
    const found = to ? alongStars(language, to, name, met) : null;
    if (found) return [file, ...found];
  }
  return null;
}

/** @param {Language} language @param {SourceFile} file @param {Symbol} symbol @returns {Owner | null} the module and the name that an import or an export of another module takes */
function takenBy(language, file, symbol) {
  const it = symbol.declarations?.find((one) => one.getSourceFile() === file);
  if (!it) return null;
  const statement = ts.findAncestor(it, (one) => ts.isImportDeclaration(one) || ts.isExportDeclaration(one));
  const text = /** @type {any} */ (statement)?.moduleSpecifier;
  if (!text) return null;
  const to = language.moduleOf(file, text);
  if (!to) return null;
  if (ts.isExportSpecifier(it) || ts.isImportSpecifier(it)) return { file: to, name: (it.propertyName ?? it.name).text };
  return ts.isImportClause(it) ? { file: to, name: 'default' } : { file: to, name: '*' };
}

/**
 * Follows a public name from module to module.
 * @param {Language} language @param {SourceFile} entry @param {string} name
 * @returns {{ from: string, to: string, isStar: boolean }[]} each step, by files
 */
export function stepsOf(language, entry, name) {
  const short = (/** @type {SourceFile} */ it) => language.short(it.fileName);
  /** @type {{ from: string, to: string, isStar: boolean }[]} */
  const found = [];
  const met = new Set();
  for (let at = /** @type {Owner | null} */ ({ file: entry, name }); at && !met.has(`${at.file.fileName} ${at.name}`);) {
    met.add(`${at.file.fileName} ${at.name}`);
    const along = alongStars(language, at.file, at.name);
    if (!along) break;
    along.slice(1).forEach((to, i) => found.push({ from: short(along[i]), to: short(to), isStar: true }));
    const file = along[along.length - 1];
    const wanted = at.name;
    let symbol = /** @type {Symbol | undefined} */ (language.ownExports(file).find((it) => it.name === wanted));
    // `export { a }` of what is imported
    const local = symbol?.declarations?.find((it) => ts.isExportSpecifier(it) && !it.parent.parent.moduleSpecifier);
    if (local) symbol = language.checker.getExportSpecifierLocalTargetSymbol(/** @type {import('typescript').ExportSpecifier} */ (local));
    const next = symbol ? takenBy(language, file, symbol) : null;
    if (next) found.push({ from: short(file), to: short(next.file), isStar: false });
    at = next?.name === '*' ? null : next;
  }
  return found;
}

/** @typedef {Map<string, { star: boolean, names: string[] }>} Web by `FROM TO` of each module that passes public names on to another the names, and whether by `export *` too */

/** @param {Language} language @param {string[]} entries @returns {Web} what `web` lists, each public name followed from module to module */
export function webBy(language, entries) {
  /** @type {Map<string, { star: boolean, names: Set<string> }>} */
  const found = new Map();
  for (const file of language.sources().filter((it) => entries.includes(language.short(it.fileName)))) {
    for (const { name } of language.exports(file)) {
      for (const { from, to, isStar } of stepsOf(language, file, name)) {
        const edge = found.get(`${from} ${to}`) ?? { star: false, names: new Set() };
        found.set(`${from} ${to}`, edge);
        edge.star ||= isStar;
        edge.names.add(name);
      }
    }
  }
  return new Map([...found].sort(([a], [b]) => (a < b ? -1 : 1)).map(([key, { star, names }]) => [key, { star, names: [...names].sort() }]));
}

/** @param {{ from: string, to: string, star: boolean, names: string[] }[]} edges as `web --json` lists them @returns {Web} */
export function webOf(edges) {
  return new Map([...edges].map(({ from, to, star, names }) => /** @type {const} */ ([`${from} ${to}`, { star, names: [...names].sort() }])).sort(([a], [b]) => (a < b ? -1 : 1)));
}
