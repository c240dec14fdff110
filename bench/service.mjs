// What commands.mjs times beside the commands of symdir: TypeScript's language service and checker, doing the same by the searches that
// the tests of symdir hold the commands to. node bench/service.mjs COMMAND FOLDER JSON prints how much it found.
import { spawnSync } from 'node:child_process';
import { existsSync, readFileSync } from 'node:fs';
import { isBuiltin } from 'node:module';
import path from 'node:path';

import { TEST } from '../symdir/lib/folder/entries.js';
import { Files } from '../symdir/lib/folder/files.js';
import { isCode, isJavaScript } from '../symdir/lib/language.js';
import { syntaxOf, targetOf, webBy } from '../symdir/tests/definitions.js';
import { Language, forEachNode, ts } from '../symdir/tests/language.js';
import { leaksBy } from '../symdir/tests/leaking.js';
import { edgesBy, referencesTo, signatureText, surfaceBy, unusedBy } from '../symdir/tests/wanted.js';

/** @typedef {import('./commands.mjs').Asked} Asked */
/** @typedef {import('typescript').SourceFile} SourceFile */
/** @typedef {import('typescript').Symbol} Symbol */

const [command, folder, asked] = process.argv.slice(2);
/** @type {Asked} */
const { entries, spot, other, picture } = JSON.parse(asked);

/** @param {string} at the directory, or its copy @returns {Language} over the modules of TypeScript below it */
function open(at) {
  const names = new Files(at, []).code().filter((it) => !isJavaScript(it)).map((it) => path.relative(at, it));
  // what lies beside the directory isn't beside its copy
  return new Language(at, names, { allowJs: false, skipLibCheck: true, baseUrl: path.dirname(at), paths: { '*': ['*', path.join(path.dirname(folder), '*')] } });
}

/** @param {Language} language @returns {SourceFile[]} */
function entriesOf(language) {
  return language.sources().filter((it) => entries.includes(language.short(it.fileName)));
}

/** @param {Language} language @returns {{ name: string, places: string[] }[]} */
function namesBy(language) {
  return entriesOf(language).flatMap((file) => language.exports(file).map((it) => ({
    name: it.name, places: (targetOf(language, it).declarations ?? []).map((one) => language.place(one.getSourceFile(), one.getStart())) })));
}

/** @param {Symbol} symbol @returns {boolean} whether the page lists it as a member: it can be named or called from outside */
function isListed({ escapedName, flags, declarations = [] }) {
  if (/^__(?!_|constructor$|call$|new$|index$)|^prototype$|^#/.test(`${escapedName}`) || (flags & ts.SymbolFlags.TypeParameter) !== 0) return false;
  return escapedName === '__constructor' || !declarations.every((it) => (ts.getCombinedModifierFlags(it) & ts.ModifierFlags.Private) !== 0);
}

/** @param {Language} language @param {Symbol} symbol @returns {Symbol[]} its members, static ones and exports of a namespace too */
function membersOf(language, symbol) {
  const exports = symbol.declarations?.some(ts.isSourceFile) ? language.checker.getExportsOfModule(symbol) : [...symbol.exports?.values() ?? []];
  return [...symbol.members?.values() ?? [], ...exports].filter(isListed);
}

/** @param {Language} language @param {Symbol} symbol @param {Set<Symbol>} around it and the namespaces that it is in @returns {number} how many symbols are described: it, and what stands in it */
function described(language, symbol, around) {
  const { declarations = [], flags } = symbol;
  const isKnown = declarations.every((it) => language.place(it.getSourceFile(), it.getStart()) !== '' && signatureText(it) !== '' && flags !== 0);
  ts.displayPartsToString(symbol.getDocumentationComment(language.checker));
  for (const { text } of symbol.getJsDocTags(language.checker)) ts.displayPartsToString(text);
  const members = membersOf(language, symbol).map((it) => targetOf(language, it)).filter((it) => !around.has(it));
  return members.reduce((sum, it) => sum + described(language, it, new Set([...around, it])), isKnown ? 1 : 0);
}

/**
 * Describes what the page of `api --html` shows: of each public name and of each member the kind, the place of each declaration, the signature
 * as it is written, and the doc comment with its tags; and from which module to which each name passes. Graphviz draws the picture of that for
 * both, of the same text. It writes no HTML.
 * @param {Language} language
 * @returns {number} how many public names and members there are
 */
function pageBy(language) {
  const names = entriesOf(language).flatMap((file) => language.exports(file).map((it) => targetOf(language, it)));
  webBy(language, entries);
  spawnSync('dot', ['-Tsvg'], { input: picture, maxBuffer: 1 << 28 });
  return names.reduce((sum, it) => sum + described(language, it, new Set([it])), 0);
}

/** @param {string} at a directory @param {string} name of a package @returns {boolean} whether a package.json there or above it, as far as the directory of the run, names it */
function isNamed(at, name) {
  const file = path.join(at, 'package.json');
  const json = existsSync(file) ? JSON.parse(readFileSync(file, 'utf8')) : {};
  const isThere = ['dependencies', 'devDependencies', 'peerDependencies', 'optionalDependencies'].some((it) => json[it]?.[name] !== undefined);
  return isThere || (at !== folder && at.startsWith(folder) && isNamed(path.dirname(at), name));
}

/** @param {SourceFile} file @param {string} text of an import that TypeScript finds no module for @returns {boolean} whether the command knows it: a module of Node, a package that package.json names, a file that is no code */
function isKnown(file, text) {
  const at = path.dirname(file.fileName);
  if (/^\.{1,2}\//.test(text)) return existsSync(path.resolve(at, text)) && !isCode(text);
  return isBuiltin(text) || isNamed(at, text.split('/').slice(0, text.startsWith('@') ? 2 : 1).join('/'));
}

/**
 * What the compiler reports, too: of a module that isn't there no name is told.
 * @param {Language} language
 * @returns {number} how many files have a syntax error, how many imports resolve to no module, and how many imported names to nothing
 */
function lackingBy(language) {
  const { checker } = language;
  let count = 0;
  for (const file of language.sources()) {
    count += syntaxOf(language, file).length;
    forEachNode(file, (it) => {
      if (!(ts.isImportDeclaration(it) || ts.isExportDeclaration(it)) || !it.moduleSpecifier) return;
      const { text } = /** @type {import('typescript').StringLiteral} */ (it.moduleSpecifier);
      if (checker.getSymbolAtLocation(it.moduleSpecifier)) count += lackingNames(checker, it);
      else if (!isKnown(file, text)) count++;
    });
  }
  return count;
}

/** @param {import('typescript').TypeChecker} checker @param {import('typescript').ImportDeclaration | import('typescript').ExportDeclaration} statement @returns {number} how many names that it takes of a module are not there */
function lackingNames(checker, statement) {
  const bindings = ts.isExportDeclaration(statement) ? statement.exportClause : statement.importClause?.namedBindings;
  const listed = bindings && (ts.isNamedImports(bindings) || ts.isNamedExports(bindings)) ? [...bindings.elements] : [];
  return listed.filter((it) => {
    const symbol = checker.getSymbolAtLocation(it.name);
    return symbol !== undefined && (symbol.flags & ts.SymbolFlags.Alias) !== 0 && checker.getAliasedSymbol(symbol).name === 'unknown';
  }).length;
}

/** @param {Language} language @returns {string[]} the entries; and tests and the like, where other modules are there */
function rootsOf(language) {
  const names = language.sources().map((it) => language.short(it.fileName));
  const tests = names.filter((it) => TEST.test(it));
  return tests.length < names.length ? [...new Set([...entries, ...tests])] : entries;
}

/** @returns {[string, number, number]} the file, the line and the column of the spot */
function spotOf() {
  const [, file, line, column] = /** @type {RegExpExecArray} */ (/^(.*):(\d+):(\d+)$/.exec(spot));
  return [path.join(folder, file), Number(line), Number(column)];
}

/** @type {Record<string, (language: Language) => number>} how much is found */
const SEARCHES = {
  api: (language) => namesBy(language).length,
  'api --html': pageBy,
  leaks: (language) => leaksBy(language, entries).length,
  missing: lackingBy,
  where: (language) => {
    const [file, line, column] = spotOf();
    const at = /** @type {SourceFile} */ (language.program.getSourceFile(file)).getPositionOfLineAndCharacter(line - 1, column - 1);
    return language.service.getDefinitionAtPosition(file, at)?.length ?? 0;
  },
  uses: (language) => referencesTo(language, ...spotOf()).length,
  unused: (language) => unusedBy(language, entries, rootsOf(language)).exports.length,
  cycles: (language) => [...edgesBy(language, true).values()].reduce((sum, it) => sum + it.size, 0),
  web: (language) => webBy(language, entries).size,
  diff: (language) => {
    const [before, now] = [surfaceBy(language, entries), surfaceBy(open(other), entries)];
    return [...new Set([...before.keys(), ...now.keys()])].filter((it) => !before.has(it) || before.get(it)?.signature !== now.get(it)?.signature).length;
  },
};

console.log(SEARCHES[command](open(folder)));
