// What TypeScript's language service says of a folder's names: what refers to them, and which nobody uses.
import { readFileSync } from 'node:fs';
import { createRequire } from 'node:module';
import path from 'node:path';

import { findTypeScript } from '../lib/typescript.js';

/** @type {typeof import('typescript')} */
export const ts = createRequire(import.meta.url)(findTypeScript(process.cwd()).file);

/** @typedef {import('typescript').Node} Node */
/** @typedef {import('typescript').SourceFile} SourceFile */
/** @typedef {import('typescript').Symbol} Symbol */

/** @param {Node} node @returns {boolean} whether it names what an import or an export makes of another name; `a` of `import a = require(..)` is the only name there */
function isAliasName(node) {
  const { parent } = node;
  if (ts.isImportSpecifier(parent) || ts.isExportSpecifier(parent)) return parent.name === node && parent.propertyName !== undefined;
  const isEquals = ts.isImportEqualsDeclaration(parent) && !ts.isExternalModuleReference(parent.moduleReference);
  return ts.isNamespaceExport(parent) || (isEquals && parent.name === node);
}

/** @param {Node} node @returns {boolean} whether the body of a function holds it */
export function isInBody(node) {
  for (let at = node; at.parent; at = at.parent) {
    const { parent } = at;
    if (ts.isBlock(at) && (ts.isFunctionLike(parent) || ts.isClassStaticBlockDeclaration(parent))) return true;
  }
  return false;
}

export class Language {
  /** @param {string} folder @param {string[]} names of its files @param {import('typescript').CompilerOptions} [more] */
  constructor(folder, names, more = {}) {
    this.folder = folder;
    this.files = names.map((it) => path.join(folder, it));
    /** @type {import('typescript').CompilerOptions} */
    this.options = {
      allowJs: true, noLib: true, types: [], jsx: ts.JsxEmit.Preserve, moduleResolution: ts.ModuleResolutionKind.NodeJs, outDir: path.join(folder, 'out'),
      target: ts.ScriptTarget.ESNext, module: ts.ModuleKind.ESNext, resolveJsonModule: true, esModuleInterop: true, ignoreDeprecations: '6.0', ...more,
    };
    const texts = new Map();
    const read = (/** @type {string} */ file) => {
      if (!texts.has(file)) texts.set(file, ts.sys.fileExists(file) ? ts.ScriptSnapshot.fromString(readFileSync(file, 'utf8')) : undefined);
      return texts.get(file);
    };
    this.service = ts.createLanguageService({
      getCompilationSettings: () => this.options, getScriptFileNames: () => this.files, getScriptVersion: () => '1', getScriptSnapshot: read,
      getCurrentDirectory: () => folder, getDefaultLibFileName: () => '', fileExists: ts.sys.fileExists, readFile: ts.sys.readFile,
      readDirectory: ts.sys.readDirectory, directoryExists: ts.sys.directoryExists, getDirectories: ts.sys.getDirectories,
    });
    this.program = /** @type {import('typescript').Program} */ (this.service.getProgram());
    this.checker = this.program.getTypeChecker();
  }

  /** @returns {SourceFile[]} */
  sources() {
    return this.files.flatMap((it) => this.program.getSourceFile(it) ?? []);
  }

  /** @param {string} file @returns {string} below the folder */
  short(file) {
    return path.relative(this.folder, file);
  }

  /** @param {SourceFile} file @param {number} at @returns {string} `FILE:LINE:COLUMN` */
  place(file, at) {
    const { line, character } = file.getLineAndCharacterOfPosition(at);
    return `${this.short(file.fileName)}:${line + 1}:${character + 1}`;
  }

  /** @param {string} file @param {number} at @returns {{ file: SourceFile, start: number, node: Node }[]} what refers to the name there, its declarations and comments apart */
  references(file, at) {
    const found = (this.service.findReferences(file, at) ?? []).flatMap((it) => it.references);
    const all = new Map(found.map((it) => [`${it.fileName} ${it.textSpan.start}`, it]));
    return [...all.values()].flatMap((it) => {
      const source = /** @type {SourceFile} */ (this.program.getSourceFile(it.fileName));
      const node = nodeAt(source, it.textSpan.start);
      return node && !isAliasName(node) && !isDeclared(node) ? [{ file: source, start: it.textSpan.start, node }] : [];
    });
  }

  /** @param {SourceFile} file @param {Node} text that names a module @returns {SourceFile | undefined} */
  moduleOf(file, text) {
    const symbol = this.checker.getSymbolAtLocation(text);
    const found = symbol?.declarations?.find(ts.isSourceFile);
    return found && this.files.includes(found.fileName) ? found : undefined;
  }

  /** @param {SourceFile} file @returns {Symbol[]} what it exports, along `export *` too */
  exports(file) {
    const symbol = this.checker.getSymbolAtLocation(file);
    return symbol ? this.checker.getExportsOfModule(symbol) : [];
  }

  /** @param {SourceFile} file @returns {Symbol[]} what its own text exports */
  ownExports(file) {
    /** @type {Symbol[]} */
    const found = [];
    this.checker.getSymbolAtLocation(file)?.exports?.forEach((it) => void (it.escapedName !== '__export' && it.escapedName !== 'export=' && found.push(it)));
    return found;
  }
}

/** @param {Node} node @returns {boolean} whether it is declared there; `{ a }` of a pattern refers to a property, too */
function isDeclared(node) {
  const { parent } = node;
  // of a default export without a name
  if (node.kind === ts.SyntaxKind.DefaultKeyword) return true;
  if (/** @type {any} */ (parent).name !== node) return false;
  if (ts.isBindingElement(parent)) return parent.propertyName !== undefined || !ts.isObjectBindingPattern(parent.parent);
  return ts.isVariableDeclaration(parent) || ts.isParameter(parent) || ts.isFunctionLike(parent) || ts.isClassLike(parent) || ts.isInterfaceDeclaration(parent)
    || ts.isTypeAliasDeclaration(parent) || ts.isEnumDeclaration(parent) || ts.isModuleDeclaration(parent) || ts.isTypeParameterDeclaration(parent)
    || ts.isEnumMember(parent) || ts.isClassElement(parent) || ts.isTypeElement(parent);
}

/** @param {SourceFile} file @param {number} at @returns {Node | null} the name or the string there; null in a comment */
export function nodeAt(file, at) {
  /** @type {Node | null} */
  let found = null;
  const visit = (/** @type {Node} */ node) => {
    if (at < node.pos || at >= node.end) return;
    const start = node.getStart(file);
    if (start === at || (ts.isStringLiteralLike(node) && start + 1 === at)) found = node;
    ts.forEachChild(node, visit);
  };
  visit(file);
  return found;
}

/** @param {Node} node @param {(it: Node) => void} each is told each node below it */
export function forEachNode(node, each) {
  ts.forEachChild(node, (it) => {
    each(it);
    forEachNode(it, each);
  });
}
