// What commands have to find, worked out from TypeScript's language service and from what it emits.
import { forEachNode, isInBody, nodeAt, ts } from './language.js';

/** @typedef {import('./language.js').Language} Language */
/** @typedef {import('typescript').Node} Node */
/** @typedef {import('typescript').SourceFile} SourceFile */

/** @param {Node} node a string @returns {boolean} whether it names a module */
function isModuleText({ parent }) {
  if (ts.isImportDeclaration(parent) || ts.isExportDeclaration(parent) || ts.isExternalModuleReference(parent)) return true;
  if (ts.isLiteralTypeNode(parent)) return ts.isImportTypeNode(parent.parent);
  return ts.isCallExpression(parent) && (parent.expression.kind === ts.SyntaxKind.ImportKeyword || (ts.isIdentifier(parent.expression) && parent.expression.text === 'require'));
}

/** @param {SourceFile} file @returns {import('typescript').StringLiteralLike[]} what names modules in it */
function moduleTexts(file) {
  /** @type {import('typescript').StringLiteralLike[]} */
  const found = [];
  forEachNode(file, (it) => void (ts.isStringLiteralLike(it) && isModuleText(it) && found.push(it)));
  return found;
}

/** @param {Language} language @param {Set<string>} roots @returns {Set<string>} the files that imports lead to from the roots, with them */
export function reachedBy(language, roots) {
  const found = new Set(roots);
  const sources = new Map(language.sources().map((it) => [language.short(it.fileName), it]));
  for (const name of found) {
    const file = sources.get(name);
    for (const text of file ? moduleTexts(file) : []) {
      const to = language.moduleOf(/** @type {SourceFile} */ (file), text);
      if (to) found.add(language.short(to.fileName));
    }
  }
  return found;
}

/** @param {Language} language @param {SourceFile} file @param {Node} name of a namespace import @returns {boolean} whether it is passed on, and not only asked for its parts */
function isPassedOn({ checker }, file, name) {
  const symbol = checker.getSymbolAtLocation(name);
  let isFound = false;
  forEachNode(file, (it) => {
    if (!ts.isIdentifier(it) || it === name || isFound) return;
    const of = ts.isExportSpecifier(it.parent) ? checker.getExportSpecifierLocalTargetSymbol(it.parent) : checker.getSymbolAtLocation(it);
    if (of !== symbol) return;
    const { parent } = it;
    const isAsked = (ts.isPropertyAccessExpression(parent) && parent.expression === it) || (ts.isQualifiedName(parent) && parent.left === it)
      || (ts.isElementAccessExpression(parent) && parent.expression === it && ts.isStringLiteralLike(parent.argumentExpression));
    isFound = !isAsked && !isTakenApart(parent, it);
  });
  return isFound;
}

/** @param {Node} parent @param {Node} it @returns {boolean} whether it is that of `const { a, b } = it` */
function isTakenApart(parent, it) {
  return ts.isVariableDeclaration(parent) && parent.initializer === it && ts.isObjectBindingPattern(parent.name)
    && parent.name.elements.every((part) => !part.dotDotDotToken && (!part.propertyName || !ts.isComputedPropertyName(part.propertyName)));
}

/** @param {Language} language @param {SourceFile} file @param {import('typescript').StringLiteralLike} text that names a module @returns {boolean} whether all of the module is used there */
function isWhole(language, file, text) {
  const { parent } = text;
  if (ts.isCallExpression(parent)) return true;
  if (ts.isImportTypeNode(parent.parent)) return parent.parent.qualifier === undefined;
  if (ts.isExportDeclaration(parent)) return parent.exportClause !== undefined && ts.isNamespaceExport(parent.exportClause);
  if (ts.isExternalModuleReference(parent)) return isPassedOn(language, file, parent.parent.name);
  const bindings = ts.isImportDeclaration(parent) ? parent.importClause?.namedBindings : undefined;
  return bindings !== undefined && ts.isNamespaceImport(bindings) && isPassedOn(language, file, bindings.name);
}

/** @param {SourceFile} file @param {import('typescript').Symbol} symbol that it exports itself @returns {number | null} where its name stands */
export function placeOf(file, symbol) {
  const found = symbol.declarations?.find((it) => it.getSourceFile() === file);
  if (!found) return null;
  if (ts.isExportAssignment(found)) return found.getChildren(file).find((it) => it.kind === ts.SyntaxKind.DefaultKeyword)?.getStart(file) ?? null;
  const name = ts.getNameOfDeclaration(found);
  if (name) return name.getStart(file);
  return /** @type {any} */ (found).modifiers?.find((/** @type {Node} */ it) => it.kind === ts.SyntaxKind.DefaultKeyword)?.getStart(file) ?? null;
}

/** @param {Language} language @param {import('typescript').Symbol} symbol @returns {import('typescript').Symbol | undefined} what an import or an export stands for in the module that it names */
function stepOf({ checker }, symbol) {
  return symbol.flags & ts.SymbolFlags.Alias ? /** @type {any} */ (checker).getImmediateAliasedSymbol(symbol) : undefined;
}

/**
 * The service takes a name and what a specifier makes of it for one.
 * @param {Language} language
 * @param {Node} node that refers to what a specifier re-exports
 * @param {import('typescript').Symbol} symbol of the specifier
 * @returns {boolean} whether it does so by the specifier
 */
function isBy(language, node, symbol) {
  const { checker } = language;
  const { parent } = node;
  if (ts.isImportSpecifier(parent) || ts.isImportClause(parent) || ts.isExportSpecifier(parent)) {
    const own = checker.getSymbolAtLocation(parent.name ?? node);
    return own !== undefined && stepOf(language, own) === symbol;
  }
  const left = ts.isPropertyAccessExpression(parent) ? parent.expression : ts.isQualifiedName(parent) ? parent.left : undefined;
  const module = left && checker.getSymbolAtLocation(left);
  return module !== undefined && (module.flags & ts.SymbolFlags.Alias) !== 0 && checker.getExportsOfModule(checker.getAliasedSymbol(module)).includes(symbol);
}

/** @param {Language} language @param {SourceFile} file @param {import('typescript').Symbol} symbol that it exports itself @returns {boolean} whether another file refers to it */
function isReferred(language, file, symbol) {
  const at = placeOf(file, symbol);
  const isSpecifier = symbol.declarations?.some((it) => ts.isExportSpecifier(it)) === true;
  return at !== null && language.references(file.fileName, at).some((it) => it.file !== file && (!isSpecifier || isBy(language, it.node, symbol)));
}

/** @param {import('typescript').Symbol} symbol @returns {boolean} whether a comment of JavaScript declares it */
export function isInComment({ declarations = [] }) {
  return declarations.length > 0 && declarations.every((it) => ts.isJSDocTypedefTag(it) || ts.isJSDocCallbackTag(it) || ts.isJSDocEnumTag(it));
}

/**
 * @param {Language} language over the files that count
 * @param {string[]} entries
 * @param {string[]} roots with the entries
 * @returns {{ files: string[], exports: string[] }} files that nothing reaches, and `FILE NAME` of exports that nothing uses
 */
export function unusedBy(language, entries, roots) {
  const sources = language.sources();
  const used = new Set();
  const isEntry = (/** @type {SourceFile} */ it) => entries.includes(language.short(it.fileName));
  const whole = sources.flatMap((file) => moduleTexts(file).filter((text) => isWhole(language, file, text)).flatMap((text) => {
    const to = language.moduleOf(file, text);
    return to && to !== file ? [to] : [];
  }));
  for (const file of [...sources.filter(isEntry), ...whole]) for (const it of language.exports(file)) used.add(it);
  const reached = reachedBy(language, new Set(roots));
  const named = sources.filter((it) => reached.has(language.short(it.fileName)) && !roots.includes(language.short(it.fileName)));
  const exports = named.flatMap((file) => language.ownExports(file).flatMap((symbol) => {
    const isUsed = used.has(symbol) || isInComment(symbol) || isReferred(language, file, symbol);
    return isUsed ? [] : [`${language.short(file.fileName)} ${symbol.name}`];
  }));
  return { files: sources.map((it) => language.short(it.fileName)).filter((it) => !reached.has(it)).sort(), exports: exports.sort() };
}

/** @param {Language} language @param {Symbol | undefined} symbol @returns {{ file: SourceFile, start: number, node: Node }[]} each `default` behind an import type that the checker resolves to it: the service doesn't look for these */
function defaultsOf(language, symbol) {
  const { checker } = language;
  const target = (/** @type {Symbol | undefined} */ it) => (it && it.flags & ts.SymbolFlags.Alias ? checker.getAliasedSymbol(it) : it);
  /** @type {{ file: SourceFile, start: number, node: Node }[]} */
  const found = [];
  for (const file of language.sources()) {
    forEachNode(file, (it) => {
      if (!ts.isIdentifier(it) || it.text !== 'default' || !isFirst(it)) return;
      if (symbol && target(checker.getSymbolAtLocation(it)) === target(symbol)) found.push({ file, start: it.getStart(), node: it });
    });
  }
  return found;
}

/** @param {Node} node @returns {boolean} whether it is the first name behind an import type */
function isFirst(node) {
  const { parent } = node;
  if (ts.isQualifiedName(parent)) return parent.left === node && isFirst(parent);
  return ts.isImportTypeNode(parent) && parent.qualifier === node;
}

/**
 * What refers to a name there. The service tells a class from a namespace of types that is merged with it, and so each declaration is asked of.
 * @param {Language} language
 * @param {string} name of a file
 * @param {number} line @param {number} column
 * @returns {{ place: string, isInBody: boolean }[]} by place, sorted
 */
export function referencesTo(language, name, line, column) {
  const file = /** @type {SourceFile} */ (language.program.getSourceFile(name));
  const at = file.getPositionOfLineAndCharacter(line - 1, column - 1);
  const node = nodeAt(file, at);
  const symbol = node ? symbolOf(language, node) : undefined;
  const names = (symbol?.declarations ?? []).flatMap((it) => ts.getNameOfDeclaration(it) ?? []);
  const asked = [{ file, at }, ...names.map((it) => ({ file: it.getSourceFile(), at: it.getStart() }))];
  const found = [...asked.flatMap((it) => language.references(it.file.fileName, it.at)), ...defaultsOf(language, symbol)];
  const all = new Map(found.map((it) => [language.place(it.file, it.start), isInBody(it.node)]));
  return [...all].map(([place, isIn]) => ({ place, isInBody: isIn })).sort((a, b) => (a.place < b.place ? -1 : 1));
}

/** @param {Language} language @param {Node} node @returns {Symbol | undefined} what it names; of `default` what is exported by it */
function symbolOf({ checker }, node) {
  return node.kind === ts.SyntaxKind.DefaultKeyword ? /** @type {any} */ (node.parent).symbol : checker.getSymbolAtLocation(node);
}

/** @typedef {Map<string, Set<string>>} Links to which files each leads */

/**
 * Which files lead to which: by what TypeScript emits, which leaves out what types alone need; or by all that names a module.
 * @param {Language} language
 * @param {boolean} isEmitted
 * @returns {Links}
 */
export function edgesBy(language, isEmitted) {
  return new Map(language.sources().map((file) => {
    const whole = new Map(moduleTexts(file).flatMap((it) => {
      const to = language.moduleOf(file, it);
      return to ? [[it.text, language.short(to.fileName)]] : [];
    }));
    return [language.short(file.fileName), new Set(isEmitted ? emittedTexts(language, file).flatMap((it) => whole.get(it) ?? []) : whole.values())];
  }));
}

/** @param {Language} language @param {SourceFile} file @returns {string[]} what the emitted module imports or re-exports when it loads */
function emittedTexts({ service }, file) {
  if (file.isDeclarationFile) return [];
  // JavaScript runs as it stands
  if (/\.[cm]?jsx?$/.test(file.fileName)) return staticTexts(file);
  const [output] = service.getEmitOutput(file.fileName).outputFiles.filter((it) => /\.[cm]?jsx?$/.test(it.name));
  return staticTexts(ts.createSourceFile('emitted.js', output.text, ts.ScriptTarget.Latest, true));
}

/** @param {SourceFile} file @returns {string[]} what its statements import or re-export */
function staticTexts(file) {
  return file.statements.flatMap((it) => ((ts.isImportDeclaration(it) || ts.isExportDeclaration(it)) && it.moduleSpecifier && ts.isStringLiteral(it.moduleSpecifier) ? [it.moduleSpecifier.text] : []));
}

/** @param {Links} links @returns {Map<string, Set<string>>} what each file reaches by one step or more, without those that reach nothing */
function reachOf(links) {
  return new Map([...links.keys()].map((from) => {
    const found = new Set(links.get(from));
    for (const it of found) for (const to of links.get(it) ?? []) found.add(to);
    return [from, found];
  }));
}

/** @param {Links} links @returns {string[][]} files that all reach each other, by what each reaches */
function partsBy(links) {
  const reach = reachOf(links);
  const met = new Set();
  return [...links.keys()].filter((it) => reach.get(it)?.has(it)).flatMap((from) => {
    if (met.has(from)) return [];
    const part = [...links.keys()].filter((it) => reach.get(from)?.has(it) && reach.get(it)?.has(from));
    for (const it of part) met.add(it);
    return [part.sort()];
  });
}

/** @param {Links} links @param {string} from @param {string} to @returns {Links} without the one */
function without(links, from, to) {
  return new Map([...links].map(([file, list]) => [file, file === from ? new Set([...list].filter((it) => it !== to)) : list]));
}

/** @param {Links} links @param {string} from @param {string} to @returns {number} of steps; infinite where it isn't reached */
function distance(links, from, to) {
  const far = new Map([[from, 0]]);
  for (const [file, steps] of far) {
    if (file === to) return steps;
    for (const it of links.get(file) ?? []) if (!far.has(it)) far.set(it, steps + 1);
  }
  return Infinity;
}

/**
 * @param {Links} links
 * @param {Links | null} loaded which of them don't count alone: a cycle has to have a step between its parts
 * @returns {{ modules: string[], length: number, opens: number }[]} of each part a shortest cycle's length, and how many files the best cut opens
 */
export function circlesBy(links, loaded) {
  const inner = new Map((loaded ? partsBy(loaded) : []).flatMap((part) => part.map((it) => [it, part])));
  const isApart = (/** @type {string} */ a, /** @type {string} */ b) => !loaded || !inner.get(a)?.includes(b);
  const parts = partsBy(links).filter((part) => part.some((a) => part.some((b) => isApart(a, b) && (a !== b || links.get(a)?.has(a)))));
  return parts.map((modules) => {
    const own = new Map(modules.map((it) => [it, new Set([...links.get(it) ?? []].filter((to) => modules.includes(to)))]));
    const steps = [...own].flatMap(([from, list]) => [...list].map((to) => [from, to]));
    const length = Math.min(...steps.filter(([a, b]) => isApart(a, b)).map(([from, to]) => distance(own, to, from) + 1));
    const opens = Math.max(...steps.map(([from, to]) => modules.length - partsBy(without(own, from, to)).flat().length));
    return { modules, length, opens };
  }).sort((a, b) => (a.modules[0] < b.modules[0] ? -1 : 1));
}

/** @typedef {import('typescript').Symbol} Symbol */
/** @typedef {{ meaning: string | null, signature: string | null }} Known what something can be used as, `t`, `v` or both, and its signature; null where it isn't compared */

/** @param {Symbol} symbol of a member @returns {boolean} whether it can be named from outside */
function isShown({ name, escapedName, flags, declarations = [] }) {
  if (/^__(?!_)|^prototype$|^#/.test(`${escapedName}`) || (flags & ts.SymbolFlags.TypeParameter) !== 0) return false;
  return !declarations.every((it) => (ts.getCombinedModifierFlags(it) & ts.ModifierFlags.Private) !== 0) && /^[\w$]+$/.test(name);
}

/** @param {Symbol} symbol @returns {Known} */
function knownOf({ flags, declarations = [] }) {
  const meaning = (flags & ts.SymbolFlags.Type ? 't' : '') + (flags & ts.SymbolFlags.Value ? 'v' : '');
  const [only, ...more] = declarations;
  return { meaning, signature: only && more.length === 0 ? signatureText(only) : null };
}

/** @param {Node} it @returns {string | null} its type parameters, parameters and type as they are written; null where it has none of them */
export function signatureText(it) {
  const text = (/** @type {readonly Node[] | undefined} */ list) => list?.map((one) => one.getText()).join(', ');
  if (ts.isFunctionDeclaration(it) || ts.isMethodDeclaration(it) || ts.isMethodSignature(it)) {
    const params = it.typeParameters ? `<${text(it.typeParameters)}>` : '';
    return `${it.questionToken ? '?' : ''}${params}(${text(it.parameters)})${it.type ? `: ${it.type.getText()}` : ''}`;
  }
  if (ts.isTypeAliasDeclaration(it)) return `${it.typeParameters ? `<${text(it.typeParameters)}>` : ''} = ${it.type.getText()}`;
  if (!ts.isPropertyDeclaration(it) && !ts.isPropertySignature(it) && !ts.isVariableDeclaration(it)) return null;
  return it.type ? `${!ts.isVariableDeclaration(it) && it.questionToken ? '?' : ''}: ${it.type.getText()}` : null;
}

/** @param {string} text @returns {string[]} without comments, and without commas and semicolons before what closes */
export function tokensOf(text) {
  const scanner = ts.createScanner(ts.ScriptTarget.Latest, true, ts.LanguageVariant.Standard, text);
  /** @type {string[]} */
  const found = [];
  while (scanner.scan() !== ts.SyntaxKind.EndOfFileToken) {
    const token = scanner.getTokenText();
    if (/^[)\]>}]$/.test(token) && /^[,;]$/.test(found[found.length - 1] ?? '')) found.pop();
    found.push(token);
  }
  return found;
}

/**
 * @param {Language} language
 * @param {string[]} entries
 * @returns {Map<string, Known>} by `ENTRY NAME`, `ENTRY NAME.MEMBER` and `ENTRY NAME#MEMBER`
 */
export function surfaceBy(language, entries) {
  const { checker } = language;
  const target = (/** @type {Symbol} */ it) => (it.flags & ts.SymbolFlags.Alias ? checker.getAliasedSymbol(it) : it);
  return new Map(language.sources().filter((it) => entries.includes(language.short(it.fileName))).flatMap((file) => language.exports(file).flatMap((symbol) => {
    const entry = language.short(file.fileName);
    const to = target(symbol);
    /** @type {Map<string, Symbol>} */
    const members = new Map();
    if (to.declarations?.some(ts.isSourceFile)) for (const it of checker.getExportsOfModule(to)) members.set(`.${it.name}`, target(it));
    else for (const [sign, table] of /** @type {const} */ ([['#', to.members], ['.', to.exports]])) table?.forEach((it) => void (isShown(it) && members.set(sign + it.name, target(it))));
    return /** @type {[string, Known][]} */ ([[`${entry} ${symbol.name}`, knownOf(to)], ...[...members].map(([name, it]) => [`${entry} ${symbol.name}${name}`, { ...knownOf(it), meaning: null }])]);
  })));
}
