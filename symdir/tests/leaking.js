// Types that public declarations refer to and that users can't import, worked out from TypeScript's checker.
import { targetOf } from './definitions.js';
import { ts } from './language.js';

/** @typedef {import('./language.js').Language} Language */
/** @typedef {import('typescript').Node} Node */
/** @typedef {import('typescript').Symbol} Symbol */

/** @param {Node} node @returns {boolean} whether it is private in a class, and so is none of the public surface */
function isPrivate(node) {
  const modifiers = /** @type {any} */ (node).modifiers ?? [];
  const name = /** @type {any} */ (node).name;
  return modifiers.some((/** @type {Node} */ it) => it.kind === ts.SyntaxKind.PrivateKeyword) || (name && ts.isPrivateIdentifier(name));
}

/** @param {Node} node @returns {boolean} whether it is the value of a variable, a property or a parameter */
function isInitializer(node) {
  return /** @type {any} */ (node.parent).initializer === node && !ts.isEnumMember(node.parent);
}

/** @param {Node} node @returns {boolean} whether what it holds is no part of what is written about its type: a body */
function isBody(node) {
  return ts.isBlock(node) || ts.isDecorator?.(node) || (ts.isArrowFunction(node.parent) && node.parent.body === node);
}

/** @param {Node} node a value without a type before it @returns {Node[]} what is written in it that TypeScript's declaration has, too */
function shownIn(node) {
  if (ts.isParenthesizedExpression(node) || ts.isConstTypeReference(/** @type {any} */ (node).type ?? node)) return shownIn(/** @type {any} */ (node).expression);
  if (ts.isAsExpression(node) || ts.isTypeAssertionExpression(node)) return [node.type];
  const { isSatisfiesExpression = () => false } = /** @type {any} */ (ts);
  if (isSatisfiesExpression(node)) return [...shownIn(/** @type {any} */ (node).expression), /** @type {any} */ (node).type];
  if (ts.isFunctionExpression(node) || ts.isArrowFunction(node)) {
    const result = node.type ? [node.type] : ts.isBlock(node.body) ? [] : shownIn(node.body);
    return [...node.typeParameters ?? [], ...node.parameters, ...result];
  }
  if (ts.isNewExpression(node)) return [...node.typeArguments ?? []];
  if (ts.isArrayLiteralExpression(node)) return node.elements.flatMap((it) => shownIn(ts.isSpreadElement(it) ? it.expression : it));
  if (ts.isObjectLiteralExpression(node)) return node.properties.flatMap((it) => (ts.isPropertyAssignment(it) ? shownIn(it.initializer) : ts.isMethodDeclaration(it) || ts.isAccessor(it) ? [it] : []));
  if (!ts.isClassExpression(node)) return [];
  return [...node.typeParameters ?? [], ...(node.heritageClauses ?? []).flatMap((it) => it.types).flatMap((it) => it.typeArguments ?? []), ...node.members];
}

/** @param {Node} node @returns {boolean} whether it is a name, or a dotted one */
function isDotted(node) {
  return ts.isIdentifier(node) || (ts.isPropertyAccessExpression(node) && isDotted(node.expression));
}

/** @param {Node} declaration @returns {Node[]} the names of types, and of values by their types, that are written in it */
function referredIn(declaration) {
  /** @type {Node[]} */
  const found = [];
  const visit = (/** @type {Node} */ node) => {
    if (isInitializer(node)) {
      const { type, name } = /** @type {any} */ (node.parent);
      if (!type && name && !ts.isBindingElement(node.parent) && !ts.isPropertyAssignment(node.parent) && (ts.isIdentifier(name) || ts.isClassElement(node.parent))) shownIn(node).forEach(visit);
      return;
    }
    if (isBody(node) || isPrivate(node) || node.kind >= ts.SyntaxKind.FirstJSDocNode && node.kind <= ts.SyntaxKind.LastJSDocNode) return;
    if (ts.isTypeReferenceNode(node)) found.push(node.typeName);
    if (ts.isTypeQueryNode(node)) found.push(node.exprName);
    if (ts.isImportTypeNode(node) && node.qualifier) found.push(node.qualifier);
    if ((ts.isExpressionWithTypeArguments(node) || ts.isComputedPropertyName(node)) && isDotted(node.expression)) found.push(node.expression);
    ts.forEachChild(node, visit);
  };
  visit(declaration);
  return found;
}

/**
 * @param {Language} language
 * @param {string[]} entries
 * @returns {string[]} where the names of such types are declared, sorted
 */
export function leaksBy(language, entries) {
  const { checker } = language;
  const own = (/** @type {Node} */ it) => language.files.includes(it.getSourceFile().fileName);
  const shown = new Set();
  /** @type {Symbol[]} */
  const open = language.sources().filter((it) => entries.includes(language.short(it.fileName))).flatMap((it) => language.exports(it)).map((it) => targetOf(language, it));
  for (const it of open) {
    if (shown.has(it)) continue;
    shown.add(it);
    const isWhole = (it.flags & ts.SymbolFlags.Module) !== 0;
    if (isWhole) open.push(...checker.getExportsOfModule(it).map((one) => targetOf(language, one)));
  }
  const leaking = new Set();
  for (const symbol of shown) {
    for (const declaration of symbol.declarations ?? []) {
      if (!own(declaration) || ts.isSourceFile(declaration) || ts.isModuleDeclaration(declaration)) continue;
      for (const name of referredIn(declaration)) {
        const found = checker.getSymbolAtLocation(name);
        const to = found && targetOf(language, found);
        if (!to || shown.has(to) || (to.flags & ts.SymbolFlags.TypeParameter) !== 0 || !isOuter(to, shown)) continue;
        if (to.declarations?.some(own)) leaking.add(to);
      }
    }
  }
  return [...leaking].filter((it) => !isWithin(it, leaking)).flatMap((it) => placeOf(language, it) ?? []).sort();
}

/** @param {Symbol} symbol @param {Set<Symbol>} others @returns {boolean} whether one of them holds it, as a namespace does */
function isWithin(symbol, others) {
  const { parent } = /** @type {{ parent?: Symbol }} */ (/** @type {unknown} */ (symbol));
  return parent !== undefined && (others.has(parent) || isWithin(parent, others));
}

/** @param {Symbol} symbol @param {Set<Symbol>} shown @returns {boolean} whether it is none that users reach by what holds it: an enum's member, say */
function isOuter(symbol, shown) {
  const { parent } = /** @type {{ parent?: Symbol }} */ (/** @type {unknown} */ (symbol));
  return !parent || !shown.has(parent);
}

/** @param {Language} language @param {Symbol} symbol @returns {string | null} */
function placeOf(language, symbol) {
  const it = symbol.declarations?.find((one) => language.files.includes(one.getSourceFile().fileName));
  return it ? language.place(it.getSourceFile(), (ts.getNameOfDeclaration(it) ?? it).getStart()) : null;
}
