// Scopes: which numbers names get, so that two names are one variable where name and number are equal.
import { K, ts } from './typescript.js';

const { forEachChild, idText, isBindingElement, isBlock, isClassLike, isFunctionLike, isIdentifier, isImportDeclaration, isLabeledStatement,
  isModuleDeclaration, isNamespaceImport, isVariableDeclarationList, isVariableStatement } = ts;

/** The scope of the module's own names, and of names that no scope declares. */
export const MODULE_SCOPE = 1;

/** The most names that are looked through one by one. */
const FEW = 8;

/** Names that a scope declares: a list, since most scopes have few, and the many of a module are mostly never looked up. */
class Names {
  constructor() {
    /** @type {string[]} some of them twice */
    this.list = [];
    /** @type {Set<string> | null} the same once one of many is looked up */
    this.set = null;
  }

  /** @param {string} name */
  add(name) {
    this.list.push(name);
    if (this.set !== null) this.set.add(name);
  }

  /** @param {string} name @returns {boolean} */
  has(name) {
    const { list } = this;
    if (list.length > FEW) return (this.set ??= new Set(list)).has(name);
    for (let i = 0; i < list.length; i++) if (list[i] === name) return true;
    return false;
  }
}

export class Scope {
  /** @param {number} number @param {Scope | null} above */
  constructor(number, above) {
    this.number = number;
    this.above = above;
    /** @type {Names | null} most scopes have no names, or of one sort alone */
    this.valueNames = null;
    /** @type {Names | null} */
    this.typeNames = null;
  }

  /** @returns {Names} */
  get values() {
    return (this.valueNames ??= new Names());
  }

  /** @returns {Names} */
  get types() {
    return (this.typeNames ??= new Names());
  }

  /** @param {string} name @returns {boolean} */
  hasValue(name) {
    return this.valueNames !== null && this.valueNames.has(name);
  }

  /** @param {string} name @returns {boolean} */
  hasType(name) {
    return this.typeNames !== null && this.typeNames.has(name);
  }

  /** @param {string} name a name that is value and type */
  add(name) {
    this.values.add(name);
    this.types.add(name);
  }
}

/** @param {import('typescript').Identifier | import('typescript').PrivateIdentifier} name of a text that is well formed @returns {string} */
export function textOf(name) {
  return idText(name);
}

/**
 * Adds the names that a pattern binds.
 * @param {import('typescript').BindingName | undefined} name
 * @param {Names} names
 */
export function bindNames(name, names) {
  if (!name) return;
  if (isIdentifier(name)) names.add(textOf(name));
  else for (const element of name.elements) if (isBindingElement(element)) bindNames(element.name, names);
}

/** @param {import('typescript').BindingName} name @returns {import('typescript').Identifier[]} what it binds, in the order of the text */
export function boundIdentifiers(name) {
  if (isIdentifier(name)) return [name];
  return name.elements.flatMap((it) => (isBindingElement(it) ? boundIdentifiers(it.name) : []));
}

/** @param {import('typescript').VariableDeclarationList} list @param {Scope} scope */
export function bindList(list, scope) {
  for (const it of list.declarations) bindNames(it.name, scope.values);
}

/** @param {import('typescript').VariableDeclarationList} list */
export function isBlockScoped(list) {
  return (list.flags & ts.NodeFlags.BlockScoped) !== 0;
}

/** @param {import('typescript').ImportDeclaration} statement @param {Scope} scope */
function hoistImport(statement, scope) {
  const clause = statement.importClause;
  if (!clause) return;
  if (clause.name) scope.add(textOf(clause.name));
  const bindings = clause.namedBindings;
  if (!bindings) return;
  if (isNamespaceImport(bindings)) scope.add(textOf(bindings.name));
  else for (const it of bindings.elements) scope.add(textOf(it.name));
}

/** @type {Record<number, (statement: any, scope: Scope) => void>} */
const HOISTING = {
  [K.VariableStatement]: (it, scope) => {
    if (isBlockScoped(it.declarationList)) bindList(it.declarationList, scope);
  },
  [K.FunctionDeclaration]: (it, scope) => {
    if (it.name) scope.values.add(textOf(it.name));
  },
  [K.ClassDeclaration]: (it, scope) => {
    if (it.name) scope.add(textOf(it.name));
  },
  [K.EnumDeclaration]: (it, scope) => scope.add(textOf(it.name)),
  [K.ModuleDeclaration]: (it, scope) => {
    if (isIdentifier(it.name)) scope.add(textOf(it.name));
  },
  [K.InterfaceDeclaration]: (it, scope) => scope.types.add(textOf(it.name)),
  [K.TypeAliasDeclaration]: (it, scope) => scope.types.add(textOf(it.name)),
  [K.ImportEqualsDeclaration]: (it, scope) => scope.add(textOf(it.name)),
  [K.ImportDeclaration]: hoistImport,
};

/**
 * Puts what the statements of a block declare into its scope, `var` apart.
 * @param {readonly import('typescript').Statement[]} statements
 * @param {Scope} scope
 */
export function hoist(statements, scope) {
  for (let it of statements) {
    while (isLabeledStatement(it)) it = it.statement;
    HOISTING[it.kind]?.(it, scope);
  }
}

/** @type {(node: import('typescript').Node) => boolean} */
const isStatement = /** @type {any} */ (ts).isStatement;
const HOLDS_STATEMENTS = new Set([K.CaseBlock, K.CaseClause, K.DefaultClause, K.CatchClause]);
/** Statements in which no other one of the same scope stands. */
const PLAIN_STATEMENTS = new Set([
  K.InterfaceDeclaration, K.TypeAliasDeclaration, K.EnumDeclaration, K.ExpressionStatement, K.ImportDeclaration, K.ExportDeclaration,
  K.FunctionDeclaration, K.ClassDeclaration, K.ModuleDeclaration]);

/** @param {import('typescript').Node} node @returns {boolean} whether a `var` in it is none of the scope around it */
function isClosed(node) {
  return isFunctionLike(node) || isClassLike(node) || isModuleDeclaration(node);
}

/**
 * Puts what `var` declares in a statement, however deep in blocks, into the scope of the function or module.
 * @param {import('typescript').Node} node
 * @param {Scope} scope
 */
export function hoistVars(node, scope) {
  if (PLAIN_STATEMENTS.has(node.kind) || isClosed(node)) return;
  if (isVariableStatement(node)) hoistVars(node.declarationList, scope);
  else if (isVariableDeclarationList(node)) {
    if (!isBlockScoped(node)) bindList(node, scope);
  } else if (isBlock(node) || isStatement(node) || HOLDS_STATEMENTS.has(node.kind)) {
    forEachChild(node, (it) => hoistVars(it, scope));
  }
}

/** @param {readonly import('typescript').Statement[]} statements of a body @param {Scope} scope is given what they declare, `var` too */
export function hoistBody(statements, scope) {
  hoist(statements, scope);
  for (const it of statements) hoistVars(it, scope);
}

/**
 * Puts what a function or a signature binds into its scope.
 * @param {import('typescript').SignatureDeclaration & { body?: import('typescript').Node }} node
 * @param {Scope} scope
 */
export function hoistFunction(node, scope) {
  hoistTypeParameters(node, scope);
  for (const it of node.parameters ?? []) bindNames(it.name, scope.values);
  if (node.body && isBlock(node.body)) hoistBody(node.body.statements, scope);
}

/** @param {{ typeParameters?: readonly import('typescript').TypeParameterDeclaration[] }} node @param {Scope} scope */
export function hoistTypeParameters(node, scope) {
  for (const it of node.typeParameters ?? []) scope.types.add(textOf(it.name));
}

/** @param {import('typescript').Statement} it @returns {boolean} whether `export` stands before it */
function isExported(it) {
  const { modifiers } = /** @type {{ modifiers?: readonly import('typescript').ModifierLike[] }} */ (/** @type {unknown} */ (it));
  return modifiers?.some(({ kind }) => kind === K.ExportKeyword) ?? false;
}

/** @param {import('typescript').Statement} it @returns {string[]} the names that it declares and doesn't export */
export function declaredNames(it) {
  if (isExported(it) || (it.flags & ts.NodeFlags.GlobalAugmentation) !== 0) return [];
  const scope = new Scope(0, null);
  hoist([it], scope);
  hoistVars(it, scope);
  return isImportDeclaration(it) ? [] : [...new Set([...scope.values.list, ...scope.types.list])];
}
