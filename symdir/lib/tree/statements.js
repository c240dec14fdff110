// Statements that are no items of a module: declarations, blocks, loops.
import { K, hasModifier, ts } from './converter.js';
import { bindList, bindNames, boundIdentifiers, declaredNames, hoist, hoistBody, hoistTypeParameters, isBlockScoped, textOf } from './scopes.js';
import { moduleName, string } from './names.js';
import { binding, target } from './patterns.js';
import { element, heritage, type, typeParametersOf } from './types.js';
import { classParts, functionNode } from './functions.js';
import { expression } from './expressions.js';
import { item } from './items.js';

/** @typedef {import('./converter.js').Converter} Converter */
/** @typedef {import('./nodes.js').Made} Made */

const { isArrayLiteralExpression, isCaseClause, isDoStatement, isExportAssignment, isExportDeclaration, isForStatement, isIdentifier,
  isImportEqualsDeclaration, isModuleBlock, isModuleDeclaration, isNamedExports, isObjectLiteralExpression, isStringLiteral,
  isVariableDeclarationList } = ts;

/** Of what stands in a declaration file or behind `declare`, as the parser marks it. */
const AMBIENT = /** @type {Record<string, any>} */ (ts.NodeFlags).Ambient;

/** @param {Converter} c @param {import('typescript').VariableDeclarationList} list @returns {'using' | 'const' | 'let' | 'var'} */
function keyword(c, list) {
  const using = 4; // NodeFlags.Using of TypeScript 5.2, where Const and Let stand together say `await using`
  if (c.marks?.using.has(c.start(list)) || (list.flags & using) !== 0) return 'using';
  if (list.flags & ts.NodeFlags.Const) return 'const';
  return list.flags & ts.NodeFlags.Let ? 'let' : 'var';
}

/** @param {Converter} c @param {import('typescript').VariableDeclarationList} list @param {number} start @param {number} end @param {boolean} [isExported] */
export function variables(c, list, start, end, isExported = false) {
  const word = keyword(c, list);
  const decls = list.declarations.map((it) => {
    const made = c.node('VarDeclarator', it, { name: binding(c, it.name, it.type), init: it.initializer ? expression(c, it.initializer) : null });
    for (const name of boundIdentifiers(it.name)) c.declares(word, made, name, false, isExported || c.specified.has(textOf(name)));
    return made;
  });
  return c.at(word === 'using' ? 'UsingDecl' : 'VarDecl', start, end, { decls });
}

/** @param {Converter} c @param {import('typescript').InterfaceDeclaration} it @param {number} start */
export function interfaceNode(c, it, start) {
  const id = c.ident(it.name, true);
  hoistTypeParameters(it, c.open());
  const made = c.at('TsInterfaceDecl', start, it.end, {
    id,
    type_params: typeParametersOf(c, it.typeParameters),
    extends: it.heritageClauses ? c.typed(true, () => it.heritageClauses?.flatMap((clause) => clause.types.map((above) => heritage(c, above)))) : null,
    body: it.members.map((member) => element(c, member)),
  });
  c.close();
  return made;
}

/** @param {Converter} c @param {import('typescript').TypeAliasDeclaration} it @param {number} start */
function alias(c, it, start) {
  const id = c.ident(it.name, true);
  hoistTypeParameters(it, c.open());
  const made = c.at('TsTypeAliasDecl', start, it.end, { id, type_params: typeParametersOf(c, it.typeParameters), type_ann: type(c, it.type) });
  c.close();
  return made;
}

/** @param {Converter} c @param {import('typescript').EnumDeclaration} it @param {number} start */
function enumNode(c, it, start) {
  const id = c.ident(it.name, false);
  return c.within((scope) => {
    for (const { name } of it.members) {
      if (isIdentifier(name)) scope.values.add(textOf(name));
      else if (isStringLiteral(name)) scope.values.add(name.text);
    }
  }, () => c.at('TsEnumDecl', start, it.end, {
    id, members: it.members.map((m) => c.node('TsEnumMember', m, { init: m.initializer ? expression(c, m.initializer) : null })),
  }));
}

/** @param {Converter} c @param {import('typescript').ModuleDeclaration} it @param {number} start */
function namespace(c, it, start) {
  if (isStringLiteral(it.name)) c.modules.push(it.name.text);
  const id = isStringLiteral(it.name) ? string(c, it.name) : c.ident(it.name, false);
  return c.at('TsModuleDecl', start, it.end, {
    id, declare: hasModifier(it, K.DeclareKeyword),
    body: it.body ? c.inNamespace(isIdentifier(it.name) ? textOf(it.name) : it.name.text, () => namespaceBody(c, /** @type {any} */ (it.body))) : null,
  });
}

/** @param {Converter} c @param {import('typescript').ModuleBlock | import('typescript').ModuleDeclaration} body one scope for `B.C` of `A.B.C` and the block */
function namespaceBody(c, body) {
  return c.within((scope) => {
    /** @type {any} */
    let it = body;
    for (; isModuleDeclaration(it); it = it.body) scope.add(textOf(/** @type {any} */ (it.name)));
    hoistBody(it.statements, scope);
  }, () => namespacePart(c, body));
}

/** @param {import('typescript').ModuleBlock} block @returns {boolean} whether TypeScript exports its declarations without a word */
function exportsWithoutWord({ flags, statements }) {
  return (flags & AMBIENT) !== 0 && !statements.some((it) => isExportDeclaration(it) || isExportAssignment(it));
}

/** @param {Converter} c @param {import('typescript').Statement} it of a namespace @returns {string[]} the names that it exports by `export { .. }` or `export import` */
function exportedBy(c, it) {
  if (isImportEqualsDeclaration(it)) return hasModifier(it, K.ExportKeyword) ? [textOf(it.name)] : [];
  return isExportDeclaration(it) && it.exportClause && isNamedExports(it.exportClause) ? it.exportClause.elements.map(({ name }) => moduleName(c, name)) : [];
}

/** @param {Converter} c @param {import('typescript').ModuleBlock} block notes what its statements without a declaration export, where there are any */
function noteBlock(c, { flags, statements }) {
  const isListed = statements.some(isExportDeclaration);
  if (!isListed && !statements.some(isImportEqualsDeclaration)) return;
  const exported = statements.flatMap((it) => exportedBy(c, it));
  if (exported.length === 0 && !isListed) return;
  const own = statements.filter((it) => !hasModifier(it, K.ExportKeyword)).flatMap(declaredNames);
  const hidden = (flags & AMBIENT) === 0 || !isListed ? [] : own.filter((it) => !exported.includes(it));
  c.blocks.push({ name: c.path.join('.'), exported, hidden });
}

/** @param {Converter} c @param {readonly import('typescript').Statement[]} list of a namespace */
function items(c, list) {
  /** @type {Made[]} */
  const all = [];
  for (const it of list) {
    const made = item(c, it, false);
    if (Array.isArray(made)) all.push(...made);
    else all.push(made);
  }
  return all;
}

/** @param {Converter} c @param {import('typescript').ModuleBlock | import('typescript').ModuleDeclaration} body @returns {Made} */
function namespacePart(c, body) {
  if (isModuleBlock(body)) {
    noteBlock(c, body);
    return c.node('TsModuleBlock', body, { body: c.exporting(exportsWithoutWord(body), () => items(c, body.statements)) });
  }
  const { name } = /** @type {{ name: import('typescript').Identifier }} */ (/** @type {unknown} */ (body));
  return c.declares('namespace', c.at('TsNamespaceDecl', c.start(name), body.end, {
    id: c.ident(name, false), body: c.inNamespace(textOf(name), () => namespacePart(c, /** @type {any} */ (body.body))),
  }), name);
}

/** @type {Record<number, [string, (c: Converter, it: any, start: number) => Made | null]>} */
const DECLARATIONS = {
  [K.VariableStatement]: ['', (c, it, start) => variables(c, it.declarationList, start, it.end, c.isExported(it))],
  [K.FunctionDeclaration]: ['function', (c, it, start) => {
    const ident = it.name ? c.ident(it.name, false) : null;
    const made = functionNode(c, it, start, it.end);
    return ident && c.at('FnDecl', start, it.end, { ident, function: made });
  }],
  [K.ClassDeclaration]: ['class', (c, it, start) => {
    const parts = classParts(c, it, start, it.end);
    return parts.ident && c.at('ClassDecl', start, it.end, parts);
  }],
  [K.InterfaceDeclaration]: ['interface', interfaceNode],
  [K.TypeAliasDeclaration]: ['type', alias],
  [K.EnumDeclaration]: ['enum', enumNode],
  [K.ModuleDeclaration]: ['namespace', namespace],
};

/**
 * A declaration without its `export`.
 * @param {Converter} c
 * @param {import('typescript').Statement} it
 * @param {number} start
 * @returns {Made | null} null where it is none
 */
export function declaration(c, it, start) {
  const [kind, make] = DECLARATIONS[it.kind] ?? [];
  const made = make ? make(c, it, start) : null;
  const { name } = /** @type {{ name?: import('typescript').Node }} */ (/** @type {unknown} */ (it));
  const isExported = c.isExported(it) || (name !== undefined && isIdentifier(name) && c.specified.has(textOf(name)));
  return made && kind ? c.declares(kind, made, name, false, isExported) : made;
}

/** @param {Converter} c @param {readonly import('typescript').Statement[]} list whose declarations stand in the open scope */
export function statements(c, list) {
  return list.map((it) => statement(c, it));
}

/** @param {Converter} c @param {import('typescript').Node} node @param {readonly import('typescript').Statement[]} list */
export function block(c, node, list) {
  return c.within((scope) => hoist(list, scope), () => c.other(node, statements(c, list)));
}

/** @param {Converter} c @param {import('typescript').ForInitializer | undefined} it @param {boolean} isPlain of `for (;;)` */
function initializer(c, it, isPlain) {
  if (!it) return null;
  if (isVariableDeclarationList(it)) return variables(c, it, c.start(it), it.end);
  const isPattern = isIdentifier(it) || isObjectLiteralExpression(it) || isArrayLiteralExpression(it);
  return isPattern && !isPlain ? target(c, it) : expression(c, it);
}

/** @param {Converter} c @param {any} it a loop by `for` */
function forLoop(c, it) {
  const list = it.initializer && isVariableDeclarationList(it.initializer) && isBlockScoped(it.initializer) ? it.initializer : null;
  return c.within((scope) => list && bindList(list, scope), () => c.other(it, [
    initializer(c, it.initializer, isForStatement(it)),
    it.condition && expression(c, it.condition),
    it.incrementor && expression(c, it.incrementor),
    it.expression && expression(c, it.expression),
    statement(c, it.statement),
  ]));
}

/** @param {Converter} c @param {import('typescript').SwitchStatement} it */
function switchNode(c, it) {
  const { clauses } = it.caseBlock;
  const parts = c.within((scope) => clauses.forEach((clause) => hoist(clause.statements, scope)), () => clauses.map((clause) => c.other(clause, [
    isCaseClause(clause) && expression(c, clause.expression), ...statements(c, clause.statements)])));
  return c.other(it, [expression(c, it.expression), ...parts]);
}

/** @param {Converter} c @param {import('typescript').CatchClause} clause */
function catchNode(c, clause) {
  const name = clause.variableDeclaration;
  return c.within((scope) => bindNames(name?.name, scope.values), () => c.other(clause, [
    name && binding(c, name.name, name.type), statement(c, clause.block)]));
}

/** @param {Converter} c @param {import('typescript').TryStatement} it */
function tryNode(c, it) {
  return c.other(it, [
    statement(c, it.tryBlock), it.catchClause && catchNode(c, it.catchClause), it.finallyBlock && statement(c, it.finallyBlock)]);
}

/** @param {Converter} c @param {any} it with an expression and a statement, in the order of the text */
function guarded(c, it) {
  if (isDoStatement(it)) return c.other(it, [statement(c, it.statement), expression(c, it.expression)]);
  return c.other(it, [expression(c, it.expression), statement(c, it.statement)]);
}

/** @type {Record<number, (c: Converter, it: any) => Made>} */
const STATEMENTS = {
  [K.ExpressionStatement]: (c, it) => c.node('ExprStmt', it, { expr: expression(c, it.expression) }),
  [K.Block]: (c, it) => block(c, it, it.statements),
  [K.IfStatement]: (c, it) => c.other(it, [
    expression(c, it.expression), statement(c, it.thenStatement), it.elseStatement && statement(c, it.elseStatement)]),
  [K.ReturnStatement]: (c, it) => c.other(it, [it.expression && expression(c, it.expression)]),
  [K.ThrowStatement]: (c, it) => c.other(it, [it.expression && expression(c, it.expression)]),
  [K.WhileStatement]: guarded,
  [K.DoStatement]: guarded,
  [K.WithStatement]: guarded,
  [K.LabeledStatement]: (c, it) => c.other(it, [statement(c, it.statement)]),
  [K.ForStatement]: forLoop,
  [K.ForInStatement]: forLoop,
  [K.ForOfStatement]: forLoop,
  [K.SwitchStatement]: switchNode,
  [K.TryStatement]: tryNode,
};

/** @param {Converter} c @param {import('typescript').Statement} it @returns {Made} */
export function statement(c, it) {
  if (DECLARATIONS[it.kind]) return declaration(c, it, c.start(it)) ?? c.other(it, []);
  const make = STATEMENTS[it.kind];
  return make ? make(c, it) : c.other(it, []);
}
