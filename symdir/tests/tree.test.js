// Trees beside TypeScript's own: each piece of syntax is a node of its kind, and two names are one variable where the checker says so.
import assert from 'node:assert/strict';
import { spawnSync } from 'node:child_process';
import { readFileSync, writeFileSync } from 'node:fs';
import path from 'node:path';
import test from 'node:test';

import { hitsOf, madeOf } from '../lib/commands/where.js';
import { parseFile } from '../lib/folder/parse.js';
import { languageOf } from '../lib/language.js';
import { findSymq } from '../lib/program.js';
import { nodesOf } from '../lib/tree/convert.js';
import { nodesText } from '../lib/tree/node.js';
import { compareNames } from './binder.js';
import { folderOf } from './helper.js';
import { forEachNode, ts } from './language.js';

/** @typedef {import('typescript').Node} Node */

const SYNTAX = readFileSync(new URL('./texts/syntax.txt', import.meta.url), 'utf8');
const JSX = `import React, { type Props } from "react";
export const a = <B c={d} {...e} f="g"><F.G<Props> />text{a}{}<></>{...e}</B>, b = <T,>(x: T) => <a.b.c x={x}>{x}</a.b.c>;
function B(props: Props) { const d = <>{props}{a}</>; return d; } const d = a, e = b, F = { G: B };
`;
const SCRIPT = `const a = require("./b"), { c } = a; module.exports = function d(e) { var f = e, g = () => f; if (f) { let a = g; a; } return c(a); };
class H extends a { static i = this; j = c; #k = 1; get l() { return this.#k; } } exports.m = H; for (var n in a) n; o: for (const n of [c]) { n; continue o; }
`;
const TEXTS = /** @type {[string, string][]} */ ([['syntax.ts', SYNTAX], ['jsx.tsx', JSX], ['script.js', SCRIPT]]);

/** @param {string} name @param {string} text @param {boolean} [bodies] */
function treeOf(name, text, bodies = true) {
  const made = nodesOf(name, text, { ...languageOf(name), bodies, ambient: false });
  assert.equal(made.fault, null);
  return made.nodes ?? [];
}

test('names are one variable where the checker says so, and each of the checker\'s is in the tree', () => {
  for (const [name, text] of TEXTS) {
    const { count, wrong, lacking } = compareNames(name, text);
    assert.deepEqual([wrong, lacking.map((at) => text.slice(at, at + 30))], [[], []], name);
    assert.ok(count > text.length / 60, `${count}`);
  }
});

test('symq reads the trees, with bodies and without', () => {
  for (const bodies of [true, false]) {
    const modules = TEXTS.map(([name, text]) => `{"specifier":"file:///${name}","kind":"esm","text":${JSON.stringify(text)},"tree":{"nodes":${nodesText(treeOf(name, text, bodies))}}}`);
    const graph = path.join(folderOf({}), 'graph.json');
    writeFileSync(graph, `{"modules":[${modules.join(',')}]}`);
    const { status, stderr } = spawnSync(findSymq(undefined), [graph], { input: '', encoding: 'utf8' });
    assert.deepEqual([status, stderr], [0, '']);
  }
});

const K = ts.SyntaxKind;
/** The kind of a node, by TypeScript's. */
/** @type {Record<number, string>} */
const KINDS = {
  [K.ImportDeclaration]: 'Import', [K.ImportSpecifier]: 'ImportNamed', [K.NamespaceImport]: 'ImportNamespace', [K.ExportSpecifier]: 'ExportSpecifier',
  [K.NamespaceExport]: 'ExportNamespace', [K.ImportEqualsDeclaration]: 'TsImportEqualsDecl', [K.VariableDeclaration]: 'VarDeclarator',
  [K.InterfaceDeclaration]: 'TsInterfaceDecl', [K.TypeAliasDeclaration]: 'TsTypeAliasDecl', [K.EnumDeclaration]: 'TsEnumDecl', [K.EnumMember]: 'TsEnumMember',
  [K.ModuleBlock]: 'TsModuleBlock', [K.Constructor]: 'Constructor', [K.IndexSignature]: 'TsIndexSignature', [K.CallSignature]: 'TsCallSignatureDecl',
  [K.ConstructSignature]: 'TsConstructSignatureDecl', [K.PropertySignature]: 'TsPropertySignature', [K.MethodSignature]: 'TsMethodSignature',
  [K.TypeParameter]: 'TsTypeParam', [K.TypeQuery]: 'TsTypeQuery', [K.NamedTupleMember]: 'TsTupleElement', [K.AsExpression]: 'TsAsExpr',
  [K.TypeAssertionExpression]: 'TsTypeAssertion', [K.FunctionExpression]: 'FnExpr', [K.ArrowFunction]: 'Arrow', [K.ClassExpression]: 'ClassExpr',
  [K.PropertyAccessExpression]: 'Member', [K.ElementAccessExpression]: 'Member', [K.NumericLiteral]: 'Num', [K.BigIntLiteral]: 'BigInt',
  [K.ComputedPropertyName]: 'Computed', [K.ExpressionStatement]: 'ExprStmt', [K.UnionType]: 'Type', [K.IntersectionType]: 'Type', [K.TypeReference]: 'Type',
  [K.TypeOperator]: 'Type', [K.ConditionalType]: 'Type', [K.MappedType]: 'Type', [K.InferType]: 'Type', [K.TypeLiteral]: 'Type', [K.IndexedAccessType]: 'Type',
  [K.TemplateLiteralType]: 'Type', [K.FunctionType]: 'Type', [K.ConstructorType]: 'Type', [K.TypePredicate]: 'Type', [K.ArrayType]: 'Type', [K.ThisType]: 'Type',
  [K.CallExpression]: 'Other', [K.NewExpression]: 'Other', [K.ConditionalExpression]: 'Other', [K.YieldExpression]: 'Other', [K.AwaitExpression]: 'Other',
  [K.VoidExpression]: 'Other', [K.DeleteExpression]: 'Other', [K.TypeOfExpression]: 'Other', [K.ParenthesizedExpression]: 'Other', [K.NonNullExpression]: 'Other',
  [K.TemplateExpression]: 'Other', [K.TaggedTemplateExpression]: 'Other', [K.ArrayLiteralExpression]: 'Other', [K.ObjectLiteralExpression]: 'Other',
  [K.PrefixUnaryExpression]: 'Other', [K.PostfixUnaryExpression]: 'Other', [K.IfStatement]: 'Other', [K.ForStatement]: 'Other', [K.ForInStatement]: 'Other',
  [K.ForOfStatement]: 'Other', [K.WhileStatement]: 'Other', [K.DoStatement]: 'Other', [K.SwitchStatement]: 'Other', [K.CaseClause]: 'Other', [K.TryStatement]: 'Other',
  [K.CatchClause]: 'Other', [K.ReturnStatement]: 'Other', [K.ThrowStatement]: 'Other', [K.LabeledStatement]: 'Other', [K.WithStatement]: 'Other', [K.Block]: 'Other',
  [K.Decorator]: 'Other', [K.JsxElement]: 'Other', [K.JsxSelfClosingElement]: 'Other', [K.JsxFragment]: 'Other',
};

/** @param {Node} node @returns {boolean} whether it is a target of an assignment, which is a pattern */
function isTarget(node) {
  for (let at = node; at.parent; at = at.parent) {
    const { parent } = at;
    if (ts.isBinaryExpression(parent)) return parent.left === at && parent.operatorToken.kind === K.EqualsToken;
    if (ts.isForInStatement(parent) || ts.isForOfStatement(parent)) return parent.initializer === at;
    if (!ts.isObjectLiteralElement(parent) && !ts.isObjectLiteralExpression(parent) && !ts.isArrayLiteralExpression(parent) && !ts.isSpreadElement(parent)) return false;
  }
  return false;
}

/** @param {Node} node @returns {boolean} whether it is a part of what is one node: a literal's type, a computed key of an interface, a pattern with its type, `as const`, a static block, what closes an element */
function isPart(node) {
  const { parent } = node;
  if (ts.isLiteralTypeNode(parent) || (ts.isPrefixUnaryExpression(parent) && ts.isLiteralTypeNode(parent.parent))) return true;
  if (ts.isComputedPropertyName(node)) return ts.isTypeElement(parent);
  if (ts.isObjectBindingPattern(node) || ts.isArrayBindingPattern(node)) return (ts.isVariableDeclaration(parent) || ts.isParameter(parent)) && parent.type !== undefined;
  if (ts.isVariableDeclaration(node)) return ts.isCatchClause(parent);
  for (let at = node; ts.isPropertyAccessExpression(at); at = at.parent) if (ts.isJsxClosingElement(at.parent)) return true;
  return ts.isBlock(node) ? ts.isClassStaticBlockDeclaration(parent) : ts.isConstTypeReference(ts.isAsExpression(node) ? node.type : node);
}

/** @param {Node} node @returns {string | undefined} the kind that it has in the tree */
function kindOf(node) {
  if (isPart(node)) return undefined;
  if (ts.isFunctionDeclaration(node)) return node.body && ts.getCombinedModifierFlags(node) & ts.ModifierFlags.Default ? 'FnExpr' : 'FnDecl';
  if (ts.isClassDeclaration(node)) return ts.getCombinedModifierFlags(node) & ts.ModifierFlags.Default ? 'ClassExpr' : 'ClassDecl';
  if (ts.isModuleDeclaration(node)) return ts.isModuleDeclaration(node.parent) ? 'TsNamespaceDecl' : 'TsModuleDecl';
  if (ts.isBinaryExpression(node)) return node.operatorToken.kind >= K.FirstAssignment && node.operatorToken.kind <= K.LastAssignment ? isTarget(node) ? undefined : 'Assign' : 'Other';
  if (ts.isPropertyDeclaration(node)) return ts.isPrivateIdentifier(node.name) ? 'Other' : 'ClassProp';
  if (ts.isMethodDeclaration(node) || ts.isAccessor(node)) {
    if (ts.isObjectLiteralExpression(node.parent)) return 'Other';
    if (ts.isClassLike(node.parent)) return ts.isPrivateIdentifier(node.name) ? 'Other' : 'ClassMethod';
    return ts.isGetAccessor(node) ? 'TsGetterSignature' : 'TsSetterSignature';
  }
  if (ts.isImportTypeNode(node)) return node.isTypeOf ? 'TsTypeQuery' : 'TsImportType';
  if (ts.isObjectBindingPattern(node)) return 'ObjectPat';
  if (ts.isArrayBindingPattern(node)) return 'ArrayPat';
  if ((ts.isObjectLiteralExpression(node) || ts.isArrayLiteralExpression(node)) && isTarget(node)) return undefined;
  return KINDS[node.kind];
}

/** @param {Node} node @returns {Record<string, unknown>} fields that say how it is written */
function fieldsOf(node) {
  const flags = ts.isEnumMember(node) ? 0 : ts.getCombinedModifierFlags(/** @type {any} */ (node));
  const accessibility = flags & ts.ModifierFlags.Private ? 'private' : flags & ts.ModifierFlags.Protected ? 'protected' : flags & ts.ModifierFlags.Public ? 'public' : null;
  const isStatic = (flags & ts.ModifierFlags.Static) !== 0;
  if (ts.isConstructorDeclaration(node)) return { accessibility };
  if (ts.isClassElement(node) && ts.isClassLike(node.parent) && !ts.isPrivateIdentifier(/** @type {any} */ (node).name ?? node) && !ts.isIndexSignatureDeclaration(node)) {
    const kind = ts.isGetAccessor(node) ? 'getter' : ts.isSetAccessor(node) ? 'setter' : 'method';
    return ts.isPropertyDeclaration(node) ? { accessibility, is_static: isStatic } : { accessibility, is_static: isStatic, method_kind: kind };
  }
  if (ts.isTypeElement(node) && node.name) return { computed: ts.isComputedPropertyName(node.name) };
  if (ts.isArrowFunction(node)) return { is_block: ts.isBlock(node.body) };
  if (ts.isBinaryExpression(node) && kindOf(node) === 'Assign') return { plain: node.operatorToken.kind === K.EqualsToken };
  if (ts.isImportSpecifier(node) || ts.isExportSpecifier(node)) return { type_only: node.isTypeOnly };
  if (ts.isModuleDeclaration(node) && !ts.isModuleDeclaration(node.parent)) return { declare: (flags & ts.ModifierFlags.Ambient) !== 0 };
  return {};
}

test('a tree that is kept has the names and the nodes of its text parsed anew', () => {
  const declarations = 'import a = require("./b");\nexport as namespace n;\ndeclare module "m" { export { x as y } from "./x"; }\ndeclare const c: a.b.C, d: import("./e").F<typeof c>;\nexport { c as default };\n';
  for (const [name, text] of [...TEXTS, ['declared.d.ts', declarations], ['empty.ts', '']]) {
    const file = path.join(folderOf({ [name]: text }), name);
    const anew = nodesOf(file, text, { ...languageOf(name), bodies: true, ambient: false });
    const nodes = anew.nodes ?? assert.fail(name);
    const kept = madeOf(parseFile({ file, specifier: 'file:///a' }, { bodies: true, ambient: false }));
    assert.deepEqual(hitsOf(kept), hitsOf({ ...anew, nodes }), name);
    assert.deepEqual(kept.rows(), JSON.parse(nodesText(nodes)), name);
    assert.deepEqual(kept.nodes.map(({ kind, start, end }) => [kind, start, end]), nodes.map(({ kind, start, end }) => [kind, start, end]), name);
  }
});

test('each piece of syntax is a node of its kind, with its range and how it is written', () => {
  for (const [name, text] of TEXTS) {
    const file = ts.createSourceFile(name, text, ts.ScriptTarget.Latest, true);
    const nodes = new Map(treeOf(name, text).map((it) => [`${it.kind} ${it.start} ${it.end}`, it]));
    const ends = new Set([...nodes.values()].map((it) => `${it.kind} ${it.end}`));
    /** @type {string[]} */
    const lacking = [];
    forEachNode(file, (node) => {
      const kind = kindOf(node);
      if (kind === undefined) return;
      // `export` before a declaration isn't a part of it
      const isExported = (ts.getCombinedModifierFlags(/** @type {any} */ (node)) & ts.ModifierFlags.Export) !== 0 && (ts.isSourceFile(node.parent) || ts.isModuleBlock(node.parent)) && !ts.isImportEqualsDeclaration(node);
      const found = nodes.get(`${kind} ${node.getStart()} ${node.end}`);
      if (isExported ? !ends.has(`${kind} ${node.end}`) : !found) lacking.push(`${kind} ${node.getText().slice(0, 40)}`);
      for (const [key, value] of Object.entries(found ? fieldsOf(node) : {})) if ((found?.fields[key] ?? false) !== (value ?? false)) lacking.push(`${key} of ${kind} ${node.getText().slice(0, 40)}`);
    });
    assert.deepEqual(lacking, [], name);
  }
});

test('what a statement or an expression holds is in the order of the text', () => {
  const text = 'for (let i = 0, j; i < j; i++) { j; }\nfor (const a in b) c;\nfor (const a of b) c;\nfor (a of b) c;\ndo a; while (b);\nwhile (a) b;\nif (a) b; else c;\ntry { a; } catch (b) { c; } finally { d; }\nswitch (a) { case b: c; default: d; }\n'
    + 'const e = a ? b : c, f = a.b(c, ...d), g = `${a}${b}`, h = a`${b}`, i = { a, b: c, [d]: e, ...f, g() {}, get h() { return a; }, set i(j) {} }, k = a + b * c;\nexport { e, f as x };\nclass l { @m n; @o p() {} q = 1; }\n';
  let count = 0;
  for (const { kind, fields } of treeOf('a.ts', text)) {
    for (const [key, value] of Object.entries(fields)) {
      if (!Array.isArray(value) || typeof value[1] !== 'object') continue;
      const starts = /** @type {import('../lib/tree/node.js').TreeNode[]} */ (value).map((it) => it.start);
      assert.deepEqual(starts, [...starts].sort((a, b) => a - b), `${key} of ${kind}`);
      count++;
    }
  }
  assert.ok(count > 20);
});
