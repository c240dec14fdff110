// Expressions.
import { K, ts } from './converter.js';
import { textOf } from './scopes.js';
import { bigint, key, number, plainName, privateName, string } from './names.js';
import { assignedName, parameters, targetParts } from './patterns.js';
import { annotationOf, skipSpace, type, typeArguments } from './types.js';
import { arrow, body, classParts, functionExpression, functionNode } from './functions.js';
import { hoistFunction } from './scopes.js';

/** @typedef {import('./converter.js').Converter} Converter */
/** @typedef {import('./nodes.js').Made} Made */
/** @typedef {import('typescript').Expression} Expression */

const { isArrayLiteralExpression, isAsExpression, isBinaryExpression, isElementAccessExpression, isIdentifier, isJsxElement, isJsxExpression,
  isJsxSpreadAttribute, isJsxText, isMethodDeclaration, isObjectLiteralExpression, isPrivateIdentifier, isPropertyAccessExpression,
  isPropertyAssignment, isSetAccessor, isShorthandPropertyAssignment, isSpreadAssignment, isSpreadElement, isStringLiteralLike,
  isTypeReferenceNode } = ts;

/** A chain of more operators than this is kept flat, since it leans to the left and a node's depth has a limit. */
const LONG_CHAIN = 64;

/** @param {import('typescript').TypeNode} node @returns {boolean} whether it is the `const` of `as const` */
function isConst(node) {
  return isTypeReferenceNode(node) && isIdentifier(node.typeName) && textOf(node.typeName) === 'const' && !node.typeArguments;
}

/** @param {Converter} c @param {import('typescript').AsExpression | import('typescript').TypeAssertion} node */
function assertion(c, node) {
  const inner = expression(c, node.expression);
  if (isConst(node.type)) return c.other(node, [inner]);
  if (isAsExpression(node)) {
    if (c.marks?.satisfies.has(skipSpace(c, node.expression.end))) return c.other(node, [inner, type(c, node.type)]);
    return c.node('TsAsExpr', node, { expr: inner, ty: type(c, node.type) });
  }
  return c.node('TsTypeAssertion', node, { expr: inner, ty: type(c, node.type) });
}

/** @param {Converter} c @param {import('typescript').CallExpression | import('typescript').NewExpression} node */
function call(c, node) {
  const parts = [];
  const [first] = node.arguments ?? [];
  if (node.expression.kind === K.ImportKeyword) {
    if (first && isStringLiteralLike(first)) c.refers('import()', first, node);
  } else if (node.expression.kind !== K.SuperKeyword) parts.push(expression(c, node.expression));
  for (const it of node.arguments ?? []) parts.push(expression(c, isSpreadElement(it) ? it.expression : it));
  return c.other(node, [...parts, typeArguments(c, node.typeArguments)]);
}

/** @param {Converter} c @param {import('typescript').ObjectLiteralExpression} node */
function object(c, node) {
  const parts = [];
  for (const it of node.properties) {
    if (isPropertyAssignment(it)) parts.push(key(c, it.name), expression(c, it.initializer));
    else parts.push(...objectProperty(c, it));
  }
  return c.other(node, parts);
}

/** @param {Converter} c @param {Exclude<import('typescript').ObjectLiteralElementLike, import('typescript').PropertyAssignment>} it @returns {Made[]} */
function objectProperty(c, it) {
  if (isShorthandPropertyAssignment(it)) {
    const value = it.objectAssignmentInitializer;
    return value ? [c.ident(it.name), expression(c, value)] : [c.ident(it.name)];
  }
  if (isSpreadAssignment(it)) return [expression(c, it.expression)];
  if (isMethodDeclaration(it)) return [c.other(it, [key(c, it.name), functionNode(c, it, c.start(it), it.end)])];
  return [c.within((scope) => hoistFunction(it, scope), () => c.other(it, [
    key(c, it.name),
    ...(isSetAccessor(it) ? parameters(c, it.parameters) : [annotationOf(c, it.type)]),
    it.body && body(c, it.body),
  ]))];
}

/** @param {Converter} c @param {import('typescript').ElementAccessExpression} node @returns {Made} the brackets and what is in them */
function brackets(c, node) {
  let start = skipSpace(c, (node.questionDotToken ?? node.expression).end);
  if (c.source[start] !== '[') start = c.start(node.argumentExpression);
  return c.at('Computed', start, node.end, { expr: expression(c, node.argumentExpression) });
}

/** @param {Converter} c @param {import('typescript').PropertyAccessExpression | import('typescript').ElementAccessExpression} node */
function member(c, node) {
  const isOptional = node.questionDotToken !== undefined || (node.flags & ts.NodeFlags.OptionalChain) !== 0;
  let prop;
  if (isElementAccessExpression(node)) prop = brackets(c, node);
  else prop = isPrivateIdentifier(node.name) ? privateName(c, node.name) : plainName(c, node.name);
  if (node.expression.kind === K.SuperKeyword) return c.other(node, [prop]);
  const made = c.node('Member', node, { obj: expression(c, node.expression), prop });
  return isOptional ? c.other(node, [made]) : made;
}

/** @param {import('typescript').Node} node @returns {node is import('typescript').BinaryExpression} */
function isOperation(node) {
  return isBinaryExpression(node) && !isAssignment(node.operatorToken.kind);
}

/** @param {number} operator */
function isAssignment(operator) {
  return operator >= K.FirstAssignment && operator <= K.LastAssignment;
}

/** @param {Converter} c @param {import('typescript').BinaryExpression} node */
function assignment(c, node) {
  const plain = node.operatorToken.kind === K.EqualsToken;
  const { left: to } = node;
  let left;
  if (isIdentifier(to)) left = assignedName(c, to);
  else if (plain && (isObjectLiteralExpression(to) || isArrayLiteralExpression(to))) left = c.other(to, targetParts(c, to));
  else left = expression(c, to);
  return c.node('Assign', node, { plain, left, right: expression(c, node.right) });
}

/** @param {Converter} c @param {import('typescript').BinaryExpression} node */
function binary(c, node) {
  if (isAssignment(node.operatorToken.kind)) return assignment(c, node);
  const parts = [];
  /** @type {Expression} */
  let first = node;
  for (; isOperation(first); first = first.left) parts.push(first.right);
  if (parts.length <= LONG_CHAIN) return c.other(node, [expression(c, node.left), expression(c, node.right)]);
  return c.other(node, [first, ...parts.reverse()].map((it) => expression(c, it)));
}

/** @param {Converter} c @param {import('typescript').JsxAttributes} attributes */
function jsxAttributes(c, attributes) {
  const parts = [];
  for (const it of attributes.properties) {
    if (isJsxSpreadAttribute(it)) parts.push(expression(c, it.expression));
    else if (it.initializer) parts.push(jsxChild(c, it.initializer));
  }
  return parts;
}

/** @param {Converter} c @param {import('typescript').Node} it @returns {Made | null} */
function jsxChild(c, it) {
  if (isJsxExpression(it)) return it.expression ? expression(c, it.expression) : null;
  return isJsxText(it) ? null : expression(c, /** @type {Expression} */ (it));
}

/** @param {Converter} c @param {import('typescript').JsxOpeningLikeElement} node */
function jsxTag(c, node) {
  const name = /** @type {import('typescript').Node} */ (node.tagName);
  const tag = isIdentifier(name) || isPropertyAccessExpression(name) ? expression(c, name) : null;
  return [tag, typeArguments(c, node.typeArguments), ...jsxAttributes(c, node.attributes)];
}

/** @param {Converter} c @param {import('typescript').JsxElement | import('typescript').JsxFragment} node */
function jsx(c, node) {
  const tag = isJsxElement(node) ? jsxTag(c, node.openingElement) : [];
  return c.other(node, [...tag, ...node.children.map((it) => jsxChild(c, it))]);
}

/** @param {Converter} c @param {any} node with an expression alone */
function wrapped(c, node) {
  return c.other(node, [node.expression && expression(c, node.expression)]);
}

/** @param {Converter} c @param {any} node an operator before or behind */
function unary(c, node) {
  return c.other(node, [expression(c, node.operand)]);
}

/** @param {Converter} c @param {import('typescript').ArrayLiteralExpression | import('typescript').CommaListExpression} node */
function list(c, node) {
  const parts = [];
  for (const it of node.elements) if (it.kind !== K.OmittedExpression) parts.push(expression(c, isSpreadElement(it) ? it.expression : it));
  return c.other(node, parts);
}

/** @type {Record<number, (c: Converter, node: any) => Made>} */
const EXPRESSIONS = {
  [K.Identifier]: (c, node) => c.ident(node),
  [K.StringLiteral]: string,
  [K.NumericLiteral]: number,
  [K.BigIntLiteral]: bigint,
  [K.PropertyAccessExpression]: member,
  [K.ElementAccessExpression]: member,
  [K.BinaryExpression]: binary,
  [K.AsExpression]: assertion,
  [K.TypeAssertionExpression]: assertion,
  [K.FunctionExpression]: functionExpression,
  [K.ArrowFunction]: arrow,
  [K.ClassExpression]: (c, node) => {
    const parts = c.typed(false, () => classParts(c, node, c.start(node), node.end));
    return c.declares('class', c.node('ClassExpr', node, parts), node.name);
  },
  [K.ParenthesizedExpression]: wrapped,
  [K.NonNullExpression]: wrapped,
  [K.DeleteExpression]: wrapped,
  [K.TypeOfExpression]: wrapped,
  [K.VoidExpression]: wrapped,
  [K.AwaitExpression]: wrapped,
  [K.SpreadElement]: wrapped,
  [K.YieldExpression]: wrapped,
  [K.PrefixUnaryExpression]: unary,
  [K.PostfixUnaryExpression]: unary,
  [K.CallExpression]: call,
  [K.NewExpression]: call,
  [K.ExpressionWithTypeArguments]: (c, node) => c.other(node, [expression(c, node.expression), typeArguments(c, node.typeArguments)]),
  [K.ConditionalExpression]: (c, node) => c.other(node, [node.condition, node.whenTrue, node.whenFalse].map((it) => expression(c, it))),
  [K.TemplateExpression]: (c, node) => c.other(node, node.templateSpans.map((/** @type {any} */ it) => expression(c, it.expression))),
  [K.TaggedTemplateExpression]: (c, node) => c.other(node, [
    expression(c, node.tag), typeArguments(c, node.typeArguments), expression(c, node.template)]),
  [K.ArrayLiteralExpression]: list,
  [K.CommaListExpression]: list,
  [K.ObjectLiteralExpression]: object,
  [K.PrivateIdentifier]: (c, node) => c.other(node, [privateName(c, node)]),
  [K.JsxElement]: jsx,
  [K.JsxFragment]: jsx,
  [K.JsxSelfClosingElement]: (c, node) => c.other(node, jsxTag(c, node)),
};
const { SatisfiesExpression } = /** @type {Record<string, any>} */ (K); // of TypeScript 4.9 and newer ones
if (SatisfiesExpression !== undefined) {
  EXPRESSIONS[SatisfiesExpression] = (c, node) => c.other(node, [expression(c, node.expression), type(c, node.type)]);
}

/** @param {Converter} c @param {Expression} node @returns {Made} `this`, `null`, regular expressions and their like hold nothing */
export function expression(c, node) {
  const make = EXPRESSIONS[node.kind];
  return make ? make(c, node) : c.other(node, []);
}
