// What binds names, and what stands on the left of an assignment.
import { K, ts } from './converter.js';
import { key } from './names.js';
import { annotationOf } from './types.js';
import { formOf } from './nodes.js';
import { expression } from './expressions.js';

/** @typedef {import('./converter.js').Converter} Converter */
/** @typedef {import('./nodes.js').Made} Made */

const { isArrayLiteralExpression, isBinaryExpression, isBindingElement, isIdentifier, isObjectBindingPattern, isObjectLiteralExpression,
  isPropertyAssignment, isShorthandPropertyAssignment, isSpreadAssignment, isSpreadElement } = ts;

const BINDING_IDENT = formOf('BindingIdent');

/**
 * @param {Converter} c
 * @param {import('typescript').BindingName} name
 * @param {import('typescript').TypeNode} [type] that stands after it
 * @returns {Made}
 */
export function binding(c, name, type) {
  const type_ann = annotationOf(c, type);
  if (isIdentifier(name)) return c.named(BINDING_IDENT, name, false, type_ann);
  const end = type ? type.end : name.end;
  if (isObjectBindingPattern(name)) {
    return c.at('ObjectPat', c.start(name), end, { props: name.elements.map((it) => property(c, it)), type_ann });
  }
  const elems = name.elements.filter(isBindingElement).map((it) => element(c, it));
  return c.at('ArrayPat', c.start(name), end, { elems, type_ann });
}

/** @param {Converter} c @param {import('typescript').BindingElement} it */
function element(c, it) {
  if (it.dotDotDotToken) return c.node('RestPat', it, { arg: binding(c, it.name) });
  const left = binding(c, it.name);
  return it.initializer ? c.at('AssignPat', c.start(it.name), it.end, { left, right: expression(c, it.initializer) }) : left;
}

/** @param {Converter} c @param {import('typescript').BindingElement} it of an object pattern */
function property(c, it) {
  if (it.dotDotDotToken) return c.node('RestPat', it, { arg: binding(c, it.name) });
  if (it.propertyName) return c.node('KeyValuePatProp', it, { key: key(c, it.propertyName), value: element(c, it) });
  return c.node('AssignPatProp', it, { key: binding(c, it.name), value: it.initializer ? expression(c, it.initializer) : null });
}

/** @param {Converter} c @param {import('typescript').ParameterDeclaration} it @param {boolean} [isSignature] @returns {Made} */
export function parameter(c, it, isSignature = false) {
  if (it.dotDotDotToken) {
    return c.at('RestPat', c.start(it.dotDotDotToken), it.end, { arg: binding(c, it.name), type_ann: annotationOf(c, it.type) });
  }
  const left = binding(c, it.name, it.type);
  const value = it.initializer;
  if (!value || isSignature) return left;
  return c.at('AssignPat', c.start(it.name), it.end, { left, right: c.typed(false, () => expression(c, value)) });
}

/** @param {Converter} c @param {readonly import('typescript').ParameterDeclaration[]} list @param {boolean} [isSignature] */
export function parameters(c, list, isSignature) {
  return list.map((it) => parameter(c, it, isSignature));
}

/** @param {Converter} c @param {import('typescript').Identifier} node that is assigned to */
export function assignedName(c, node) {
  return c.named(BINDING_IDENT, node, false);
}

/** @param {Converter} c @param {import('typescript').ObjectLiteralElementLike} it */
function targetProperty(c, it) {
  if (isShorthandPropertyAssignment(it)) {
    const value = it.objectAssignmentInitializer;
    return c.node('AssignPatProp', it, { key: assignedName(c, it.name), value: value ? expression(c, value) : null });
  }
  if (isPropertyAssignment(it)) return c.node('KeyValuePatProp', it, { key: key(c, it.name), value: target(c, it.initializer) });
  if (isSpreadAssignment(it)) return c.node('RestPat', it, { arg: target(c, it.expression) });
  return c.other(it, []);
}

/** @param {Converter} c @param {import('typescript').ObjectLiteralExpression | import('typescript').ArrayLiteralExpression} node */
export function targetParts(c, node) {
  if (isObjectLiteralExpression(node)) return node.properties.map((it) => targetProperty(c, it));
  return node.elements.filter((it) => it.kind !== K.OmittedExpression).map((it) => target(c, it));
}

/** @param {Converter} c @param {import('typescript').Expression} it that is assigned to @returns {Made} a pattern */
export function target(c, it) {
  if (isIdentifier(it)) return assignedName(c, it);
  if (isSpreadElement(it)) return c.node('RestPat', it, { arg: target(c, it.expression) });
  if (isObjectLiteralExpression(it)) {
    const props = targetParts(c, it);
    return props.some((part) => c.nodes.kindOf(part) === 'Other') ? c.other(it, props) : c.node('ObjectPat', it, { props });
  }
  if (isArrayLiteralExpression(it)) return c.node('ArrayPat', it, { elems: targetParts(c, it) });
  if (isBinaryExpression(it) && it.operatorToken.kind === K.EqualsToken) {
    return c.node('AssignPat', it, { left: target(c, it.left), right: expression(c, it.right) });
  }
  return c.node('ExprPat', it, { expr: expression(c, it) });
}
