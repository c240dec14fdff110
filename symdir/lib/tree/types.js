// Types, and the members of interfaces.
import { K, hasModifier, ts } from './converter.js';
import { MODULE_SCOPE, hoistFunction, textOf } from './scopes.js';
import { elementKey, entity } from './names.js';
import { formOf, nameNumber } from './nodes.js';
import { parameter, parameters } from './patterns.js';
import { expression } from './expressions.js';

/** @typedef {import('./converter.js').Converter} Converter */
/** @typedef {import('./nodes.js').Made} Made */

const { forEachChild, isConditionalTypeNode, isIdentifier, isImportTypeNode, isInferTypeNode, isLiteralTypeNode, isNamedTupleMember,
  isStringLiteral, isTypeNode } = ts;

const [TYPE_ANN, IDENT, BINDING_IDENT] = ['TsTypeAnn', 'Ident', 'BindingIdent'].map(formOf);
const TY = nameNumber('ty');
/** @type {Made[]} */
const NONE = [];
const [COLON, EQUALS, GREATER] = [...':=>'].map((it) => it.charCodeAt(0));

/** @param {Converter} c @param {import('typescript').TypeNode | undefined} node from the colon, or the arrow, on */
export function annotation(c, node) {
  if (!node) return null;
  const before = c.source.charCodeAt(node.pos - 1);
  const isArrow = before === GREATER && c.source.charCodeAt(node.pos - 2) === EQUALS;
  const start = before === COLON ? node.pos - 1 : isArrow ? node.pos - 2 : c.start(node);
  return c.single(TYPE_ANN, start, node.end, TY, type(c, node));
}

/** @param {Converter} c @param {import('typescript').TypeNode | undefined} node of what is no type itself */
export function annotationOf(c, node) {
  if (!node) return null;
  const before = c.inType;
  c.inType = true;
  const made = annotation(c, node);
  c.inType = before;
  return made;
}

/** @param {Converter} c @param {import('typescript').NodeArray<import('typescript').TypeParameterDeclaration> | undefined} list of what is no type itself */
export function typeParametersOf(c, list) {
  return list ? c.typed(true, () => typeParameters(c, list)) : null;
}

/** @param {Converter} c @param {import('typescript').NodeArray<import('typescript').Node>} list @returns {[number, number]} with its brackets */
function bracketed(c, list) {
  return [list.pos - 1, skipSpace(c, list.end) + 1];
}

/** @param {Converter} c @param {number} at @returns {number} behind spaces and comments */
export function skipSpace(c, at) {
  return /** @type {any} */ (ts).skipTrivia(c.source, at);
}

/** @param {Converter} c @param {import('typescript').NodeArray<import('typescript').TypeParameterDeclaration> | undefined} list */
export function typeParameters(c, list) {
  if (!list) return null;
  return c.at('TsTypeParamDecl', ...bracketed(c, list), { params: list.map((it) => typeParameter(c, it)) });
}

/** @param {Converter} c @param {import('typescript').TypeParameterDeclaration} it */
function typeParameter(c, it) {
  return c.node('TsTypeParam', it, { constraint: it.constraint ? type(c, it.constraint) : null, default: it.default ? type(c, it.default) : null });
}

/** @param {Converter} c @param {import('typescript').NodeArray<import('typescript').TypeNode> | undefined} list */
export function typeArguments(c, list) {
  if (!list) return null;
  return c.at('TsTypeParamInstantiation', ...bracketed(c, list), { params: list.map((it) => type(c, it)) });
}

/** @param {Converter} c @param {import('typescript').ExpressionWithTypeArguments} it */
export function heritage(c, it) {
  return c.node('TsExprWithTypeArgs', it, { expr: expression(c, it.expression), type_args: typeArguments(c, it.typeArguments) });
}

/** @param {Converter} c @param {import('typescript').ImportTypeNode} node */
function importType(c, node) {
  const literal = isLiteralTypeNode(node.argument) && isStringLiteral(node.argument.literal) ? node.argument.literal : null;
  if (!literal) return c.type(node, [type(c, node.argument)]);
  const arg = c.refers('import type', literal, node);
  const first = node.qualifier && firstName(node.qualifier);
  if (first) c.takes(textOf(first), '', 0, first);
  const start = node.isTypeOf ? skipSpace(c, c.start(node) + 'typeof'.length) : c.start(node);
  const made = c.at('TsImportType', start, node.end, {
    arg, qualifier: node.qualifier ? qualifier(c, node.qualifier) : null, type_args: typeArguments(c, node.typeArguments),
  });
  return node.isTypeOf ? c.node('TsTypeQuery', node, { expr_name: made }) : made;
}

/** @param {import('typescript').EntityName} name @returns {import('typescript').Identifier} */
function firstName(name) {
  return isIdentifier(name) ? name : firstName(name.left);
}

/** @param {Converter} c @param {import('typescript').EntityName} name @returns {Made} names of another module, which no scope here declares */
function qualifier(c, name) {
  if (isIdentifier(name)) return c.symbol(IDENT, name, textOf(name), MODULE_SCOPE);
  return c.node('TsQualifiedName', name, { left: qualifier(c, name.left), right: textOf(name.right) });
}

/** @param {Converter} c @param {import('typescript').TypeNode | import('typescript').NamedTupleMember} it */
function tupleElement(c, it) {
  if (!isNamedTupleMember(it)) return c.node('TsTupleElement', it, { ty: type(c, it) });
  const name = c.symbol(BINDING_IDENT, it.name, textOf(it.name), MODULE_SCOPE);
  const label = it.dotDotDotToken ? c.at('RestPat', c.start(it.dotDotDotToken), it.name.end, { arg: name }) : name;
  return c.node('TsTupleElement', it, { label, ty: type(c, it.type) });
}

/** @param {import('typescript').Node} node @param {Set<string>} names what `infer` names in it, nested conditions' `extends` apart */
function inferred(node, names) {
  if (isInferTypeNode(node)) names.add(textOf(node.typeParameter.name));
  if (isConditionalTypeNode(node)) for (const it of [node.checkType, node.trueType, node.falseType]) inferred(it, names);
  else forEachChild(node, (it) => inferred(it, names));
}

/** @param {Converter} c @param {import('typescript').ConditionalTypeNode} node */
function conditional(c, node) {
  const check = type(c, node.checkType);
  /** @type {Set<string>} */
  const names = new Set();
  inferred(node.extendsType, names);
  const [bound, yes] = c.within((scope) => names.forEach((it) => scope.types.add(it)), () => [type(c, node.extendsType), type(c, node.trueType)]);
  return c.type(node, [check, bound, yes, type(c, node.falseType)]);
}

/** @param {Converter} c @param {import('typescript').MappedTypeNode} node */
function mapped(c, node) {
  return c.within((scope) => scope.types.add(textOf(node.typeParameter.name)), () => c.type(node, [
    typeParameter(c, node.typeParameter), node.nameType && type(c, node.nameType), node.type && type(c, node.type)]));
}

/** @param {Converter} c @param {import('typescript').TypePredicateNode} node */
function predicate(c, node) {
  const { parameterName: name, type: of } = node;
  return c.type(node, [isIdentifier(name) && c.ident(name), of && c.at('TsTypeAnn', c.start(of), of.end, { ty: type(c, of) })]);
}

/** @param {Converter} c @param {import('typescript').Node} node any other type @returns {Made} with the types in it */
function plain(c, node) {
  if (node.kind <= K.LastToken) return c.type(node, NONE);
  /** @type {Made[]} */
  const parts = [];
  forEachChild(node, (it) => void (isTypeNode(it) && parts.push(type(c, it))));
  return c.type(node, parts);
}

/** @type {Record<number, (c: Converter, node: any) => Made>} */
const TYPES = {
  [K.TypeReference]: (c, node) => c.type(node, [entity(c, node.typeName), typeArguments(c, node.typeArguments)]),
  [K.ExpressionWithTypeArguments]: (c, node) => c.type(node, [expression(c, node.expression), typeArguments(c, node.typeArguments)]),
  [K.TypeQuery]: (c, node) => (isImportTypeNode(node.exprName) ? c.node('TsTypeQuery', node, { expr_name: importType(c, node.exprName) })
    : c.node('TsTypeQuery', node, { expr_name: c.typed(false, () => entity(c, node.exprName)), type_args: typeArguments(c, node.typeArguments) })),
  [K.ImportType]: importType,
  [K.UnionType]: (c, node) => c.type(node, node.types.map((/** @type {any} */ it) => type(c, it))),
  [K.IntersectionType]: (c, node) => c.type(node, node.types.map((/** @type {any} */ it) => type(c, it))),
  [K.ArrayType]: (c, node) => c.type(node, [type(c, node.elementType)]),
  [K.TypeLiteral]: (c, node) => c.type(node, node.members.map((/** @type {any} */ it) => element(c, it))),
  [K.FunctionType]: functionType,
  [K.ConstructorType]: functionType,
  [K.TupleType]: (c, node) => c.type(node, node.elements.map((/** @type {any} */ it) => tupleElement(c, it))),
  [K.NamedTupleMember]: (c, node) => type(c, node.type),
  [K.MappedType]: mapped,
  [K.ConditionalType]: conditional,
  [K.InferType]: (c, node) => c.type(node, [typeParameter(c, node.typeParameter)]),
  [K.TypePredicate]: predicate,
  [K.LiteralType]: (c, node) => c.type(node, NONE),
  [K.TemplateLiteralType]: (c, node) => c.type(node, node.templateSpans.map((/** @type {any} */ it) => type(c, it.type))),
};

/** @param {Converter} c @param {import('typescript').FunctionOrConstructorTypeNode} node */
function functionType(c, node) {
  hoistFunction(node, c.open());
  const made = c.type(node, [...parameters(c, node.parameters, true), typeParameters(c, node.typeParameters), annotation(c, node.type)]);
  c.close();
  return made;
}

/** @param {Converter} c @param {import('typescript').Node} node @returns {Made} */
export function type(c, node) {
  const before = c.inType;
  c.inType = true;
  const made = (TYPES[node.kind] ?? plain)(c, node);
  c.inType = before;
  return made;
}

/** @param {Converter} c @param {import('typescript').SetAccessorDeclaration} m */
function setter(c, m) {
  const name = elementKey(c, m.name);
  if (m.parameters.length > 0) return c.node('TsSetterSignature', m, { ...name, param: parameter(c, m.parameters[0], true) });
  return c.node('TsMethodSignature', m, name);
}

/** @param {Converter} c @param {import('typescript').SignatureDeclaration} m @returns {Record<string, import('./nodes.js').Given>} */
function signature(c, m) {
  return { type_params: typeParameters(c, m.typeParameters), params: parameters(c, m.parameters, true), type_ann: annotation(c, m.type) };
}

/** @param {Converter} c @param {import('typescript').MethodSignature} m */
function methodSignature(c, m) {
  const { key, computed } = elementKey(c, m.name);
  const { type_params, params, type_ann } = signature(c, m);
  return c.node('TsMethodSignature', m, { key, computed, type_params, params, type_ann });
}

/** @param {Converter} c @param {import('typescript').PropertySignature} m */
function propertySignature(c, m) {
  const { key, computed } = elementKey(c, m.name);
  return c.node('TsPropertySignature', m, { key, computed, type_ann: annotation(c, m.type) });
}

/** @type {Record<number, [string, (c: Converter, member: any) => Made]>} */
const ELEMENTS = {
  [K.CallSignature]: ['call', (c, m) => c.node('TsCallSignatureDecl', m, signature(c, m))],
  [K.ConstructSignature]: ['construct', (c, m) => c.node('TsConstructSignatureDecl', m, signature(c, m))],
  [K.PropertySignature]: ['property', propertySignature],
  [K.MethodSignature]: ['method', methodSignature],
  [K.GetAccessor]: ['getter', (c, m) => c.node('TsGetterSignature', m, { ...elementKey(c, m.name), type_ann: annotation(c, m.type) })],
  [K.SetAccessor]: ['setter', setter],
  [K.IndexSignature]: ['index', (c, m) => c.node('TsIndexSignature', m, {
    params: parameters(c, m.parameters, true), type_ann: annotation(c, m.type), is_static: hasModifier(m, K.StaticKeyword),
  })],
};

/** @param {Converter} c @param {import('typescript').TypeElement | import('typescript').IndexSignatureDeclaration} m @returns {Made} */
export function element(c, m) {
  const [kind, make] = ELEMENTS[m.kind];
  const before = c.inType;
  c.inType = true;
  // a property declares no names: the number of its scope alone is taken
  const scope = m.kind === K.PropertySignature ? c.withoutNames() : c.open();
  if (scope) hoistFunction(/** @type {any} */ (m), scope);
  const made = c.declares(kind, make(c, m), m.name);
  if (scope) c.close();
  c.inType = before;
  return made;
}
