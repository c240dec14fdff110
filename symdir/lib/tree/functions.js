// Functions and classes.
import { K, decoratorsOf, hasModifier, modifiersOf, ts } from './converter.js';
import { hoistBody, hoistFunction, hoistTypeParameters, textOf } from './scopes.js';
import { key } from './names.js';
import { parameter, parameters } from './patterns.js';
import { annotationOf, element, heritage, typeArguments, typeParametersOf } from './types.js';
import { expression } from './expressions.js';
import { statements } from './statements.js';
import { referencesIn } from './references.js';

/** @typedef {import('./converter.js').Converter} Converter */
/** @typedef {import('./nodes.js').Made} Made */

const { isBlock, isClassExpression, isDecorator, isGetAccessor, isIdentifier, isPrivateIdentifier, isSetAccessor } = ts;

/** @param {Converter} c @param {import('typescript').Block} node of a function, whose scope is open */
export function body(c, node) {
  if (c.options.bodies) return c.inBody(() => c.other(node, statements(c, node.statements)));
  referencesIn(c, node);
  return c.other(node, []);
}

/**
 * @param {Converter} c
 * @param {import('typescript').FunctionLikeDeclaration} node
 * @param {number} start @param {number} end
 */
export function functionNode(c, node, start, end) {
  hoistFunction(node, c.open());
  const made = c.at('Function', start, end, {
    type_params: typeParametersOf(c, node.typeParameters),
    params: parameters(c, node.parameters),
    return_type: annotationOf(c, node.type),
    body: node.body ? body(c, /** @type {import('typescript').Block} */ (node.body)) : null,
  });
  c.close();
  return made;
}

/** @param {Converter} c @param {import('typescript').FunctionExpression} node */
export function functionExpression(c, node) {
  const make = () => c.node('FnExpr', node, {
    ident: node.name ? c.ident(node.name) : null,
    function: functionNode(c, node, c.start(node), node.end),
  });
  const { name } = node;
  return c.typed(false, () => (name ? c.within((scope) => scope.values.add(textOf(name)), make) : make()));
}

/** @param {Converter} c @param {import('typescript').ArrowFunction} node */
export function arrow(c, node) {
  const block = isBlock(node.body);
  return c.typed(false, () => c.within((scope) => hoistFunction(node, scope), () => c.node('Arrow', node, {
    type_params: typeParametersOf(c, node.typeParameters),
    params: parameters(c, node.parameters),
    return_type: annotationOf(c, node.type),
    is_block: block,
    body: isBlock(node.body) ? body(c, node.body) : expression(c, node.body),
  })));
}

/** @param {import('typescript').Node} member @returns {'public' | 'protected' | 'private' | null} */
function accessibility(member) {
  if (modifiersOf(member).length === 0) return null;
  if (hasModifier(member, K.PublicKeyword)) return 'public';
  if (hasModifier(member, K.ProtectedKeyword)) return 'protected';
  return hasModifier(member, K.PrivateKeyword) ? 'private' : null;
}

/** @param {Converter} c @param {import('typescript').Decorator} it */
function decorator(c, it) {
  return c.other(it, [expression(c, it.expression)]);
}

/** @param {Converter} c @param {import('typescript').ClassLikeDeclaration} node the superclass, its arguments, what is implemented */
function heritageOf(c, node) {
  const found = { super_class: /** @type {Made | null} */ (null), super_type_params: /** @type {Made | null} */ (null),
    implements: /** @type {Made[]} */ ([]) };
  for (const clause of node.heritageClauses ?? []) {
    for (const it of clause.types) {
      if (clause.token === K.ExtendsKeyword && !found.super_class) {
        found.super_class = c.typed(false, () => expression(c, it.expression));
        found.super_type_params = c.typed(true, () => typeArguments(c, it.typeArguments));
      } else found.implements.push(c.typed(true, () => heritage(c, it)));
    }
  }
  return found;
}

/** @param {Converter} c @param {import('typescript').ClassElement} member @param {Made[]} parts are given the decorators of it and of its parameters, and it */
function memberWithDecorators(c, member, parts) {
  for (const it of decoratorsOf(member)) parts.push(decorator(c, it));
  const { parameters: list } = /** @type {{ parameters?: readonly import('typescript').Node[] }} */ (/** @type {unknown} */ (member));
  if (list) for (const parameter of list) for (const it of decoratorsOf(parameter)) parts.push(decorator(c, it));
  parts.push(classMember(c, member));
}

/**
 * @param {Converter} c
 * @param {import('typescript').ClassLikeDeclaration} node
 * @param {number} start @param {number} end of what stands after the name
 * @returns {{ ident: Made | null, class: Made }}
 */
export function classParts(c, node, start, end) {
  const parts = decoratorsOf(node).map((it) => decorator(c, it));
  const scope = c.open();
  hoistTypeParameters(node, scope);
  if (isClassExpression(node) && node.name) scope.add(textOf(node.name));
  const ident = node.name ? c.ident(node.name, false) : null;
  const type_params = typeParametersOf(c, node.typeParameters);
  const { super_class, super_type_params, implements: all } = heritageOf(c, node);
  for (const it of node.members) memberWithDecorators(c, it, parts);
  c.close();
  return { ident, class: c.at('Class', start, end, { type_params, super_class, super_type_params, implements: all, body: parts }) };
}

/** @param {Converter} c @param {import('typescript').ConstructorDeclaration} m */
function constructorNode(c, m) {
  hoistFunction(m, c.open());
  const made = c.node('Constructor', m, {
    params: m.parameters.map((it) => constructorParameter(c, it)),
    body: m.body ? body(c, m.body) : null,
    accessibility: accessibility(m),
  });
  c.close();
  return c.declares('constructor', made, undefined, hasModifier(m, K.PrivateKeyword));
}

/** @param {import('typescript').ParameterDeclaration} it @returns {boolean} whether it is a property too */
function isProperty(it) {
  return modifiersOf(it).some((word) => !isDecorator(word));
}

/** @param {Converter} c @param {import('typescript').ParameterDeclaration} it */
function constructorParameter(c, it) {
  if (!isProperty(it) || !isIdentifier(it.name) || it.dotDotDotToken) return parameter(c, it);
  const access = accessibility(it);
  return c.declares('parameter', c.node('TsParamProp', it, { param: parameter(c, it), accessibility: access }), it.name, access === 'private');
}

/** @param {Converter} c @param {import('typescript').MethodDeclaration | import('typescript').AccessorDeclaration} m */
function method(c, m) {
  const name = key(c, m.name);
  const made = functionNode(c, m, c.start(m), m.end);
  if (isPrivateIdentifier(m.name)) return c.other(m, [name, made]);
  const kind = isGetAccessor(m) ? 'getter' : isSetAccessor(m) ? 'setter' : 'method';
  const access = accessibility(m);
  return c.declares(kind, c.node('ClassMethod', m, {
    key: name, function: made, method_kind: kind, is_static: hasModifier(m, K.StaticKeyword), accessibility: access,
  }), m.name, access === 'private');
}

/** Of TypeScript 4.9 and newer ones; no modifier has the kind -1. */
const ACCESSOR_KEYWORD = /** @type {Record<string, any>} */ (K).AccessorKeyword ?? -1;

/** @param {Converter} c @param {import('typescript').PropertyDeclaration} m */
function propertyNode(c, m) {
  const marked = c.marks !== null && modifiersOf(m).some((it) => c.marks?.accessor.has(c.start(it)));
  const isAccessor = marked || hasModifier(m, ACCESSOR_KEYWORD);
  const name = key(c, m.name);
  const type_ann = annotationOf(c, m.type);
  const value = m.initializer ? expression(c, m.initializer) : null;
  const isHidden = isPrivateIdentifier(m.name);
  if (isHidden && !isAccessor) return c.other(m, [name, type_ann, value]);
  const access = accessibility(m);
  const fields = { key: name, type_ann, value, is_static: hasModifier(m, K.StaticKeyword), accessibility: access };
  return c.declares(isAccessor ? 'accessor' : 'property', c.node(isAccessor ? 'AutoAccessor' : 'ClassProp', m, fields), m.name,
    access === 'private' || isHidden);
}

/** @type {Record<number, (c: Converter, member: any) => Made>} */
const MEMBERS = {
  [K.Constructor]: constructorNode,
  [K.MethodDeclaration]: method,
  [K.GetAccessor]: method,
  [K.SetAccessor]: method,
  [K.PropertyDeclaration]: propertyNode,
  [K.IndexSignature]: element,
  [K.ClassStaticBlockDeclaration]: (c, member) => staticBlock(c, member),
};

/** @param {Converter} c @param {import('typescript').ClassStaticBlockDeclaration} member */
function staticBlock(c, member) {
  const list = member.body.statements;
  if (c.options.bodies) return c.inBody(() => c.within((scope) => hoistBody(list, scope), () => c.other(member, statements(c, list))));
  referencesIn(c, member);
  return c.other(member, []);
}

/** @param {Converter} c @param {import('typescript').ClassElement} member */
function classMember(c, member) {
  const make = MEMBERS[member.kind];
  const before = c.inType;
  c.inType = false;
  const made = make ? make(c, member) : c.other(member, []);
  c.inType = before;
  return made;
}
