// Names, keys and literals.
import { K, ts } from './converter.js';
import { formOf, nameNumber } from './nodes.js';
import { MODULE_SCOPE, textOf } from './scopes.js';
import { wellFormed } from './offsets.js';
import { expression } from './expressions.js';

/** @typedef {import('./converter.js').Converter} Converter */
/** @typedef {import('./nodes.js').Made} Made */

const { isComputedPropertyName, isIdentifier, isNumericLiteral, isPrivateIdentifier } = ts;
const [STR, NUM, BIG_INT, PRIVATE_NAME, IDENT_NAME, IDENT] = ['Str', 'Num', 'BigInt', 'PrivateName', 'IdentName', 'Ident'].map(formOf);
const [VALUE, TEXT, NAME] = ['value', 'text', 'name'].map(nameNumber);

/** @param {Converter} c @param {import('typescript').StringLiteralLike} node */
export function string(c, node) {
  return c.text(STR, node, VALUE, wellFormed(node.text));
}

/** @param {Converter} c @param {import('typescript').NumericLiteral} node */
export function number(c, node) {
  return c.text(NUM, node, TEXT, node.text);
}

/** @param {Converter} c @param {import('typescript').BigIntLiteral} node */
export function bigint(c, node) {
  return c.text(BIG_INT, node, TEXT, node.text.replace(/n$/, ''));
}

/** @param {Converter} c @param {import('typescript').PrivateIdentifier} node */
export function privateName(c, node) {
  return c.text(PRIVATE_NAME, node, NAME, textOf(node).replace(/^#/, ''));
}

/** @param {Converter} c @param {import('typescript').Identifier} node */
export function plainName(c, node) {
  return c.text(IDENT_NAME, node, NAME, textOf(node));
}

/** @param {Converter} c @param {import('typescript').PropertyName} name of a class's member or in an object @returns {Made} */
export function key(c, name) {
  if (isIdentifier(name)) return plainName(c, name);
  if (isPrivateIdentifier(name)) return privateName(c, name);
  if (isNumericLiteral(name)) return number(c, name);
  if (isComputedPropertyName(name)) return c.node('Computed', name, { expr: c.typed(false, () => expression(c, name.expression)) });
  if (/** @type {number} */ (name.kind) === K.BigIntLiteral) return bigint(c, /** @type {any} */ (name));
  return string(c, name);
}

/** @param {Converter} c @param {import('typescript').PropertyName} name of an interface's member */
export function elementKey(c, name) {
  if (isIdentifier(name)) return { key: c.symbol(IDENT, name, textOf(name), MODULE_SCOPE), computed: false };
  if (isComputedPropertyName(name)) return { key: c.typed(false, () => expression(c, name.expression)), computed: true };
  if (isPrivateIdentifier(name)) return { key: c.other(name, []), computed: false };
  return { key: key(c, name), computed: false };
}

/** @param {Converter} c @param {import('typescript').EntityName} node @param {boolean} [inType] @returns {Made} a dotted name */
export function entity(c, node, inType) {
  if (isIdentifier(node)) return c.ident(node, inType);
  return c.node('TsQualifiedName', node, { left: entity(c, node.left, inType), right: textOf(node.right) });
}

/** @param {Converter} c @param {import('typescript').Node} name of an import or an export, which may be a string @returns {string} */
export function moduleName(c, name) {
  const marked = c.stringAt(name);
  if (marked !== undefined) return marked;
  return isIdentifier(name) ? textOf(name) : wellFormed(/** @type {import('typescript').StringLiteral} */ (name).text);
}
