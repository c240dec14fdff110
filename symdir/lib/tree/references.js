// What refers to other modules in a part of the text that becomes no nodes.
import { K, ts } from './converter.js';

/** @typedef {import('./converter.js').Converter} Converter */

/** @param {import('typescript').Node} node @returns {import('typescript').StringLiteralLike | null} */
function importedText(node) {
  if (ts.isImportTypeNode(node) && ts.isLiteralTypeNode(node.argument) && ts.isStringLiteral(node.argument.literal)) {
    return node.argument.literal;
  }
  if (ts.isCallExpression(node) && node.expression.kind === K.ImportKeyword && node.arguments[0]) {
    return ts.isStringLiteralLike(node.arguments[0]) ? node.arguments[0] : null;
  }
  return null;
}

/** @param {Converter} c @param {import('typescript').Node} part notes the import types and the calls of `import` in it */
export function referencesIn(c, part) {
  if (c.nextImport(part.pos) >= part.end) return;
  /** @param {import('typescript').Node} node */
  const visit = (node) => {
    const text = importedText(node);
    if (text) c.refers(ts.isImportTypeNode(node) ? 'import type' : 'import()', text, node);
    ts.forEachChild(node, visit);
  };
  visit(part);
}
