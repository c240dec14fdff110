// What a TypeScript makes of a text.

/** @param {typeof import('typescript')} from @param {string} name @param {string} text @returns {{ nodes: string, said: string[] }} what it makes of the text */
export function parsedBy(from, name, text) {
  const file = from.createSourceFile(name, text, from.ScriptTarget.Latest, false);
  /** @type {number[]} */
  const nodes = [];
  const walk = (/** @type {import('typescript').Node} */ node) => {
    nodes.push(node.kind, node.pos, node.end);
    from.forEachChild(node, walk);
  };
  walk(file);
  const said = /** @type {any} */ (file).parseDiagnostics.map((/** @type {any} */ it) => `${it.start} ${it.length} ${it.code} ${it.messageText}`);
  return { nodes: nodes.join(' '), said };
}
