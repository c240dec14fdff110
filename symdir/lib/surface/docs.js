// Doc comments of declarations, found as TypeScript does: the last `/** .. */` before one, on a line after what precedes it.

/** @typedef {import('./signature.js').Signatures} Signatures */
/** @typedef {import('../folder/folder.js').Definition} Definition */

const STRING = '"(?:[^"\\\\\\n]|\\\\.)*"|\'(?:[^\'\\\\\\n]|\\\\.)*\'|`(?:[^`\\\\]|\\\\[^])*`';
const PIECES = new RegExp(`(/\\*[^]*?\\*/)|(\\n)|//.*|#!.*|[^\\S\\n]+|((?:${STRING})|[^])`, 'g');

/** @param {string} text that ends where a declaration starts @param {boolean} isFirst whether nothing precedes it @param {boolean} isListed whether a comment on the line of what precedes it belongs to it @returns {string | null} */
function lastComment(text, isFirst, isListed) {
  if (!text.includes('/**')) return null;
  let [found, counts] = [/** @type {string | null} */ (null), isFirst || isListed];
  for (const [, comment, newline, code] of text.matchAll(PIECES)) {
    if (newline) counts = true;
    else if (code) [found, counts] = [null, isListed];
    else if (comment && counts && /^\/\*\*(?!\/)/.test(comment)) found = comment;
  }
  return found;
}

/** @param {string} comment @returns {string} its text, without the stars before lines */
export function textOf(comment) {
  const lines = comment.slice(3, -2).split(/\r?\n/).map((it, i) => (i > 0 ? it.replace(/^\s*(\* ?)?/, '') : it).trimEnd());
  return lines.join('\n').trim();
}

/** A declaration in one of these has the comment before all of it. */
const AROUND = new Set(['ExportDecl decl', 'ExportDefaultDecl decl']);
const VARIABLES = new Set(['VarDecl decls', 'UsingDecl decls']);
/** A comment on the line of what precedes one of these belongs to it. */
const LISTED = new Set([...VARIABLES, 'Constructor params']);

/** @param {import('../uses/tree.js').Tree} tree @param {number} i a declaration @returns {number} what its comment precedes */
function outermost(tree, i) {
  let at = i;
  for (;;) {
    // most stand in another field
    if (tree.field[at] !== 'decl' && tree.field[at] !== 'decls') return at;
    const isFirst = VARIABLES.has(tree.stand(at)) && tree.nodes[tree.above[at]].decls[0] === at;
    if (!isFirst && !AROUND.has(tree.stand(at))) return at;
    at = tree.above[at];
  }
}

export class Docs {
  /** @param {(module: string) => Signatures} signatures */
  constructor(signatures) {
    this.signatures = signatures;
    /** @type {Map<string, Uint8Array>} by module 1 at the end of each node */
    this.ends = new Map();
  }

  /** @param {string} module @param {number} start @returns {number} the end of the last node before it; 0 if there is none */
  endBefore(module, start) {
    let ends = this.ends.get(module);
    if (!ends) {
      const { bytes, tree: { nodes } } = this.signatures(module);
      this.ends.set(module, (ends = new Uint8Array(bytes.length + 1)));
      for (const { range } of nodes) ends[range[1]] = 1;
    }
    return Math.max(0, ends.lastIndexOf(1, start));
  }

  /** @param {Definition} it @returns {string} empty if it has none */
  of({ module, start, end }) {
    const all = this.signatures(module);
    const found = all.declarationAt(start, end);
    if (found === null) return '';
    const at = outermost(all.tree, found);
    const from = all.tree.nodes[at].range[0];
    const before = this.endBefore(module, from);
    const isListed = LISTED.has(all.tree.stand(at));
    const comment = lastComment(all.slice(before, from), before === 0, isListed);
    return comment === null ? '' : textOf(comment);
  }

  /** @param {Definition[]} definitions @returns {string} what is written of each, with an empty line between */
  ofAll(definitions) {
    return [...new Set(definitions.map((it) => this.of(it)).filter((it) => it !== ''))].join('\n\n');
  }
}

/** @param {string} text @param {(name: string) => string} [nameOf] what stands for a link without a label @returns {string} without `{@link ..}` */
export function unlinked(text, nameOf = (it) => it) {
  return text.replace(/\{@link(?:code|plain)?\s+([^}|\s]+)\s*\|?\s*([^}]*)\}/g, (_, to, label) => label.trim() || nameOf(to));
}

/** @param {string} doc @returns {string} its first sentence, or line, as far as no tag begins */
export function firstSentence(doc) {
  const [text] = doc.split(/\n\s*\n|^\s*@\w|\n\s*(?:@\w|[-*#] |```)/m);
  const line = unlinked(text).replace(/\s+/g, ' ').trim();
  return /^(?:`[^`]*`|[^`])*?[.!?](?=\s+["'`([]*[A-Z0-9`]|$)/.exec(line)?.[0] ?? line;
}
