// What namespaces export of what stands in them, as TypeScript's checker lists it.

/** @typedef {import('../uses/tree.js').Tree} Tree */
/** @typedef {import('../uses/tree.js').Node} Node */
/** @typedef {{ isAll: boolean, names: Set<string> }} Exposed whether a block exports all that it declares, and what its `export { .. }` name */

/** These in an ambient block leave it to `export` what it exports. */
const LISTING = new Set(['ExportNamed', 'ExportAll', 'TsExportAssignment', 'ExportDefaultExpr']);

/** @param {Node} node @returns {boolean} */
export function isNamespace({ kind }) {
  return kind === 'TsModuleDecl' || kind === 'TsNamespaceDecl';
}

/** @param {Tree} tree @param {number} i @returns {string | null} the name that it declares; null where it declares none */
function nameOf({ nodes }, i) {
  const { id, ident, name } = nodes[i];
  const at = id ?? ident ?? name;
  return typeof at === 'number' ? nodes[at].sym?.[0] ?? null : null;
}

/** @param {Tree} tree @param {number} i a namespace @returns {string} its name, with those of the namespaces around it before it */
export function pathOf(tree, i) {
  const names = [];
  for (let at = i; at >= 0; at = tree.above[at]) if (isNamespace(tree.nodes[at])) names.push(nameOf(tree, at));
  return names.reverse().join('.');
}

export class Namespaces {
  /** @param {Tree} tree */
  constructor(tree) {
    this.tree = tree;
    /** @type {Map<number, Exposed>} by block */
    this.blocks = new Map();
  }

  /** @param {number} block @returns {boolean} whether `declare` stands before a namespace around it, or it is in a declaration file */
  isAmbient(block) {
    const { tree } = this;
    for (let at = block; !tree.isDeclaration && at >= 0; at = tree.above[at]) if (tree.nodes[at].declare) return true;
    return tree.isDeclaration;
  }

  /** @param {number} block @returns {Exposed} */
  exposedBy(block) {
    let found = this.blocks.get(block);
    if (!found) {
      const { nodes } = this.tree;
      const items = /** @type {number[]} */ (nodes[block].body ?? []).map((it) => nodes[it]);
      const names = items.filter((it) => it.kind === 'ExportNamed' && it.src === undefined).flatMap((it) => /** @type {number[]} */ (it.specifiers ?? [])).flatMap((it) => {
        const { orig, exported } = nodes[it];
        const [name] = nodes[orig]?.sym ?? [];
        return name !== undefined && (exported ?? name) === name ? [name] : [];
      });
      this.blocks.set(block, (found = { isAll: this.isAmbient(block) && !items.some((it) => LISTING.has(it.kind)), names: new Set(names) }));
    }
    return found;
  }

  /** @param {number} i an item of a block @param {string | null} name that it declares @returns {boolean} whether the block exports it by this name */
  isExposed(i, name) {
    const { kind, is_export: isExport } = this.tree.nodes[i];
    if (kind === 'ExportDecl' || isExport) return true;
    const { isAll, names } = this.exposedBy(this.tree.above[i]);
    return (isAll && kind !== 'TsImportEqualsDecl') || (name !== null && names.has(name));
  }

  /** @param {number} i a declaration @param {Set<number>} owners the declarations of what it is a member of @returns {string[] | null} the names of the namespaces between, the outermost first; null where one of them doesn't export it */
  between(i, owners) {
    const { tree } = this;
    const names = [];
    let name = null;
    for (let at = i; at >= 0 && !owners.has(at); at = tree.above[at]) {
      name = nameOf(tree, at) ?? name;
      if (isNamespace(tree.nodes[at])) names.push(name ?? '');
      if (tree.field[at] === 'body' && tree.stand(at) === 'TsModuleBlock body' && !this.isExposed(at, name)) return null;
    }
    return names.reverse();
  }
}
