// Members of values, as `a.b` of a const: they are those of its type, so one that symq doesn't find isn't told as lacking.
import { isDefinition } from './folder.js';
import { visitPaths } from './paths.js';

/** @typedef {import('./folder.js').Folder} Folder */
/** @typedef {any} Entry of a path, as symq gives it */

/** @param {Entry[]} entries of paths @returns {{ end: Entry, holder: Entry }[]} the ends that lack a member of what the link before declares */
function lacking(entries) {
  /** @type {{ end: Entry, holder: Entry }[]} */
  const found = [];
  visitPaths(entries, /** @type {Entry} */ (null), (it, holder) => {
    const isLack = holder && !('next' in it) && !isDefinition(it) && it.kind === 'part' && !it.why;
    if (isLack && holder.module === it.module && holder.symbol !== undefined) found.push({ end: it, holder });
    return it;
  });
  return found;
}

/** @param {Folder} folder @param {Entry[][]} lists of paths, whose ends are given why a member may be there: only a namespace tells all of its own */
export async function openMembers(folder, lists) {
  const found = lacking(lists.flat());
  const leaves = await folder.leaves(found.map(({ holder }) => [holder.module, holder.symbol]));
  found.forEach(({ end }, i) => {
    const kind = leaves[i].filter(isDefinition).map((it) => folder.kindOf(it)).find((it) => it !== 'namespace' && it !== 'module');
    if (kind) end.why = `declares ${/^[aei]/.test(kind) ? 'an' : 'a'} ${kind}, whose members aren't all known`;
  });
}
