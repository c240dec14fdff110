// What stands at the end of a name's path where it is no definition, and whether that is a fault.
import { isDefinition } from './folder.js';
import { shortOf } from './specifier.js';

/** @typedef {import('./folder.js').Folder} Folder */
/** @typedef {import('./folder.js').Unresolved} Unresolved */

/**
 * @typedef {object} End
 * @property {'external' | 'import' | 'name' | 'unknown' | 'global'} what an external module, an unresolved import, a name
 *   that isn't there, one that may be there, one that nothing declares
 * @property {string} file where the path ends
 * @property {string} name the specifier, the text or the name
 * @property {string} [why] it isn't known whether the name is there, said of the file
 */

/**
 * @param {Folder} folder
 * @param {import('./folder.js').Definition | Unresolved} leaf
 * @returns {End | null} null for a definition
 */
export function endOf(folder, leaf) {
  if (isDefinition(leaf)) return null;
  const { kind, module, name, why } = leaf;
  const file = folder.short(module);
  const { external, resolutions } = folder.sources;
  if (kind === 'specifier') {
    const to = resolutions.get(module)?.get(name) ?? (external.has(name) ? name : undefined);
    return to !== undefined ? { what: 'external', file, name: to } : { what: 'import', file, name };
  }
  if (external.has(module)) return { what: 'external', file, name: module };
  if (why) return { what: 'unknown', file, name, why };
  return { what: kind === 'id' ? 'global' : 'name', file, name };
}

/** @param {End} end @returns {boolean} whether it is a finding: a name or a file that isn't there */
export function isUnresolved({ what }) {
  return what === 'import' || what === 'name';
}

/** @param {End} end @returns {string} */
export function endText({ what, file, name, why }) {
  if (what === 'external') return `in ${shortOf(name)}, an external module`;
  if (what === 'import') return `unresolved: ${file} imports "${name}", which resolves to no file`;
  if (what === 'unknown') return `not known: ${file} ${why}`;
  return what === 'name' ? `unresolved: ${file} has no export ${name}` : 'a global';
}
