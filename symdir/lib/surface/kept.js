// The public surface of a folder, as the run before may have kept it.

/** @typedef {import('../folder/folder.js').Folder} Folder */
/** @typedef {import('./surface.js').Item} Item */

/** @param {Folder} folder @param {boolean} isPlaced whether each item has its place @returns {Promise<Item[]>} without definitions */
export async function keptSurface(folder, isPlaced) {
  const kept = folder.kept(isPlaced);
  if (kept) return kept;
  const [{ surfaceOf }, { placed }] = await Promise.all([import('./surface.js'), import('../report/findings.js')]);
  const items = await surfaceOf(folder);
  const found = (isPlaced ? placed(folder, items) : items).map(({ definitions: _, top: __, ...it }) => it);
  folder.keep(found, isPlaced);
  return found;
}
