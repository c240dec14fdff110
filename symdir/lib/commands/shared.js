// Names that come along `export *` from several modules, which `--strict` tells.

/** @typedef {import('../folder/folder.js').Folder} Folder */

/**
 * A shared name of a module, as `--json` tells it.
 * @typedef {object} SharedName
 * @property {string} module that is asked
 * @property {string} name
 * @property {{ file: string, through: { file: string, text: string }[] }[]} owners each module whose own text exports it, and by
 *   which `export *` it comes
 */

/** @param {Folder} folder @param {string[]} specifiers @returns {Promise<SharedName[]>} none without `--strict` */
export async function sharedNames(folder, specifiers) {
  const all = await folder.exports(specifiers);
  return all.flatMap(({ shared = [] }, i) => shared.map(({ name, owners }) => ({
    module: folder.short(specifiers[i]), name,
    owners: owners.map(({ module, chain }) => ({
      file: folder.short(module), through: chain.map(([file, text]) => ({ file: folder.short(file), text })) })),
  })));
}

/** @param {SharedName} it @returns {string} the files of the owners */
export function ownersText({ owners }) {
  return owners.map((it) => it.file).join(', ');
}

/** @param {SharedName} it @returns {string | null} the first statement `export *` at which an owner's way leaves that of the first; null where all go one way */
export function partingText({ owners }) {
  const [first, ...more] = owners.map((it) => it.through[0].text);
  return more.find((it) => it !== first) ?? null;
}
