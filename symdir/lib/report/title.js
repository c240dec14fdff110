// What a page is titled.
import path from 'node:path';

/** @param {import('../folder/folder.js').Folder} folder @returns {string} the package's name and version, or the directory's name */
export function titleOf({ sources }) {
  const own = sources.configs.value(path.posix.join(sources.folder, 'package.json'));
  const name = typeof own?.name === 'string' ? own.name : path.posix.basename(sources.folder);
  return typeof own?.version === 'string' ? `${name} ${own.version}` : name;
}
