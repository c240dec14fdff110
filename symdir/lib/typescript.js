// Where TypeScript is: the newest of what the folder's own packages have, what stands beside this package, and what the
// command `tsc` on the PATH belongs to (as Debian's node-typescript).
import { existsSync, readFileSync, realpathSync } from 'node:fs';
import { createRequire } from 'node:module';
import path from 'node:path';
import { fileURLToPath } from 'node:url';

import { Failure } from './failure.js';

/**
 * @typedef {object} Found
 * @property {string} file the module to load
 * @property {string} version as `4.8.4`
 */

/** @param {string} file a package.json @returns {Found | null} */
function found(file) {
  try {
    const { name, version, main } = JSON.parse(readFileSync(file, 'utf8'));
    const whole = path.join(path.dirname(file), main ?? './lib/typescript.js');
    return name === 'typescript' && existsSync(whole) ? { file: whole, version } : null;
  } catch {
    return null;
  }
}

/** @param {string} folder @returns {string | null} the package.json of what modules in the folder import as `typescript` */
function importedFrom(folder) {
  try {
    return createRequire(path.join(folder, 'x.js')).resolve('typescript/package.json');
  } catch {
    return null;
  }
}

/** @returns {string[]} the package.json above each command `tsc` */
function commands() {
  const files = [];
  for (const folder of (process.env.PATH ?? '').split(path.delimiter)) {
    const file = path.join(folder, 'tsc');
    if (folder && existsSync(file)) files.push(path.join(path.dirname(realpathSync(file)), '..', 'package.json'));
  }
  return files;
}

/** @param {string} version @returns {number} a number that grows with the version, or -1 where it is none of 4.8 to 6 */
function rank(version) {
  const [major, minor] = version.split('.').map((it) => parseInt(it, 10));
  return major > 6 || major < 4 || (major === 4 && minor < 8) ? -1 : major * 1000 + minor;
}

/**
 * @param {string} folder the folder of sources
 * @returns {Found}
 */
export function findTypeScript(folder) {
  const own = path.dirname(fileURLToPath(import.meta.url));
  const files = [importedFrom(folder), importedFrom(own), ...commands()];
  const there = files.flatMap((it) => (it === null ? null : found(it)) ?? []);
  const all = there.filter((it) => rank(it.version) >= 0);
  if (all.length === 0) {
    const what = there.length > 0 ? `TypeScript ${there[0].version} (${there[0].file}) isn't supported` : 'TypeScript not found';
    throw new Failure(`${what}: \`npm install typescript@5\` in ${folder}, or on Debian \`apt-get install node-typescript\` (4.8 to 6)`);
  }
  return all.reduce((a, b) => (rank(b.version) > rank(a.version) ? b : a));
}
