// Packages of Debian as folders of sources: what they are made from, or their declarations, without what is built of them.
import { folderOf } from '../tests/helper.js';
import { takeInto } from './taken.js';

/** @typedef {import('./taken.js').Package} Package */

/** @type {Package[]} */
export const PACKAGES = [
  { name: 'node-lumino', place: '/usr/share/nodejs/@lumino', isTaken: (it) => /^(?!example-)[^/]+\/(package\.json|src\/.*\.ts)$/.test(it), paths: { '@lumino/*': ['./*/src/index.ts'] } },
  { name: 'node-yjs', place: '/usr/share/nodejs/yjs', isTaken: (it) => /^(package\.json|src\/.*\.js)$/.test(it) },
  { name: 'node-graphql', place: '/usr/share/nodejs/graphql', isTaken: (it) => /\.d\.ts$|^package\.json$/.test(it) },
];

/** @param {Package} of @returns {string} a folder of its own that has the files */
export function sourcesOf(of) {
  const folder = folderOf({});
  takeInto(of, folder);
  return folder;
}
