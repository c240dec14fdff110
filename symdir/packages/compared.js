// The packages of Debian that compare.js compares.

/** @typedef {import('./taken.js').Package & { rollup?: string }} Compared with the module that Rollup begins at */

export const ROLLUP = '/usr/share/nodejs/rollup/dist/rollup.js';

const declarations = (/** @type {string} */ it) => /\.d\.ts$|^package\.json$/.test(it);
const sourceScripts = (/** @type {string} */ it) => /^(package\.json|src\/.*\.js)$/.test(it);

/** @type {Compared[]} */
export const COMPARED = [
  { name: 'node-lumino', place: '/usr/share/nodejs/@lumino', isTaken: (it) => /^(?!example-)[^/]+\/(package\.json|src\/.*\.ts)$/.test(it), paths: { '@lumino/*': ['./*/src/index.ts'] } },
  { name: 'node-graphql', place: '/usr/share/nodejs/graphql', isTaken: declarations },
  { name: 'node-undici', place: '/usr/share/nodejs/undici-types', isTaken: declarations },
  { name: 'node-ajv', place: '/usr/share/nodejs/ajv', isTaken: declarations },
  { name: 'node-globby', place: '/usr/share/nodejs/fast-glob', isTaken: declarations },
  { name: 'node-yjs', place: '/usr/share/nodejs/yjs', isTaken: sourceScripts, rollup: 'src/index.js' },
  { name: 'node-lib0', place: '/usr/share/nodejs/lib0', isTaken: (it) => /^(prng\/)?[^/]+\.js$|^package\.json$/.test(it), rollup: 'index.js' },
  { name: 'node-d3-interpolate', place: '/usr/share/nodejs/d3-interpolate', isTaken: sourceScripts, rollup: 'src/index.js' },
  { name: 'node-d3-transition', place: '/usr/share/nodejs/d3-transition', isTaken: sourceScripts, rollup: 'src/index.js' },
  { name: 'node-d3-shape', place: '/usr/share/nodejs/d3-shape', isTaken: sourceScripts, rollup: 'src/index.js' },
];
