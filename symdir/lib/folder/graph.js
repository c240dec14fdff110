// The text of a graph, as `docs/GRAPH.md` has it.
import { hashOf } from './kept.js';

/** @typedef {import('./sources.js').Sources} Sources */
/** @typedef {import('./sources.js').Module} Module */

/**
 * What a graph consists of.
 * @typedef {object} Parts
 * @property {{ it: Module, types: string | null }[]} modules in the order of their specifiers, with the module that has the types of each
 * @property {string[]} external the specifiers of those that aren't read
 * @property {string[]} rows the texts of the resolutions
 */

/** @param {Sources} sources @returns {Parts} */
export function partsOf(sources) {
  const modules = [...sources.modules.values()].sort((a, b) => (a.specifier < b.specifier ? -1 : 1));
  return {
    modules: modules.map((it) => ({ it, types: sources.typesOf(it) })),
    external: [...sources.external].sort(),
    rows: modules.flatMap((it) => [...(sources.resolutions.get(it.specifier) ?? [])].map(([text, to]) => JSON.stringify([it.specifier, text, to]))),
  };
}

/** @param {Parts} parts @returns {string} equal for graphs of one text, where trees are made in one way */
export function nameOf({ modules, external, rows }) {
  return hashOf(JSON.stringify([modules.map(({ it, types }) => [it.specifier, it.parsed.hash, types, ...it.parsed.namespaces]), external, rows]));
}

/** @param {Parts} parts @returns {Buffer[]} whose joined text is the graph's */
export function piecesOf({ modules, external, rows }) {
  const end = Buffer.from('}');
  const between = Buffer.from(',\n');
  /** @type {Buffer[]} */
  const pieces = [Buffer.from('{"modules":[\n')];
  for (const { it, types } of modules) {
    pieces.push(it.parsed.text, types ? Buffer.from(`,"types":${JSON.stringify(types)}}`) : end, between);
  }
  for (const specifier of external) pieces.push(Buffer.from(JSON.stringify({ specifier, kind: 'external' })), between);
  if (pieces.length > 1) pieces.pop();
  pieces.push(Buffer.from(`\n],"redirects":[],"resolutions":[\n${rows.join(',\n')}\n]}\n`));
  return pieces;
}
