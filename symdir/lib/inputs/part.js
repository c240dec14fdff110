// A part of a graph: some modules with all that their imports and types lead to, so that nothing in it leads out of it.
import { partsOf } from '../folder/graph.js';

/** @typedef {import('../folder/sources.js').Sources} Sources */

/** @param {Sources} sources @param {Iterable<string>} specifiers @returns {Set<string>} those of them that the graph has, and what they lead to */
export function reachedFrom(sources, specifiers) {
  const { modules, external, resolutions } = sources;
  const met = new Set([...specifiers].filter((it) => modules.has(it) || external.has(it)));
  for (const at of met) {
    const module = modules.get(at);
    const types = module ? sources.typesOf(module) : null;
    if (types !== null) met.add(types);
    for (const to of resolutions.get(at)?.values() ?? []) met.add(to);
  }
  return met;
}

/** @param {Sources} sources @param {Set<string>} specifiers @returns {import('../folder/graph.js').Parts} what the graph of these alone consists of */
export function partOf(sources, specifiers) {
  const within = /** @type {Sources} */ (/** @type {unknown} */ ({
    modules: new Map([...sources.modules].filter(([it]) => specifiers.has(it))),
    external: new Set([...sources.external].filter((it) => specifiers.has(it))),
    resolutions: sources.resolutions,
    typesOf: (/** @type {{ file: string }} */ it) => sources.typesOf(it),
  }));
  return partsOf(within);
}
