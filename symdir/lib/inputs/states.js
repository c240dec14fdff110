// What a graph has under each specifier, and where two graphs differ in that.

/** @typedef {import('../folder/sources.js').Sources} Sources */

/**
 * What stands under each specifier, as a text: the module, what has its types and what its imports resolve to; or that it is external.
 * @param {Sources} sources
 * @returns {Map<string, string>} equal texts where two graphs have the same under the specifier
 */
export function statesOf(sources) {
  const { modules, external, resolutions, reading: { ambient, bodies } } = sources;
  /** @type {Map<string, string>} */
  const found = new Map([...external].map((it) => [it, 'external']));
  for (const it of modules.values()) {
    const rows = [...resolutions.get(it.specifier) ?? []];
    found.set(it.specifier, JSON.stringify([it.parsed.hash, it.parsed.namespaces, ambient, bodies, sources.typesOf(it), rows]));
  }
  return found;
}

/** @param {Map<string, string>} before @param {Map<string, string>} now @returns {Set<string>} the specifiers under which the graphs differ, as one that only one of them has */
export function changedBetween(before, now) {
  const gone = [...before.keys()].filter((it) => !now.has(it));
  return new Set([...gone, ...[...now].flatMap(([it, state]) => (before.get(it) === state ? [] : [it]))]);
}
