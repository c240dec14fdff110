// Paths, as symq gives them: links with the entries after them in `next`, and ends. They may be as long as a graph is, so no walk of them recurses.

/** @typedef {any} Entry of a path, as symq gives it */

/**
 * Visits entries from left to right, each before those after it.
 * @template T
 * @param {Entry[]} entries of paths
 * @param {T} before what is passed with each of them
 * @param {(entry: Entry, before: T) => T} visit returns what is passed with the entries after this one
 */
export function visitPaths(entries, before, visit) {
  const waiting = [{ entries, before, at: 0 }];
  while (waiting.length > 0) {
    const last = waiting[waiting.length - 1];
    if (last.at === last.entries.length) {
      waiting.pop();
      continue;
    }
    const entry = last.entries[last.at++];
    const after = visit(entry, last.before);
    if ('next' in entry) waiting.push({ entries: entry.next, before: after, at: 0 });
  }
}

/** @param {Entry[]} entries of paths @returns {Entry[]} definitions, and ends that are none, from left to right */
export function endsOf(entries) {
  /** @type {Entry[]} */
  const found = [];
  visitPaths(entries, null, (it) => {
    if (!('next' in it)) found.push(it);
    return null;
  });
  return found;
}
