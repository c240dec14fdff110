// Files that several threads parse: each takes the next one that nobody took.

/** A file, the specifier of its module, and texts of `import a = require(..)` that stand for modules without `export =`. */
/** @typedef {{ file: string, specifier: string, namespaces?: string[] }} Job */

/**
 * @typedef {object} Queue
 * @property {Job[]} jobs
 * @property {Int32Array} taken how many of them are, in memory that the threads share
 */

/** @param {Job[]} jobs in the order in which they are taken @returns {Queue} */
export function queueOf(jobs) {
  return { jobs, taken: new Int32Array(new SharedArrayBuffer(Int32Array.BYTES_PER_ELEMENT)) };
}

/** @param {Queue} queue @returns {Job | undefined} none where all are taken */
export function take({ jobs, taken }) {
  return jobs[Atomics.add(taken, 0, 1)];
}
