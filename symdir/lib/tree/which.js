// Which TypeScript this thread loads: to be said before `typescript.js` is imported, which loads it. One that is started to parse
// is told so with its start.
import { workerData } from 'node:worker_threads';

/**
 * @typedef {object} Which
 * @property {string} typescript its file
 * @property {string} [kept] where what is made of it is kept, without an ending
 * @property {boolean} [isGuest] whether the process is another program's, for which V8 is left as it is
 */

/** @typedef {{ it: Which, when: Promise<unknown> }} Use when it may be loaded */

/** @type {Use | null} */
let use = workerData?.typescript ? { it: workerData, when: Promise.resolve() } : null;

/** @param {Which} it @param {Promise<unknown>} [when] it may be loaded */
export function useTypeScript(it, when = Promise.resolve()) {
  use = { it, when };
}

/** @returns {Use | null} */
export function usedTypeScript() {
  return use;
}
