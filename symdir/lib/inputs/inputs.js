// The specifiers that answers of symq rest on: a graph that has the same under each of them gives the same answer.
import { Failure } from '../failure.js';

/** @typedef {{ ask: (queries: unknown[][]) => Promise<any[]> }} Asking who is asked */
/** @typedef {{ found: 'module' | 'redirect' | 'absent', specifier: string, module?: string }} Input */

/** By what is asked, which question it rests on the inputs of. */
/** @type {Record<string, string>} */
const KINDS = {
  module: 'module', symbol: 'module', name: 'module', deps: 'module', exports: 'exports', names: 'exports',
  paths: 'paths', definitions: 'paths', leaves: 'paths', resolve: 'resolve',
};

/** @param {any[]} query @returns {string} the same for queries of the same inputs: those of one kind on one module, and of an import type, of one text */
export function keyOf([what, module, reference]) {
  const text = what === 'resolve' && reference[0] === 'import' ? [reference[1]] : [];
  return JSON.stringify([KINDS[what], module, ...text]);
}

/** @param {string} key @returns {string} the specifier of the module that is asked */
export function moduleOf(key) {
  return JSON.parse(key)[1];
}

/** @param {any} answer @returns {Input[] | null} null where a limit of symq was met, so that it isn't known */
function inputsOf(answer) {
  if (answer?.fault === 'bad query') throw new Failure('symq is older than symdir: it doesn\'t answer `inputs`');
  return answer?.inputs ?? null;
}

/**
 * @param {Asking} asking
 * @param {Map<string, unknown[]>} queries one by each key
 * @returns {Promise<Map<string, Input[] | null>>} the inputs by key
 */
export async function askInputs(asking, queries) {
  const answers = await asking.ask([...queries.values()].map((it) => ['inputs', it]));
  return new Map([...queries.keys()].map((it, i) => [it, inputsOf(answers[i])]));
}
