// A file and its specifier in, what is known of its module out.
import { readFileSync } from 'node:fs';

import { languageOf } from '../language.js';
import { convert, withoutTree } from '../tree/convert.js';
import { hashOf } from './kept.js';
import { decoded } from './text.js';

/** @typedef {import('./kept.js').Parsed} Parsed */
/** @typedef {import('./queue.js').Job} Job */
/** @typedef {import('../tree/convert.js').Converted} Converted */
/** @typedef {{ bodies: boolean, ambient: boolean }} How */

/** @param {Job} job @param {(text: string) => Converted} converted @returns {Parsed} */
function read({ file, specifier, namespaces = [] }, converted) {
  const bytes = readFileSync(file);
  const { text, tree, between, ...rest } = converted(decoded(bytes));
  const kind = file.endsWith('.json') ? 'json' : 'esm';
  const before = [`{"specifier":${JSON.stringify(specifier)},"kind":"${kind}","text":`, JSON.stringify(text)];
  if (tree !== null) before.push(`,"tree":{${languageOf(file).declaration ? '"declaration":true,' : ''}"nodes":`);
  const whole = between(before, tree === null ? '' : '}');
  return { hash: hashOf(bytes), text: whole, namespaces, ...rest };
}

/**
 * @param {Job} job
 * @param {How} how
 * @returns {Parsed}
 * @throws {RangeError} where the file is nested deeper than the stack of this thread allows; and what `readFileSync` throws
 */
export function parseFile(job, how) {
  const { file, namespaces } = job;
  return read(job, (text) => (file.endsWith('.json') ? withoutTree(text, null) : convert(file, text, { ...languageOf(file), ...how, namespaces })));
}

/** @param {Job} job of a file for which no stack is deep enough @returns {Parsed} */
export function tooDeep(job) {
  return read(job, (text) => withoutTree(text, { line: 1, column: 1, text: 'it is nested too deep for the parser' }));
}
