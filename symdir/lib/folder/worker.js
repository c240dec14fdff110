// A thread that parses: a queue of files in, what is known of the module of each that it takes out, and `null` when none is left.
// `null` in place of a queue has it keep what it made of TypeScript.
import { parentPort, workerData } from 'node:worker_threads';

import { reasonOf } from '../failure.js';
import { storeCompiled } from '../tree/typescript.js';
import { parseFile, tooDeep } from './parse.js';
import { take } from './queue.js';

/** @typedef {import('./queue.js').Job} Job */

const port = /** @type {import('node:worker_threads').MessagePort} */ (parentPort);

/** @param {Job} job @returns {import('./kept.js').Parsed} */
function parsed(job) {
  try {
    return parseFile(job, workerData);
  } catch (error) {
    if (error instanceof RangeError) return tooDeep(job);
    throw error;
  }
}

/** @param {Job} job */
function answer(job) {
  const { file } = job;
  try {
    const made = parsed(job);
    const { buffer } = made.text;
    // a small text stands in memory that Node shares with others, and is copied; that of a huge one threads share
    port.postMessage({ file, made }, buffer instanceof ArrayBuffer && buffer.byteLength === made.text.byteLength ? [buffer] : []);
  } catch (error) {
    port.postMessage({ file, error: reasonOf(error) });
  }
}

port.on('message', (/** @type {import('./queue.js').Queue | null} */ queue) => {
  if (queue) for (let job = take(queue); job; job = take(queue)) answer(job);
  else storeCompiled();
  port.postMessage(null);
});
