// `symdir graph --check FILE`: what keeps symq from reading a graph, in words.
import { spawnSync } from 'node:child_process';
import { readFileSync } from 'node:fs';

import { Failure, fileFailure } from '../failure.js';
import { formFaults, readJson } from '../check/form.js';
import { graphFaults } from '../check/faults.js';
import { counted } from '../output.js';
import { findSymq } from '../program.js';

/** @typedef {import('../cli.js').Run} Run */

/** How many faults are told. */
const SHOWN = 20;

/** @param {string} file @returns {Buffer} */
function bytesOf(file) {
  try {
    return readFileSync(file);
  } catch (error) {
    throw fileFailure(file, 'read', error);
  }
}

/** @param {Buffer} bytes @returns {string[]} each fault in words */
export function wordsOf(bytes) {
  const { value, words } = readJson(bytes);
  if (words.length > 0) return words;
  const faults = formFaults(value);
  return faults.length > 0 ? faults : graphFaults(value);
}

/** @param {Run} run @returns {string | null} what symq says of the file; null where it isn't there */
function verdict({ options }) {
  let program;
  try {
    program = findSymq(options.symq);
  } catch (error) {
    if (options.symq) throw error;
    return null;
  }
  const { status, stderr, error } = spawnSync(program, [options.check], { input: '', encoding: 'utf8' });
  if (error) throw new Failure(`can't start ${program}: ${error.message}`);
  if (status !== 0 && status !== 4 && status !== 5) throw new Failure(stderr.trim() || `symq exited with status ${status}`);
  return stderr.trim();
}

/** @param {Run} run @returns {Promise<number>} the status */
export async function checkGraph(run) {
  const { options, print, words: [folder] } = run;
  if (folder !== undefined) throw new Failure(`--check takes a graph and no directory, not ${folder}`, 2);
  const bytes = bytesOf(options.check);
  const words = wordsOf(bytes);
  const said = verdict(run);
  if (said) print(said);
  words.slice(0, SHOWN).forEach((it) => print(`${options.check}${/^\d+:\d+: /.test(it) ? ':' : ': '}${it}`));
  if (words.length > SHOWN) print(`and ${counted(words.length - SHOWN, 'more error')}`);
  if (said === null && words.length === 0) print(`${options.check}: no error found; symq, which decides, wasn't found: \`make symq\` builds it, --symq FILE names it`);
  else if (!said && words.length === 0) print(`${options.check}: accepted by symq`);
  return said || words.length > 0 ? 1 : 0;
}
