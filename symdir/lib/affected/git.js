// What Git knows of a directory: which files differ from those of a revision, and what these were.
import { spawnSync } from 'node:child_process';
import path from 'node:path';

import { Failure } from '../failure.js';
import { withSlashes } from '../folder/files.js';

/** The most that git prints. */
const BYTES = 1 << 30;

/** @param {string} folder @param {string[]} words @param {string} [input] @returns {Buffer} what git prints */
function git(folder, words, input) {
  const { status, stdout, stderr, error } = spawnSync('git', ['-C', folder, ...words], { maxBuffer: BYTES, input });
  if (error) throw new Failure(`can't start git: ${error.message}`);
  if (status !== 0) throw new Failure(`git ${words[0]}: ${`${stderr}`.trim().split('\n').pop()?.replace(/^fatal: /, '')}`);
  return stdout;
}

/** @param {Buffer} bytes names, each with a zero behind it @returns {string[]} */
function namesIn(bytes) {
  return bytes.toString().split('\0').filter((it) => it !== '');
}

/** @param {Buffer} bytes as `git cat-file --batch` prints them @param {number} count @returns {(Buffer | null)[]} the text of each file; null where there is none */
function textsIn(bytes, count) {
  let at = 0;
  return Array.from({ length: count }, () => {
    const end = bytes.indexOf(10, at);
    const size = / blob (\d+)$/.exec(bytes.toString('utf8', at, end));
    at = end + 1;
    if (!size) return null;
    const text = bytes.subarray(at, at + Number(size[1]));
    at += text.length + 1;
    return text;
  });
}

/**
 * @param {string} folder absolute
 * @param {string} revision
 * @returns {Map<string, Buffer | null>} by its absolute path the text that each file had then which differs now; null where it wasn't there
 */
export function filesBefore(folder, revision) {
  const top = git(folder, ['rev-parse', '--show-toplevel']).toString().replace(/\n$/, '');
  const prefix = git(folder, ['rev-parse', '--show-prefix']).toString().replace(/\n$/, '');
  if (revision === '' || revision.startsWith('-')) throw new Failure(`no such git revision: ${revision}`, 2);
  const known = spawnSync('git', ['-C', folder, 'rev-parse', '--verify', '--quiet', `${revision}^{commit}`]);
  if (known.status !== 0) throw new Failure(`no such git revision: ${revision}`, 2);
  const commit = `${known.stdout}`.trim();
  const names = [...namesIn(git(top, ['diff', '--name-only', '--no-renames', '-z', commit])), ...namesIn(git(top, ['ls-files', '--others', '--exclude-standard', '-z']))];
  // a line of the batch can't name these
  const all = [...new Set(names)].filter((it) => !it.includes('\n'));
  const texts = textsIn(git(top, ['cat-file', '--batch'], all.map((it) => `${commit}:${it}\n`).join('')), all.length);
  // the directory may be reached by a link, and git tells what that stands for
  const placed = all.map((it) => (it.startsWith(prefix) ? path.posix.join(folder, it.slice(prefix.length)) : withSlashes(path.join(top, it))));
  return new Map(placed.map((it, i) => [it, texts[i]]));
}
