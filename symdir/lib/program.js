// Where the program symq is, proved or not.
import { spawn } from 'node:child_process';
import { existsSync } from 'node:fs';
import path from 'node:path';
import { fileURLToPath } from 'node:url';

import { Failure } from './failure.js';

/** @returns {string} the repository that this package stands in, if it does */
function repository() {
  return path.join(path.dirname(fileURLToPath(import.meta.url)), '..', '..');
}

/** @param {string} name @returns {string | null} the command on the PATH */
export function onPath(name) {
  const folders = (process.env.PATH ?? '').split(path.delimiter).filter((it) => it !== '');
  return folders.map((it) => path.join(it, name)).find((it) => existsSync(it)) ?? null;
}

/**
 * The program: what is named, what the environment names, what is built in this repository, what is on the PATH.
 * @param {string | undefined} named
 * @returns {string}
 */
export function findSymq(named) {
  const given = named ?? process.env.SYMQ;
  if (given) {
    if (given.includes('/') && !existsSync(given)) throw new Failure(`no such program: ${given}`, named ? 2 : 3, 'setup');
    return given;
  }
  const built = ['symq', 'crates/symq/out/symq'].map((it) => path.join(repository(), it)).find((it) => existsSync(it));
  const found = built ?? onPath('symq');
  if (found) return found;
  throw new Failure('symq not found: `make symq` builds it, --symq FILE names it, and --unproved makes an unverified build');
}

/** @param {string} file a script that builds the program where it isn't kept @returns {Promise<{ status: number | null, said: string }>} what it prints; what it says of its work is told as it goes */
function built(file) {
  return new Promise((resolve, reject) => {
    const child = spawn('python3', [file], { stdio: ['ignore', 'pipe', 'inherit'] });
    let said = '';
    child.stdout.on('data', (it) => (said += it));
    child.on('error', (error) => reject(new Failure(`--unproved needs python3: ${error.message}`)));
    child.on('close', (status) => resolve({ status, said }));
  });
}

/** @returns {Promise<string>} symq as a build without its proofs, which is made where none of its sources is kept */
export async function unprovedSymq() {
  const file = path.join(repository(), 'tools', 'unproved_symq.py');
  if (!existsSync(file)) throw new Failure('--unproved works only in the repository of deno_symbols', 2);
  const { status, said } = await built(file);
  if (status !== 0) throw new Failure('the unverified build of symq failed');
  return said.trim();
}
