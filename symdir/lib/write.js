// Writes files and standard output. A file is written beside its place and renamed, so that it is whole whenever it is read, and the
// file that was there stays where a write fails. Each write that fails ends the command in one line.
import { accessSync, chmodSync, closeSync, constants, fstatSync, openSync, realpathSync, renameSync, rmSync, statSync, writevSync } from 'node:fs';
import path from 'node:path';

import { fileFailure } from './failure.js';

/** How many pieces one call writes. */
const PIECES = 512;
const STANDARD_OUTPUT = 1;

/** @param {number} fd of what blocks until it is written @param {Buffer[]} pieces */
function writeAll(fd, pieces) {
  for (let i = 0; i < pieces.length; i += PIECES) {
    let some = pieces.slice(i, i + PIECES);
    while (some.length > 0) {
      let wrote = writevSync(fd, some);
      while (some.length > 0 && wrote >= some[0].length) wrote -= /** @type {Buffer} */ (some.shift()).length;
      if (some.length > 0) some = [some[0].subarray(wrote), ...some.slice(1)];
    }
  }
}

/** @param {string} file @param {Buffer[]} pieces */
function writeInto(file, pieces) {
  const fd = openSync(file, 'w');
  try {
    writeAll(fd, pieces);
  } finally {
    closeSync(fd);
  }
}

/** @param {string} file @returns {string} what it stands for, links followed */
function targetOf(file) {
  try {
    return realpathSync(file);
  } catch {
    return file;
  }
}

/** @param {string} file @returns {string} where it is written until it is whole */
export function partOf(file) {
  return `${file}.${process.pid}`;
}

/** @param {string} name @returns {boolean} whether it is that of a file that isn't whole, as one leaves it that is ended while it writes */
export function isPart(name) {
  return /\.\d+$/.test(name);
}

/** @param {string} part removes what was written of a file */
function forget(part) {
  try {
    rmSync(part, { force: true });
  } catch {
    // the failure before this one is told
  }
}

/** @param {string} file @param {number | undefined} mode of the file that is there @param {Buffer[]} pieces */
function writeBeside(file, mode, pieces) {
  const part = partOf(file);
  try {
    writeInto(part, pieces);
    if (mode !== undefined) chmodSync(part, mode);
    renameSync(part, file);
  } catch (error) {
    forget(part);
    throw error;
  }
}

/** @param {string} target @returns {import('node:fs').Stats | undefined} of what can be written, if it is there @throws where it can't be */
function writable(target) {
  const stats = statSync(target, { throwIfNoEntry: false });
  if (stats) closeSync(openSync(target, 'r+'));
  if (stats?.isFile() ?? true) accessSync(path.dirname(target), constants.W_OK);
  return stats;
}

/** @param {string} file @throws {import('./failure.js').Failure} where it can't be written; nothing is made or changed */
export function checkWritable(file) {
  try {
    writable(targetOf(file));
  } catch (error) {
    throw fileFailure(file, 'written', error);
  }
}

/**
 * Puts a file in place, or in the place of the one that is there. A device or a pipe is written as it is.
 * @param {string} file
 * @param {Buffer[]} pieces
 * @throws {import('./failure.js').Failure} where it can't be written, and then what was there stays
 */
export function replaceFile(file, pieces) {
  try {
    const target = targetOf(file);
    const stats = writable(target);
    if (stats?.isFile() ?? true) writeBeside(target, stats?.mode, pieces);
    else writeInto(target, pieces);
  } catch (error) {
    throw fileFailure(file, 'written', error);
  }
}

/** @param {unknown} error @returns {import('./failure.js').Failure} */
export function outputFailure(error) {
  return fileFailure('standard output', 'written', error);
}

/** Whether standard output is a file, of which the system may write a part alone and say so. @type {boolean | undefined} */
let isFile;

/** @param {Buffer[]} pieces @returns {boolean} whether they are written; where standard output is no file they aren't */
function writtenToFile(pieces) {
  isFile ??= fstatSync(STANDARD_OUTPUT).isFile();
  if (!isFile) return false;
  try {
    writeAll(STANDARD_OUTPUT, pieces);
  } catch (error) {
    throw outputFailure(error);
  }
  return true;
}

/** @param {string | Buffer} text for standard output */
export function output(text) {
  isFile ??= fstatSync(STANDARD_OUTPUT).isFile();
  if (!isFile) process.stdout.write(text);
  else writtenToFile([Buffer.from(text)]);
}

/** @param {Buffer[]} pieces for standard output, written no faster than they are read */
export async function outputPieces(pieces) {
  if (writtenToFile(pieces)) return;
  for (const it of pieces) {
    if (!process.stdout.write(it)) await new Promise((resolve) => process.stdout.once('drain', () => resolve(undefined)));
  }
}
