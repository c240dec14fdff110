// Watches directories: those of the sources, and those outside where files were looked for.
import { statSync, watch } from 'node:fs';
import path from 'node:path';

import { Failure } from '../failure.js';
import { Files, statsOf, withSlashes } from '../folder/files.js';

/** What is written within so many milliseconds may have the same times. */
const SETTLED = 3000;

/** @typedef {Map<string, { state: string, hash: string }>} Hashes of files, with what told each from a later state of it */

/** @param {string} file @returns {import('node:fs').BigIntStats | null} null where it isn't there, or can't be looked at */
function exactStatsOf(file) {
  try {
    return statSync(file, { bigint: true, throwIfNoEntry: false }) ?? null;
  } catch {
    return null;
  }
}

/** The files of a directory, which note what was looked for and where. */
export class Watched extends Files {
  /** @param {string} folder @param {RegExp[]} skip @param {Hashes} [hashes] from before, which is given further ones */
  constructor(folder, skip, hashes = new Map()) {
    super(folder, skip);
    this.hashes = hashes;
  }

  /** @type {Set<string>} directories that are listed */
  folders = new Set();
  /** @type {Set<string>} files outside that were looked for, whether they are there or not */
  looked = new Set();

  /** @param {string} folder @param {string} real @param {Set<string>} files @param {Set<string>} met */
  list(folder, real, files, met) {
    this.folders.add(folder);
    super.list(folder, real, files, met);
  }

  /** @param {string} file @returns {boolean} */
  has(file) {
    if (!this.holds(file)) this.looked.add(file);
    return super.has(file);
  }

  /** @param {string} file @returns {string} as it was, where its size and times are */
  hash(file) {
    const stats = exactStatsOf(file);
    const state = stats === null ? '' : [stats.dev, stats.ino, stats.size, stats.mtimeNs, stats.ctimeNs].join();
    const known = this.hashes.get(file);
    if (known && known.state === state) return known.hash;
    const hash = super.hash(file);
    if (stats !== null && Date.now() - Number(stats.ctimeMs) > SETTLED) this.hashes.set(file, { state, hash });
    else this.hashes.delete(file);
    return hash;
  }

  /** @param {Watched} other @returns {boolean} whether both list the same */
  lists({ all, links }) {
    return all.size === this.all.size && links.join('\n') === this.links.join('\n') && [...all].every((it) => this.all.has(it));
  }
}

/** @param {string} folder @returns {string | null} tells it from another one in its place; null where it isn't there */
function identityOf(folder) {
  const stats = statsOf(folder);
  return stats?.isDirectory() ? `${stats.ino} ${stats.birthtimeMs}` : null;
}

/** @param {Iterable<string>} files @returns {Set<string>} them, and the directories that they would stand in */
function withParents(files) {
  const found = new Set(files);
  for (const it of found) found.add(withSlashes(path.dirname(it)));
  return found;
}

export class Watchers {
  /** @param {(file: string) => void} hear is told of each file or directory that may have changed */
  constructor(hear) {
    this.hear = hear;
    /** @type {Map<string, { identity: string, watcher: import('node:fs').FSWatcher }>} */
    this.open = new Map();
    /** @type {Set<string>} */
    this.inside = new Set();
    /** @type {Set<string>} files and directories outside whose changes count */
    this.outside = new Set();
  }

  /**
   * Watches these from now on, and no others.
   * @param {Set<string>} folders
   * @param {Set<string>} files that were looked for outside
   * @returns {boolean} whether one is new, so that what happened before isn't known
   */
  follow(folders, files) {
    this.inside = folders;
    this.outside = withParents(files);
    const wanted = new Set([...folders, ...[...this.outside].filter((it) => !files.has(it))]);
    for (const it of this.open.keys()) if (!wanted.has(it)) this.end(it);
    return [...wanted].map((it) => this.begin(it)).includes(true);
  }

  /** @param {string} folder @returns {boolean} whether it is there and wasn't watched */
  begin(folder) {
    const identity = identityOf(folder);
    const known = this.open.get(folder);
    if (known?.identity === identity) return false;
    this.end(folder);
    // what its watcher had to tell of its end isn't told any more
    if (identity === null && known) this.hear(folder);
    if (identity === null) return false;
    try {
      const watcher = watch(folder, (what, name) => this.told(folder, what, name));
      watcher.on('error', () => this.end(folder));
      this.open.set(folder, { identity, watcher });
      return true;
    } catch (error) {
      const { code, message } = /** @type {NodeJS.ErrnoException} */ (error);
      if (code === 'ENOSPC' || code === 'EMFILE') throw new Failure(`${folder} can't be watched (${code}): the system's limit of watched directories is reached`, 3, 'system');
      if (code === 'ENOENT' || code === 'EACCES' || code === 'EPERM') return false;
      throw new Failure(`${folder} can't be watched: ${message}`, 3, 'system');
    }
  }

  /** @param {string} folder @param {string} what @param {string | null} name in it */
  told(folder, what, name) {
    const file = name === null ? folder : path.posix.join(folder, name);
    // the directory itself has gone, or another one has come in its place
    if (what === 'rename' && name === path.basename(folder)) this.end(folder);
    if (this.inside.has(folder) || this.outside.has(file)) this.hear(file);
  }

  /** @param {string} folder */
  end(folder) {
    this.open.get(folder)?.watcher.close();
    this.open.delete(folder);
  }

  close() {
    [...this.open.keys()].forEach((it) => this.end(it));
  }
}
