// The files below a folder, as paths with slashes.
import { readFileSync, readdirSync, realpathSync, statSync } from 'node:fs';
import path from 'node:path';

import { Failure, fileFailure } from '../failure.js';
import { isCode } from '../language.js';
import { hashOf } from './kept.js';

/** @typedef {import('node:fs').Dirent} Dirent */

/** @param {string} file @returns {string} with slashes alone */
export function withSlashes(file) {
  return path.sep === '/' ? file : file.split(path.sep).join('/');
}

/** @param {string} file @returns {import('node:fs').Stats | null} null where it isn't there, or can't be looked at: links in a ring, a name that is too long */
export function statsOf(file) {
  try {
    return statSync(file, { throwIfNoEntry: false }) ?? null;
  } catch {
    return null;
  }
}

/** @param {string} file @returns {boolean} */
export function isFile(file) {
  return statsOf(file)?.isFile() ?? false;
}

/** @param {string} folder @returns {boolean} */
export function isFolder(folder) {
  return statsOf(folder)?.isDirectory() ?? false;
}

/** @param {string} file @returns {string} what it stands for, links followed; itself where that can't be told */
function realOf(file) {
  try {
    return realpathSync(file);
  } catch {
    return file;
  }
}

/** @param {string} name of a directory @returns {boolean} whether it is left out */
function isLeftOut(name) {
  return name === 'node_modules' || name.startsWith('.');
}

/** @param {string} folder @throws {Failure} where it is none, or can't be read */
export function checkFolder(folder) {
  if (isFile(folder)) {
    throw new Failure(`${folder} is a file: name its directory${isCode(folder) ? `, and --entry ${path.basename(folder)}` : ''}`, 2);
  }
  try {
    readdirSync(folder);
  } catch (error) {
    const isThere = !['ENOENT', 'ENOTDIR'].includes(/** @type {any} */ (error).code);
    throw isThere ? fileFailure(folder, 'read', error) : new Failure(`no such directory: ${folder}`, 3, 'argument');
  }
}

export class Files {
  /**
   * @param {string} folder absolute
   * @param {RegExp[]} skip paths below the folder that are left out
   */
  constructor(folder, skip) {
    this.folder = folder;
    this.skip = skip;
    /** @type {Set<string> | null} */
    this.listed = null;
    /** @type {string[]} what can't be listed */
    this.unread = [];
    /** @type {string[]} links to directories */
    this.links = [];
  }

  /** @returns {Set<string>} each file of the folder, by its absolute path, as they were when this was first asked */
  get all() {
    if (!this.listed) {
      this.listed = new Set();
      this.listAll(this.listed);
    }
    return this.listed;
  }

  /** @param {Set<string>} files is given each file. Each directory is listed once, as TypeScript does: by its own path, else by that of a link to it */
  listAll(files) {
    /** @type {Set<string>} */
    const met = new Set();
    this.list(this.folder, realOf(this.folder), files, met);
    for (let i = 0; i < this.links.length; i++) this.list(this.links[i], realOf(this.links[i]), files, met);
  }

  /** @param {string} folder @param {string} real what it stands for @param {Set<string>} files is given its files, with those of the directories in it @param {Set<string>} met directories that are listed, each by what it stands for */
  list(folder, real, files, met) {
    if (met.has(real)) return;
    met.add(real);
    /** @type {Dirent[]} */
    let entries;
    try {
      entries = readdirSync(folder, { withFileTypes: true });
    } catch {
      this.unread.push(folder);
      return;
    }
    const [start, realStart] = [folder, real].map((it) => (it === '/' ? '/' : `${it}/`));
    /** @type {string[]} */
    const links = [];
    for (const it of entries) {
      const file = start + it.name;
      if (it.isDirectory()) {
        if (!isLeftOut(it.name)) this.list(file, realStart + it.name, files, met);
      } else if (it.isFile() || (it.isSymbolicLink() && isFile(file))) files.add(file);
      else if (it.isSymbolicLink() && !isLeftOut(it.name) && isFolder(file)) links.push(file);
    }
    this.links.push(...links.sort());
  }

  /** @param {string} file absolute @returns {string} below the folder; with `../` where it is elsewhere */
  below(file) {
    const start = this.folder === '/' ? '/' : `${this.folder}/`;
    return file.startsWith(start) ? file.slice(start.length) : withSlashes(path.relative(this.folder, file));
  }

  /** @param {string} file absolute @returns {boolean} whether `--skip` leaves it out */
  isSkipped(file) {
    return this.skip.length > 0 && this.skip.some((it) => it.test(this.below(file)));
  }

  /** @param {string} file absolute @returns {boolean} whether it stands in the folder, packages that are installed there apart */
  holds(file) {
    return file.startsWith(this.folder === '/' ? '/' : `${this.folder}/`) && !file.includes('/node_modules/', this.folder.length);
  }

  /** @param {string} file absolute @returns {boolean} whether it is there, in the folder or elsewhere */
  has(file) {
    if (!this.holds(file)) return isFile(file);
    return this.all.has(file) || (this.links.some((it) => file.startsWith(`${it}/`)) && isFile(file));
  }

  /** @param {string} file @returns {string} of its bytes; empty where it can't be read */
  hash(file) {
    try {
      return hashOf(readFileSync(file));
    } catch {
      return '';
    }
  }

  /** @returns {string} why there is no module, to be told */
  emptyText() {
    const skipped = [...this.all].filter((it) => isCode(it)).length;
    if (skipped > 0) return `no modules in ${this.folder}: --skip excludes all ${skipped}`;
    return `no modules in ${this.folder}: no file ends in .ts .tsx .mts .cts .js .jsx .mjs .cjs`;
  }

  /** @returns {string[]} the modules of TypeScript and JavaScript in the folder, in the order of their paths */
  code() {
    return [...this.all].filter((it) => isCode(it) && !this.isSkipped(it)).sort();
  }
}
