// The sources of a directory as they were before some of its files changed: the others are what they are now.
import { mkdirSync, writeFileSync } from 'node:fs';
import path from 'node:path';

import { poolOf } from '../folder/begin.js';
import { Configs, parsed } from '../folder/configs.js';
import { Files } from '../folder/files.js';
import { Resolver } from '../folder/resolve.js';
import { Sources } from '../folder/sources.js';
import { findTypeScript } from '../typescript.js';

/** @typedef {import('../folder/kept.js').Kept} Kept */
/** @typedef {import('../folder/pool.js').Pool} Pool */
/** @typedef {import('../folder/queue.js').Job} Job */
/** @typedef {import('../folder/thread.js').Done} Done */
/** @typedef {Map<string, Buffer | null>} Texts of files that differ, by their absolute paths; null where there was none */

class FilesBefore extends Files {
  /** @param {string} folder @param {RegExp[]} skip @param {Texts} texts */
  constructor(folder, skip, texts) {
    super(folder, skip);
    this.texts = texts;
  }

  /** @param {Set<string>} files */
  listAll(files) {
    super.listAll(files);
    for (const [file, text] of this.texts) {
      if (text === null) files.delete(file);
      else if (this.holds(file) && !/(^|\/)\.[^/]*\//.test(this.below(file))) files.add(file);
    }
  }

  /** @param {string} file @returns {boolean} */
  has(file) {
    const text = this.texts.get(file);
    if (text === undefined || this.holds(file)) return super.has(file) && text !== null;
    return text !== null;
  }
}

class ConfigsBefore extends Configs {
  /** @param {FilesBefore} files */
  constructor(files) {
    super(files);
    this.texts = files.texts;
  }

  /** @param {string} file @returns {any} */
  parsed(file) {
    const text = this.texts.get(file);
    return text ? parsed(text.toString().replace(/^\ufeff/, ''), file).value : super.parsed(file);
  }
}

/** Parses what files were, from copies of that. */
class PoolBefore {
  /** @param {Pool} pool @param {Texts} texts @param {string} folder for the copies */
  constructor(pool, texts, folder) {
    this.pool = pool;
    this.texts = texts;
    this.folder = folder;
    /** @type {Map<string, string>} by the copy the file */
    this.files = new Map();
  }

  /** @param {Job} job @returns {Job} */
  copied(job) {
    const text = this.texts.get(job.file);
    if (!text) return job;
    const place = path.join(this.folder, `${this.files.size}`);
    const file = path.join(place, path.basename(job.file));
    mkdirSync(place, { recursive: true });
    writeFileSync(file, text);
    this.files.set(file, job.file);
    return { ...job, file };
  }

  /** @param {Job[]} jobs @param {Done} done */
  parse(jobs, done) {
    return this.pool.parse(jobs.map((it) => this.copied(it)), (file, made, error) => done(this.files.get(file) ?? file, made, error));
  }

  close() {
    return this.pool.close();
  }
}

/**
 * @param {Sources} now
 * @param {Texts} texts of files before
 * @param {string} temporary a folder for their copies
 * @returns {Promise<Sources>} the sources before
 */
export async function sourcesBefore(now, texts, temporary) {
  const { reading } = now;
  const files = new FilesBefore(reading.folder, reading.skip, texts);
  const modules = new Map([...now.modules.values()].filter((it) => !texts.has(it.file)).map((it) => [it.file, it.parsed]));
  const kept = /** @type {Kept} */ (/** @type {unknown} */ ({ modules, get: (/** @type {string} */ file) => modules.get(file) ?? null, graph: '', write: async () => {} }));
  const pool = async () => /** @type {Pool} */ (/** @type {unknown} */ (new PoolBefore(await poolOf(reading, findTypeScript(reading.folder)), texts, temporary)));
  const sources = new Sources({ reading, files, kept, pool, asked: null, last: null, results: null });
  sources.configs = new ConfigsBefore(files);
  sources.resolver = new Resolver(files, sources.configs);
  await sources.read();
  await sources.pool?.close();
  return sources;
}
