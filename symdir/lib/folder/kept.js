// Trees that are kept from run to run, under the user's cache folder: one file for a folder of sources and how it is read. The graph that
// was asked last is kept beside it, so that it can be asked again before it is known that it is still the one.
import { createHash } from 'node:crypto';
import { mkdirSync, readFileSync, readdirSync, rmSync, statSync, utimesSync } from 'node:fs';
import { mkdir, rename, rm, writeFile } from 'node:fs/promises';
import os from 'node:os';
import path from 'node:path';
import { fileURLToPath } from 'node:url';

import { isPart, partOf, replaceFile } from '../write.js';

/** What is kept of a module, by what its file is. */
/**
 * @typedef {object} Parsed
 * @property {string} hash of the file's bytes
 * @property {Buffer} text the JSON text of the module, without its last brace
 * @property {import('../tree/convert.js').Fault | null} fault why it has no tree
 * @property {import('../tree/converter.js').Reference[]} references
 * @property {number[]} declarations as the converter notes them
 * @property {string[]} implicit names that TypeScript exports of a declaration file without a word
 * @property {string[] | null} equals the parts of the name behind `export =`; none where something else stands there
 * @property {string[]} modules that it declares by `declare module "name"`
 * @property {boolean} isScript whether it is no module, so that what it declares is there for all
 * @property {import('../tree/converter.js').Block[]} blocks of namespaces that have `export { .. }` or `export import`
 * @property {number} start of the first statement, in bytes
 * @property {string[]} namespaces texts of `import a = require(..)` that it was parsed for as ones of modules without `export =`
 * @property {number} nodes how many the tree has
 */

/** What was written before so many days goes. */
const DAYS = 30;
/** A graph that another one takes the place of goes where no run has taken it for so many milliseconds. */
const MILLISECONDS_OF_A_GRAPH = 60_000;
/** What isn't whole after so many milliseconds never will be. */
const MILLISECONDS_OF_A_PART = 3_600_000;

/** @param {Buffer | string} bytes @returns {string} */
export function hashOf(bytes) {
  return createHash('sha1').update(bytes).digest('base64url');
}

/** @returns {string} the user's cache folder, as the operating system has it */
function cacheFolder() {
  const { env, platform } = process;
  if (env.XDG_CACHE_HOME) return path.join(env.XDG_CACHE_HOME, 'symdir');
  if (platform === 'win32' && env.LOCALAPPDATA) return path.join(env.LOCALAPPDATA, 'symdir', 'cache');
  return path.join(os.homedir(), platform === 'darwin' ? 'Library/Caches' : '.cache', 'symdir');
}

/** @param {import('../typescript.js').Found} found @returns {string} where its parser is kept for this version of Node, without an ending */
export function madeOf({ file, version }) {
  const { size, mtimeMs } = statSync(file);
  return path.join(cacheFolder(), `parser-${version}-${process.version}-${hashOf(JSON.stringify(['what parses', file, size, mtimeMs]))}`);
}

/** @returns {string} changes with what makes of a text what is kept */
function maker() {
  const folder = fileURLToPath(new URL('../tree/', import.meta.url));
  const names = ['parse.js', 'graph.js', 'text.js', '../kinds.js', '../language.js', '../wellformed.js'];
  const beside = names.map((it) => fileURLToPath(new URL(it, import.meta.url)));
  const files = [...readdirSync(folder).sort().map((it) => path.join(folder, it)), ...beside];
  return hashOf(files.map((it) => readFileSync(it, 'utf8')).join(''));
}

/** @param {string} folder removes what is old there @param {(file: string) => boolean} isReplaced which goes sooner */
function prune(folder, isReplaced) {
  for (const name of readdirSync(folder)) {
    const file = path.join(folder, name);
    const age = Date.now() - (statSync(file, { throwIfNoEntry: false })?.mtimeMs ?? 0);
    const longest = isReplaced(file) ? MILLISECONDS_OF_A_GRAPH : isPart(name) ? MILLISECONDS_OF_A_PART : DAYS * 24 * 3600 * 1000;
    if (age > longest) rmSync(file, { force: true });
  }
}

export class Kept {
  /** @param {string} key all that what is kept depends on, besides the files */
  constructor(key) {
    this.base = path.join(cacheFolder(), hashOf(`${maker()} ${key}`));
    this.file = `${this.base}.trees`;
    /** The name of the graph that was asked last. */
    this.graph = '';
    /** @type {Map<string, Parsed>} by the path of the file */
    this.modules = new Map();
    try {
      this.read(readFileSync(this.file));
    } catch {
      this.modules.clear();
    }
  }

  /** @param {Buffer} bytes four with the length of a JSON text, that, and the texts of the modules */
  read(bytes) {
    const length = bytes.readUInt32LE(0);
    let at = 4 + length;
    const { graph, rows } = JSON.parse(bytes.toString('utf8', 4, at));
    for (const [file, size, rest] of rows) {
      if (at + size > bytes.length) throw new Error('cut off');
      this.modules.set(file, { ...rest, text: bytes.subarray(at, at + size) });
      at += size;
    }
    this.graph = graph;
  }

  /** @param {string} graph its name @returns {string} its file */
  graphFile(graph) {
    return `${this.base}.${graph}.graph`;
  }

  /** @returns {string | null} the file of the graph that was asked last, which stays for a while then */
  lastGraph() {
    try {
      const [file, now] = [this.graphFile(this.graph), new Date()];
      utimesSync(file, now, now);
      return file;
    } catch {
      return null;
    }
  }

  /** @param {string} graph its name @param {Buffer[]} pieces its text @returns {string | null} its file; null where it can't be kept */
  storeGraph(graph, pieces) {
    try {
      mkdirSync(path.dirname(this.file), { recursive: true });
      const file = this.graphFile(graph);
      replaceFile(file, pieces);
      return file;
    } catch {
      return null;
    }
  }

  /** @param {string} file @param {string} hash @returns {Parsed | null} where the file is what it was */
  get(file, hash) {
    const found = this.modules.get(file);
    return found?.hash === hash ? found : null;
  }

  /** @param {Map<string, Parsed>} modules what to keep; that it can't be kept is no failure @param {string} graph the name of theirs @returns {Promise<void>} */
  async write(modules, graph) {
    const rows = [...modules].map(([file, { text, ...rest }]) => [file, text.length, rest]);
    const header = Buffer.from(JSON.stringify({ graph, rows }));
    const length = Buffer.alloc(4);
    length.writeUInt32LE(header.length);
    const part = partOf(this.file);
    try {
      await mkdir(path.dirname(this.file), { recursive: true });
      await writeFile(part, Buffer.concat([length, header, ...[...modules.values()].map(({ text }) => text)]));
      await rename(part, this.file);
      prune(path.dirname(this.file), (it) => it.startsWith(`${this.base}.`) && /\.(graph|result)$/.test(it) && !it.startsWith(`${this.base}.${graph}.`));
    } catch {
      // a cache folder that can't be written costs time alone
      await rm(part, { force: true }).catch(() => {});
    }
  }
}
