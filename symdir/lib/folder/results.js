// What a command made of the graph that was asked last, kept beside that: of the same graph, by the same programs, it makes the same.
import { closeSync, openSync, readFileSync, readSync, readdirSync, statSync } from 'node:fs';
import { mkdir, rename, rm, writeFile } from 'node:fs/promises';
import path from 'node:path';
import { fileURLToPath } from 'node:url';

import { onPath } from '../program.js';
import { partOf } from '../write.js';
import { hashOf } from './kept.js';

/** @typedef {import('./kept.js').Kept} Kept */
/** @typedef {import('./begin.js').Asked} Asked */

/** @param {string} program a file, or a command on the PATH @returns {string | null} what tells it from others; null where it isn't there */
export function identityOf(program) {
  const file = program.includes('/') ? program : onPath(program);
  const found = file === null ? undefined : statSync(file, { throwIfNoEntry: false });
  return found ? JSON.stringify([path.resolve(/** @type {string} */ (file)), found.size, found.mtimeMs, found.ctimeMs]) : null;
}

/** @param {string} program @returns {boolean} whether it is a text that other programs run, which its file doesn't tell; or can't be read */
function isScript(program) {
  try {
    const [file, bytes] = [openSync(program.includes('/') ? program : onPath(program) ?? '', 'r'), Buffer.alloc(2)];
    readSync(file, bytes, 0, 2, 0);
    closeSync(file);
    return bytes.toString('latin1') === '#!';
  } catch {
    return true;
  }
}

/** @param {string} folder @returns {string[]} all files below it */
function filesIn(folder) {
  return readdirSync(folder, { withFileTypes: true }).flatMap((it) => {
    const file = path.join(folder, it.name);
    return it.isDirectory() ? filesIn(file) : [file];
  });
}

/** @type {string | undefined} */
let made;

/** @returns {string} changes with this package, as it was when this was first asked: each file of it is told from others as a program is */
function maker() {
  const own = made === undefined ? filesIn(fileURLToPath(new URL('../', import.meta.url))).sort() : [];
  return (made ??= hashOf(own.map(identityOf).join('\n')));
}

/** What stands at the end of what is whole. */
const END = Buffer.from('\nend\n');

/** @param {Buffer} bytes @param {number} count @returns {Buffer[]} so many lines, and what stands behind them; fewer where these aren't all there */
function linesOf(bytes, count) {
  const found = [];
  let at = 0;
  for (let end = bytes.indexOf(10); end >= 0 && found.length < count; end = bytes.indexOf(10, at)) {
    found.push(bytes.subarray(at, end));
    at = end + 1;
  }
  return [...found, bytes.subarray(at)];
}

export class Results {
  /** @param {Kept} kept @param {string} what is kept, in a word @param {string} by what made it */
  constructor(kept, what, by) {
    this.kept = kept;
    this.what = what;
    this.by = by;
    /** @type {{ of: string, text: string, more: Buffer } | null} */
    this.found = null;
  }

  /** @param {Kept | null} kept @param {Asked | null} asked @returns {Results | null} null where no result is kept: that of a program isn't that others run */
  static of(kept, asked) {
    if (!kept || !asked?.result || isScript(asked.symq)) return null;
    return new Results(kept, asked.result, hashOf(JSON.stringify([process.version, identityOf(asked.symq), asked.strict ?? false, maker()])));
  }

  /** @param {string} graph its name @returns {string} */
  file(graph) {
    return `${this.kept.base}.${graph}.${this.what}.result`;
  }

  /** @returns {boolean} whether there is one of the graph that was asked last */
  read() {
    try {
      const [by, of, text, rest] = linesOf(readFileSync(this.file(this.kept.graph)), 3);
      const isWhole = by.toString() === this.by && rest?.subarray(-END.length).equals(END);
      if (isWhole) this.found = { of: of.toString(), text: text.toString(), more: rest.subarray(0, -END.length) };
    } catch {
      // there is none
    }
    return this.found !== null;
  }

  /** @param {string} graph its name @param {unknown} of all else that it depends on @returns {any} what JSON holds; undefined where nothing is kept */
  get(graph, of) {
    const { found } = this;
    if (!found || graph !== this.kept.graph || found.of !== JSON.stringify(of)) return undefined;
    try {
      return JSON.parse(found.text);
    } catch {
      return undefined;
    }
  }

  /** @param {string} graph its name @param {unknown} of all else that it depends on @param {unknown} value @param {Buffer} more bytes that are kept as they are @returns {Promise<void>} */
  async put(graph, of, value, more) {
    const file = this.file(graph);
    const part = partOf(file);
    try {
      await mkdir(path.dirname(file), { recursive: true });
      await writeFile(part, Buffer.concat([Buffer.from(`${this.by}\n${JSON.stringify(of)}\n${JSON.stringify(value)}\n`), more, END]));
      await rename(part, file);
    } catch {
      // a cache folder that can't be written costs time alone
      await rm(part, { force: true }).catch(() => {});
    }
  }
}
