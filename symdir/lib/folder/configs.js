// Configuration files: JSON, with comments where TypeScript or Deno allow them.
import { readFileSync } from 'node:fs';
import path from 'node:path';
import { createRequire } from 'node:module';

import { reasonOf } from '../failure.js';
import { findTypeScript } from '../typescript.js';
import { withSlashes } from './files.js';

const require = createRequire(import.meta.url);

const COMMENTS = /("(?:[^"\\]|\\.)*")|\/\/.*|\/\*[^]*?\*\//g;
const LAST_COMMAS = /("(?:[^"\\]|\\.)*")|,(?=\s*[\]}])/g;

/** @param {string} text @returns {string} without comments, and without commas behind the last of a list */
function plain(text) {
  const outside = (/** @type {string} */ _, /** @type {string | undefined} */ string) => string ?? '';
  return text.replace(COMMENTS, outside).replace(LAST_COMMAS, outside);
}

/** @typedef {import('../tree/convert.js').Fault} Fault */
/** @typedef {{ value: any, fault: Fault | null }} Read */

/** Files of which nothing counts where they have a fault; of others what TypeScript makes of them does. */
const STRICT = /(^|\/)(package|deno|import_?map)\.jsonc?$/;

/** @param {string} text @param {string} file @returns {Read} as TypeScript reads it, which has to be loaded for that */
function asTypeScript(text, file) {
  /** @type {typeof import('typescript')} */
  const ts = require(findTypeScript(path.dirname(file)).file);
  const { config, error } = ts.parseConfigFileTextToJson(file, text);
  if (!error) return { value: config, fault: null };
  const { line, character } = ts.getLineAndCharacterOfPosition(ts.createSourceFile(file, text, ts.ScriptTarget.JSON), error.start ?? 0);
  const fault = { line: line + 1, column: character + 1, text: ts.flattenDiagnosticMessageText(error.messageText, ' ') };
  return { value: STRICT.test(file) ? null : config, fault };
}

/** @param {string} text @param {string} file @returns {Read} */
export function parsed(text, file) {
  for (const made of [() => text, () => plain(text)]) {
    try {
      return { value: JSON.parse(made()), fault: null };
    } catch {
      // the next
    }
  }
  return asTypeScript(text, file);
}

export class Configs {
  /** @param {import('./files.js').Files} files */
  constructor(files) {
    this.files = files;
    /** @type {Map<string, any>} */
    this.read = new Map();
    /** @type {(Fault & { file: string })[]} of the files that can't be parsed, but for those of packages */
    this.faults = [];
    /** @type {{ file: string, error: string }[]} the files that are there and can't be read */
    this.unread = [];
    /** @type {Map<string, any>} what is nearest to a folder, by the folder and the names */
    this.near = new Map();
  }

  /** @param {string} file absolute @returns {any} the value of the file; null where it isn't there or no object */
  value(file) {
    if (!this.read.has(file)) {
      const value = this.files.has(file) ? this.parsed(file) : null;
      this.read.set(file, value !== null && typeof value === 'object' ? value : null);
    }
    return this.read.get(file);
  }

  /** @param {string} file that is there @returns {any} its value; null where there is none, which is noted */
  parsed(file) {
    let text;
    try {
      text = readFileSync(file, 'utf8').replace(/^\ufeff/, '');
    } catch (error) {
      this.unread.push({ file, error: reasonOf(error) });
      return null;
    }
    const { value, fault } = parsed(text, file);
    if (fault && !file.includes('/node_modules/')) this.faults.push({ file, ...fault });
    return value;
  }

  /**
   * The nearest of the files, in the folder or above it.
   * @param {string} folder
   * @param {string[]} names of which the first goes first
   * @returns {{ file: string, folder: string, value: any } | null}
   */
  nearest(folder, names) {
    const key = `${names[0]} ${folder}`;
    if (!this.near.has(key)) {
      const file = names.map((it) => path.posix.join(folder, it)).find((it) => this.value(it) !== null);
      const above = withSlashes(path.dirname(folder));
      if (file) this.near.set(key, { file, folder, value: this.value(file) });
      else this.near.set(key, above === folder ? null : this.nearest(above, names));
    }
    return this.near.get(key);
  }

  /** @param {string} folder @returns {{ file: string, folder: string, value: any } | null} */
  packageAt(folder) {
    return this.nearest(folder, ['package.json']);
  }
}
