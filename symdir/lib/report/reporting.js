// How a run reports: text, JSON, or a format that other programs and people beside the terminal read; with a baseline or without.
import path from 'node:path';

import { Failure } from '../failure.js';
import { isFolder } from '../folder/files.js';
import { counted } from '../output.js';
import { output, replaceFile } from '../write.js';
import { Found } from './found.js';

/** @typedef {import('../cli.js').Run} Run */
/** @typedef {'markdown' | 'html' | 'sarif' | 'annotations'} Format */

/** @type {NonNullable<import('node:util').ParseArgsConfig['options']>} */
export const REPORT = {
  markdown: { type: 'boolean' },
  sarif: { type: 'boolean' },
  annotations: { type: 'boolean' },
  out: { type: 'string', short: 'o' },
  baseline: { type: 'string' },
  'save-baseline': { type: 'boolean' },
};
const FORMATS = ['json', 'markdown', 'html', 'sarif', 'annotations'];
/** Options that can't be combined. */
export const REPORT_APART = [
  ...FORMATS.flatMap((it, i) => FORMATS.slice(i + 1).map((other) => [it, other])),
  ['annotations', 'out'], ...FORMATS.map((it) => ['save-baseline', it]), ['save-baseline', 'out'],
];

export class Reporting {
  /** @param {string} command @param {string[]} words @param {Record<string, any>} options @param {(line: string) => void} print */
  constructor(command, words, options, print) {
    this.command = command;
    this.options = options;
    this.line = print;
    this.words = words;
    /** @type {Format | undefined} */
    this.format = /** @type {Format[]} */ (FORMATS).find((it) => it !== /** @type {any} */ ('json') && options[it]);
    this.found = new Found();
    this.summary = '';
    /** @type {string | Buffer | null} */
    this.body = null;
    /** @type {string[]} lines for the file that `--out` names */
    this.held = [];
  }

  /** Reads the baseline. @throws {Failure} where options lack what they need */
  async begin() {
    const { out, baseline, json, 'save-baseline': isSaving } = this.options;
    if (out !== undefined && !json && !this.format) throw new Failure('--out needs --json, --markdown, --sarif or, for api, --html', 2);
    if (isSaving && baseline === undefined) throw new Failure('--save-baseline needs --baseline FILE', 2);
    if (baseline === undefined || isSaving) return;
    const { readBaseline } = await import('./baseline.js');
    this.found = new Found(readBaseline(baseline));
  }

  /** @param {string} line of text, or JSON */
  print(line) {
    if (this.format || this.options['save-baseline']) return;
    if (this.options.out) this.held.push(`${line}\n`);
    else this.line(line);
  }

  /** @param {string} line that sums up the findings */
  conclude(line) {
    this.summary = line;
    this.print(line);
  }

  /** @param {object} value printed as JSON, with what the baseline accepted */
  json(value) {
    const { baseline } = this.options;
    const about = baseline === undefined ? {} : { baseline: { accepted: this.found.accepted, gone: this.found.gone(this.command) } };
    this.print(JSON.stringify({ ...value, ...about }, null, 1));
  }

  /** @returns {string} the directory that findings are in: the newer one of two */
  folder() {
    const last = this.words[this.command === 'diff' ? 1 : 0];
    return last !== undefined && isFolder(last) ? path.resolve(last) : process.cwd();
  }

  /** @param {number} status @returns {Promise<string | Buffer>} */
  async rendered(status) {
    if (this.body !== null) return this.body;
    const { found: { all }, options, summary } = this;
    if (this.format === 'sarif') return (await import('./sarif.js')).sarif(this.folder(), all, status, this.baselineLines());
    if (this.format === 'markdown') return (await import('./findings-markdown.js')).findingsMarkdown(all, summary, options.all ?? false, this.baselineLines());
    const { annotation, notice } = await import('./annotations.js');
    const gone = this.baselineLines();
    return [...all.map((it) => annotation(this.folder(), it)), ...(gone.length > 1 ? [notice(gone.join('\n'))] : [])].map((it) => `${it}\n`).join('');
  }

  /** @returns {string[]} what the baseline accepted, and what of it no longer occurs */
  baselineLines() {
    const { baseline } = this.options;
    if (baseline === undefined) return [];
    const gone = this.found.gone(this.command);
    const accepted = `${baseline}: ${counted(this.found.accepted, 'finding')} accepted`;
    if (gone.length === 0) return [accepted];
    const count = gone.reduce((sum, it) => sum + it.count, 0);
    return [`${accepted}, ${count} no longer ${count === 1 ? 'occurs' : 'occur'} (--save-baseline updates it):`,
      ...gone.map((it) => `  ${it.rule}  ${it.file}  ${it.name.split('\n').join(' ')}${it.count > 1 ? `  ${it.count} times` : ''}`)];
  }

  /** @param {number} status of the command @returns {Promise<number>} that of the run */
  async end(status) {
    const { options: { out, baseline, json, 'save-baseline': isSaving }, found } = this;
    if (isSaving) {
      (await import('./baseline.js')).saveBaseline(baseline, this.command, found.all);
      this.line(`${baseline}: ${counted(found.all.length, 'finding')} of ${this.command}`);
      return 0;
    }
    const text = this.format ? await this.rendered(status) : this.held.join('');
    if (out) {
      replaceFile(out, [Buffer.from(text)]);
      this.line(`${out}: ${counted(found.all.length, 'finding')}`);
    } else if (this.format) output(text);
    if (!json && this.format !== 'sarif' && this.format !== 'annotations' && (out || !this.format)) this.baselineLines().forEach(this.line);
    return status;
  }
}
