// `--watch`: stays, and prints what differs in the answer when sources change. Each answer is that of a fresh run.
import path from 'node:path';
import { setImmediate } from 'node:timers/promises';
import v8 from 'node:v8';

import { Failure, failureOf } from '../failure.js';
import { begin, poolOf } from '../folder/begin.js';
import { checkFolder, statsOf } from '../folder/files.js';
import { Folder } from '../folder/folder.js';
import { shortOf } from '../folder/specifier.js';
import { Temporary } from '../folder/temporary.js';
import { counted } from '../output.js';
import { Reporting } from '../report/reporting.js';
import { optimize } from '../tree/budget.js';
import { findTypeScript } from '../typescript.js';
import { Answers } from './answers.js';
import { differenceOf, differentLines } from './difference.js';
import { Watched, Watchers } from './watchers.js';

/** @typedef {import('../cli.js').Run} Run */
/** @typedef {import('../folder/begin.js').Reading} Reading */
/** @typedef {import('../folder/kept.js').Kept} Kept */
/** @typedef {import('../folder/kept.js').Parsed} Parsed */
/** @typedef {import('../folder/resolve.js').Resolver} Resolver */
/** @typedef {import('../folder/sources.js').Sources} Sources */

/** So many milliseconds after a change what else is written at once is there. */
const QUIET = 8;
/** For so many milliseconds files are parsed before one changes, so that what parses is optimized by then. */
const WARMING = 500;
/** How many changed files are named. */
const NAMED = 3;

/**
 * What is watched, as the command knows it.
 * @typedef {object} Asked
 * @property {string} name of the command
 * @property {string} folder absolute
 * @property {() => Record<string, any>} options of the command line and of the configuration file as it is now
 * @property {(options: Record<string, any>) => Reading} reading
 * @property {(options: Record<string, any>) => Promise<import('../folder/begin.js').Asked>} engine
 * @property {(options: Record<string, any>, report: Reporting, print: (line: string) => void, warn: (line: string) => void) => Run} run
 * @property {(run: Run, folder: Folder, open: () => void) => Promise<number>} answer
 * @property {(line: string) => void} print
 * @property {(line: string) => void} warn
 */

/**
 * What a run printed.
 * @typedef {object} Answer
 * @property {string[]} lines
 * @property {string[]} faults lines for standard error
 * @property {number} status
 * @property {any} [value] that of the lines, where these are JSON and it was looked at
 */

/** @param {Answer} it with `--json` @returns {any} its value, which is parsed once */
function valueOf(it) {
  return (it.value ??= JSON.parse(it.lines.join('\n')));
}

/** @param {string[]} a @param {string[]} b @returns {boolean} */
function isSameText(a, b) {
  return a.length === b.length && a.every((it, i) => it === b[i]);
}

export class Watch {
  /** @param {Asked} asked */
  constructor(asked) {
    this.asked = asked;
    this.temporary = new Temporary();
    this.watchers = new Watchers((file) => this.hear(file));
    /** @type {Set<string>} files and directories that may have changed since the sources were read */
    this.heard = new Set();
    /** @type {(() => void) | null} */
    this.wake = null;
    /** @type {Map<string, Parsed>} by file the trees that are there */
    this.trees = new Map();
    /** How they were made, as a text. */
    this.how = '';
    /** @type {import('./watchers.js').Hashes} */
    this.hashes = new Map();
    /** @type {{ files: Watched, resolver: Resolver } | null} what the imports of the last reading were resolved by */
    this.resolved = null;
    /** @type {Folder | null} as it was read last */
    this.folder = null;
    /** @type {Answer | null} the last one */
    this.last = null;
    /** The failure that is told, if the last run was one. */
    this.failed = '';
    /** Whether answers are told as JSON, which stays as it was said at first. */
    this.isJson = asked.options().json ?? false;
  }

  /** @param {string} file */
  hear(file) {
    if (file.startsWith(this.temporary.path)) return;
    this.heard.add(file);
    this.wake?.();
  }

  /** @returns {Promise<void>} when something may have changed, and nothing more did for a moment */
  async changed() {
    if (this.heard.size === 0) await new Promise((resolve) => (this.wake = () => resolve(undefined)));
    this.wake = null;
    for (let count = -1; count !== this.heard.size;) {
      count = this.heard.size;
      await new Promise((resolve) => setTimeout(resolve, QUIET));
    }
  }

  /** @returns {Promise<never>} answers, and then again whenever something changed, until a failure ends it */
  async run() {
    try {
      await this.first();
      for (let isWarm = false; ; isWarm = true) {
        await this.changed();
        await this.next();
        if (!isWarm) await this.warm();
      }
    } finally {
      this.watchers.close();
      await this.answers?.end();
      this.temporary.close();
    }
  }

  /** @param {Record<string, any>} options @param {Folder} folder @param {() => void} open @returns {Promise<Answer>} what a run prints */
  async answerOf(options, folder, open) {
    /** @type {string[]} */
    const lines = [];
    /** @type {string[]} */
    const faults = [];
    const print = (/** @type {string} */ line) => void lines.push(line);
    const report = new Reporting(this.asked.name, [this.asked.folder], options, print);
    await report.begin();
    const run = this.asked.run(options, report, (line) => report.print(line), (line) => void faults.push(line));
    const status = await report.end(await this.asked.answer(run, folder, open));
    return { lines, faults, status };
  }

  /** Answers as a run without `--watch`, and keeps what it read. */
  async first() {
    const options = this.options();
    const reading = this.asked.reading(options);
    const engine = await this.asked.engine(options);
    this.typescript = findTypeScript(reading.folder);
    this.answers = new Answers(engine.symq, this.temporary.path);
    const begun = await begin(reading, engine);
    this.watchers.follow(new Set([...begun.files.all].map((it) => path.posix.dirname(it))), new Set());
    const folder = await Folder.read(begun, { entry: options.entry ?? [] });
    try {
      const answer = await this.answerOf(options, folder, () => folder.open(engine));
      this.tellFirst(answer);
      this.keep(reading, folder.sources);
      this.folder = folder;
      await this.answers.adopt(folder.sources, /** @type {import('../symq.js').Symq} */ (folder.symq));
    } finally {
      await folder.close();
    }
    // what happened until directories were watched, and where else files are looked for
    this.heard.add(reading.folder);
  }

  /** Has what parses loaded and optimized, by parsing files again, until something changes. */
  async warm() {
    const { parseFile } = await import('../folder/parse.js');
    optimize(false);
    // what V8 compiled is dropped else where it isn't run for a while, as between two changes
    v8.setFlagsFromString('--no-flush-bytecode');
    const [bodies, ambient] = JSON.parse(this.how);
    const last = performance.now() + WARMING;
    for (const file of this.trees.keys()) {
      if (this.heard.size > 0 || performance.now() > last) return;
      try {
        parseFile({ file, specifier: file }, { bodies, ambient });
      } catch {
        // what can't be read is told when it is read for its own sake
      }
      await setImmediate();
    }
  }

  /** @param {Reading} reading @param {Sources} sources */
  keep({ bodies, ambient }, { modules }) {
    this.how = JSON.stringify([bodies, ambient]);
    this.trees = new Map([...modules.values()].map((it) => [it.file, it.parsed]));
  }

  /** @param {Reading} reading @returns {Kept} the trees that are there, where they were made as it says */
  kept({ bodies, ambient }) {
    const modules = this.how === JSON.stringify([bodies, ambient]) ? this.trees : new Map();
    const get = (/** @type {string} */ file, /** @type {string} */ hash) => (modules.get(file)?.hash === hash ? modules.get(file) : null);
    return /** @type {Kept} */ (/** @type {unknown} */ ({ modules, get, graph: '', write: async () => {} }));
  }

  /** Answers again, and tells what differs. */
  async next() {
    const heard = [...this.heard];
    this.heard.clear();
    checkFolder(this.asked.folder);
    try {
      await this.again(heard);
    } catch (error) {
      const failure = failureOf(error);
      if (failure === null || this.isLast(failure)) throw error;
      this.tellFailure(failure, heard);
      await this.answers?.end();
    }
  }

  /** @param {Failure} failure @returns {boolean} whether nothing that is saved can mend it */
  isLast(failure) {
    return failure.status !== 2 && failure.kind === 'setup';
  }

  /** @param {string[]} heard */
  async again(heard) {
    const options = this.options();
    const reading = this.asked.reading(options);
    const folder = await this.read(reading, options, heard);
    if (this.folder) folder.takeOver(this.folder);
    this.folder = folder;
    const answers = /** @type {Answers} */ (this.answers);
    const changed = answers.turnTo(folder.sources);
    let answer = await this.answerWith(options, folder, answers);
    if (!await answers.check()) {
      answers.forget();
      await answers.end();
      answer = await this.answerWith(options, folder, answers);
    }
    this.tell(answer, changed, heard);
    await answers.end();
  }

  /** @param {Record<string, any>} options @param {Folder} folder @param {Answers} answers @returns {Promise<Answer>} */
  answerWith(options, folder, answers) {
    return this.answerOf(options, folder, () => {
      folder.symq = /** @type {import('../symq.js').Symq} */ (/** @type {unknown} */ (answers));
      folder.isStrict = options.strict ?? false;
    });
  }

  /** @param {Watched} files @param {string[]} heard @returns {Resolver | undefined} that of the last reading, where no file came or went since and no configuration changed */
  resolverFor(files, heard) {
    if (!this.resolved) return undefined;
    const { files: before, resolver } = this.resolved;
    // what isn't there and wasn't listed is an editor's, but for a directory of packages
    const isPlain = (/** @type {string} */ it) => files.holds(it) && !resolver.configs.read.has(it) && (files.all.has(it) || (path.basename(it) !== 'node_modules' && statsOf(it) === null));
    if (!heard.every(isPlain) || !files.lists(before)) return undefined;
    files.looked = before.looked;
    return resolver;
  }

  /** @param {Reading} reading @param {Record<string, any>} options @param {string[]} heard @returns {Promise<Folder>} of the sources as they are now */
  async read(reading, options, heard) {
    const typescript = findTypeScript(reading.folder);
    if (typescript.file !== this.typescript?.file || typescript.version !== this.typescript.version) throw new Failure('another TypeScript is installed: start again');
    const files = new Watched(reading.folder, reading.skip, this.hashes);
    const resolver = this.resolverFor(files, heard);
    this.resolved = null;
    /** @type {Promise<import('../folder/pool.js').Pool> | undefined} */
    let made;
    // the parser's compiled form was kept by the first run
    const pool = () => (made ??= poolOf(reading, typescript).then((it) => Object.assign(it, { keep: () => {} })));
    /** @type {Folder | undefined} */
    let folder;
    try {
      folder = await Folder.read({ reading, files, kept: this.kept(reading), pool, asked: null, last: null, results: null, resolver }, { entry: options.entry ?? [] });
      this.keep(reading, folder.sources);
      this.resolved = { files, resolver: folder.sources.resolver };
      return folder;
    } finally {
      await folder?.sources.pool?.close();
      this.follow(files);
    }
  }

  /** @param {Watched} files that were read: what happened to directories before they are watched isn't told, and is looked for once more */
  follow(files) {
    if (this.watchers.follow(files.folders, files.looked)) this.hear(files.folder);
  }

  /** @param {Answer} answer */
  tellFirst(answer) {
    answer.faults.forEach(this.asked.warn);
    if (this.isJson) this.asked.print(JSON.stringify({ answer: valueOf(answer), faults: answer.faults, status: answer.status }));
    else answer.lines.forEach(this.asked.print);
    this.last = answer;
  }

  /** @returns {Record<string, any>} as a run has them that starts now */
  options() {
    return { ...this.asked.options(), json: this.isJson };
  }

  /** @param {Failure} failure @param {string[]} heard */
  tellFailure(failure, heard) {
    if (this.failed === failure.message) return;
    this.failed = failure.message;
    if (this.isJson) this.asked.print(JSON.stringify({ files: this.shorts(heard), failure: failure.message, status: failure.status }));
    else this.asked.warn(failure.message);
  }

  /** @param {string[]} files absolute @returns {string[]} as people read them */
  shorts(files) {
    return files.map((it) => path.relative(this.asked.folder, it) || '.').sort();
  }

  /** @param {Answer} answer @param {Set<string>} changed @param {string[]} heard */
  tell(answer, changed, heard) {
    const before = /** @type {Answer} */ (this.last);
    const isSame = answer.status === before.status && isSameText(answer.lines, before.lines) && isSameText(answer.faults, before.faults);
    this.last = answer;
    if (isSame && changed.size === 0 && this.failed === '') return;
    this.failed = '';
    const files = changed.size > 0 ? [...changed].map(shortOf).sort() : this.shorts(heard);
    if (this.isJson) this.tellJson(before, answer, files);
    else this.tellText(before, answer, files);
  }

  /** @param {Answer} before @param {Answer} now @param {string[]} files */
  tellJson(before, now, files) {
    this.asked.print(JSON.stringify({ files, ...differenceOf(valueOf(before), valueOf(now)), faults: now.faults, status: now.status }));
  }

  /** @param {Answer} before @param {Answer} now @param {string[]} files */
  tellText(before, now, files) {
    const { print, warn } = this.asked;
    const lines = differentLines(before.lines, now.lines);
    const more = files.length - NAMED;
    const named = `${files.slice(0, NAMED).join(', ')}${more > 0 ? ` and ${counted(more, 'other')}` : ''}`;
    print(`${named} changed: ${lines.length === 0 ? 'the answer is the same' : 'the answer differs'}`);
    lines.forEach(print);
    now.faults.filter((it) => !before.faults.includes(it)).forEach(warn);
  }
}
