// Parses files: in this thread, and in others beside it where they are worth it and processors are free.
import { readFileSync, readdirSync } from 'node:fs';
import os from 'node:os';
import { setImmediate } from 'node:timers/promises';

import { Failure, reasonOf } from '../failure.js';
import { useTypeScript } from '../tree/which.js';
import { statsOf } from './files.js';
import { queueOf, take } from './queue.js';
import { Thread } from './thread.js';

/** @typedef {import('./queue.js').Job} Job */
/** @typedef {import('./queue.js').Queue} Queue */
/** @typedef {import('./thread.js').Done} Done */

/** What each file takes besides its bytes, as so many of them. */
const BYTES_OF_A_FILE = 500;
/** A thread loads the parser and warms up for itself, so each has so many bytes to parse at least. */
const BYTES_OF_A_THREAD = 100_000;
/** More threads than these wait for one another's memory and compilers longer than they parse. */
const MOST_THREADS = 3;
/** A file of so many bytes is parsed in another thread, so that this one can show how long it takes. */
const HUGE = 2_000_000;
/** For so many milliseconds at least this thread parses, before it hears of what others made and of signals. */
const UNHEARD = 10;

/** @param {string} thread one of this process @returns {boolean} whether it runs at the moment */
function isRunning(thread) {
  try {
    // as `11206 (node) R 1 11206 ..`, where the name may have anything in it
    return readFileSync(`/proc/self/task/${thread}/stat`, 'utf8').split(') ').at(-1)?.startsWith('R') ?? false;
  } catch {
    return false;
  }
}

/** @returns {number} how many threads of other processes run at the moment; infinite where the system doesn't tell that */
function othersRunning() {
  try {
    // as `0.20 0.18 0.12 1/80 11206`: those of all processes before the slash
    const running = Number(readFileSync('/proc/loadavg', 'utf8').split(/[ /]/)[3]);
    return Math.max(0, running - readdirSync('/proc/self/task').filter(isRunning).length);
  } catch {
    return Infinity;
  }
}

/** @returns {number} how many processors nothing else uses, and at least one: what ran in the last minute counts where it still runs */
function freeProcessors() {
  return Math.max(1, os.availableParallelism() - Math.min(Math.round(os.loadavg()[0]), othersRunning()));
}

/** @param {number} files @param {number} bytes that they have @returns {number} how many threads are worth it */
function wantedThreads(files, bytes) {
  const all = bytes + files * BYTES_OF_A_FILE;
  return Math.min(MOST_THREADS, Math.max(1, Math.floor(all / BYTES_OF_A_THREAD)));
}

export class Pool {
  /** @param {import('../tree/which.js').Which & import('./parse.js').How} how */
  constructor(how) {
    this.how = how;
    /** @type {Thread[]} */
    this.threads = [];
    /** @type {Map<string, number>} by file */
    this.sizes = new Map();
    /** @type {(() => void | Promise<void>) | null} has TypeScript's parser kept */
    this.keep = null;
    useTypeScript(how);
  }

  /** @param {string} file @returns {number} its bytes */
  sizeOf(file) {
    const known = this.sizes.get(file) ?? statsOf(file)?.size ?? 0;
    this.sizes.set(file, known);
    return known;
  }

  /** @param {string[]} files @returns {number} how many threads parse them, with this one */
  threadsFor(files) {
    const bytes = files.reduce((sum, it) => sum + this.sizeOf(it), 0);
    const worth = Math.min(freeProcessors(), files.length, wantedThreads(files.length, bytes));
    return files.some((it) => this.isHuge(it)) ? Math.max(worth, 2) : worth;
  }

  /** @param {string} file @returns {boolean} */
  isHuge(file) {
    return this.sizeOf(file) >= HUGE;
  }

  /** @param {number} count how many threads there are beside this one from then on, at least */
  start(count) {
    while (this.threads.length < count) this.threads.push(new Thread(this.how));
    // what V8 is told when the parser is loaded has it refuse what Node keeps compiled for the start of a thread
    useTypeScript(this.how, Promise.all(this.threads.map((it) => it.began)));
  }

  /** @param {string[]} files that will be parsed: their threads start, and this one can do something else until then */
  begin(files) {
    this.start(this.threadsFor(files) - 1);
  }

  /** @param {Job[]} jobs @param {Done} done @returns {Promise<void>} */
  async parse(jobs, done) {
    if (jobs.length === 0) return;
    const count = this.threadsFor(jobs.map((it) => it.file));
    // one thread is done sooner where it warms up on small files; several end together where the largest go first
    const sorted = [...jobs].sort((a, b) => this.sizeOf(a.file) - this.sizeOf(b.file));
    if (count > 1) sorted.reverse();
    const huge = queueOf(sorted.filter((it) => this.isHuge(it.file)));
    const queue = queueOf(sorted.filter((it) => !this.isHuge(it.file)));
    if (count > 1) this.keep ??= () => this.threads[0].ask(null, () => {});
    const [, deep] = await Promise.all([this.inThreads(count - 1, [huge, queue], done), this.here(queue, done)]);
    if (deep.length > 0) await this.inThreads(1, [queueOf(deep)], done);
  }

  /** @param {Queue} queue @param {Done} done @returns {Promise<Job[]>} those that need a deeper stack than this thread has */
  async here(queue, done) {
    if (queue.jobs.length === 0) return [];
    const [{ parseFile }, { storeCompiled }] = await Promise.all([import('./parse.js'), import('../tree/typescript.js')]);
    this.keep ??= storeCompiled;
    /** @type {Job[]} */
    const deep = [];
    let heard = Date.now();
    for (let job = take(queue); job; job = take(queue)) {
      try {
        done(job.file, parseFile(job, this.how), null);
      } catch (error) {
        if (error instanceof RangeError) deep.push(job);
        else done(job.file, null, reasonOf(error));
      }
      if (Date.now() - heard < UNHEARD) continue;
      await setImmediate();
      heard = Date.now();
    }
    return deep;
  }

  /** @param {number} count @param {Queue[]} queues of which each thread takes one after the other @param {Done} done */
  async inThreads(count, queues, done) {
    if (count === 0) return;
    this.start(count);
    try {
      await Promise.all(this.threads.slice(0, count).map(async (it) => {
        for (const queue of queues) await it.ask(queue, done);
      }));
    } catch (error) {
      this.keep = null;
      throw new Failure(`a parser thread failed: ${/** @type {Error} */ (error).message}`, 3, 'engine');
    }
  }

  /** Ends the threads. */
  async close() {
    await this.keep?.();
    for (const it of this.threads) it.end();
  }
}
