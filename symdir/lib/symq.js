// A process of symq, which is asked in lines of JSON and answers each in turn.
import { spawn } from 'node:child_process';

import { Failure } from './failure.js';
import { counted } from './output.js';

/** @typedef {import('node:child_process').ChildProcessWithoutNullStreams} ChildProcess */

/** The status of symq for words that it doesn't take. */
const USAGE = 2;
/** How many bytes of questions may wait before answers are awaited. */
const WAITING = 1 << 16;

/** @param {string} program @param {string[]} words @returns {ChildProcess} */
function started(program, words) {
  return spawn(program, words, { stdio: ['pipe', 'pipe', 'pipe'] });
}

/** @param {string} program @param {Error} error @returns {Failure} */
function notStarted(program, error) {
  const { code } = /** @type {NodeJS.ErrnoException} */ (error);
  const why = code === 'ENOENT' ? 'not found' : code === 'EACCES' ? 'not executable' : error.message;
  return new Failure(`can't start ${program}: ${why}; --symq FILE and SYMQ name the program symq, and \`make symq\` builds it`);
}

/** @param {number | string | null} status or signal @param {string} said on standard error @returns {Failure} */
function ended(status, said) {
  const last = said.trim().split('\n').pop() ?? '';
  const isRefused = /^symq: (not a graph|graph refused)/.test(last);
  const more = ' (`symdir graph DIR -o graph.json` and `symdir graph --check graph.json` explain it)';
  const text = isRefused ? last + more : last;
  return new Failure(text || (typeof status === 'number' ? `symq exited with status ${status}` : `symq was killed by ${status}`), 3, 'engine');
}

/** @param {string} program @returns {Failure} */
function notStrict(program) {
  return new Failure(`${program} is older than symdir: it doesn't support --strict`);
}

/** Questions by the lines that they are; each is asked once. */
class Asked {
  constructor() {
    /** @type {Map<string, any>} */
    this.known = new Map();
  }

  /** @param {unknown[]} query @returns {string} */
  static line(query) {
    return JSON.stringify(query);
  }

  /** @param {string[]} lines @returns {string[]} those that have no answer yet, each once */
  missing(lines) {
    return [...new Set(lines)].filter((it) => !this.known.has(it));
  }

  /** @param {string[]} lines @returns {any[]} */
  answers(lines) {
    return lines.map((it) => this.known.get(it));
  }
}

/** @param {string} text lines of JSON, each with its end @returns {any[]} */
function parsedLines(text) {
  return JSON.parse(`[${text.slice(0, -1).replaceAll('\n', ',')}]`);
}

/** symq as a process that stays: any number of rounds of questions. */
export class Symq extends Asked {
  /** @param {string} program @param {string} graph a file, on which it answers by strict rules: `export *` passes no `default` on */
  constructor(program, graph) {
    super();
    this.program = program;
    this.graph = graph;
    /** @type {ChildProcess | null} null until it starts: with the first round, or before */
    this.process = null;
    this.said = '';
    /** @type {string[]} lines that are asked, in order */
    this.open = [];
    /** @type {{ resolve: () => void, reject: (error: Error) => void } | null} */
    this.waiting = null;
    /** @type {Failure | null} */
    this.failure = null;
  }

  /** @returns {ChildProcess} that runs from then on */
  start() {
    if (this.process) return this.process;
    const { program } = this;
    const child = started(program, ['--strict', this.graph]);
    this.process = child;
    child.stderr.on('data', (it) => (this.said += it));
    child.stdin.on('error', () => {});
    child.on('error', (error) => this.fail(notStarted(program, error)));
    child.on('close', (status, signal) => this.fail(status === USAGE ? notStrict(program) : ended(status ?? signal, this.said)));
    child.stdout.on('data', (it) => this.receive(it));
    return child;
  }

  /** @param {Failure} failure */
  fail(failure) {
    this.failure ??= failure;
    this.progress('');
    this.waiting?.reject(this.failure);
    this.waiting = null;
  }

  /** @type {Buffer[]} the beginning of a line whose end isn't there yet */
  part = [];

  /** Is told how far it is. */
  progress = (/** @type {string} */ _) => {};

  /** @param {Buffer} bytes of lines, which end at line feeds alone */
  receive(bytes) {
    const end = bytes.lastIndexOf(10) + 1;
    if (end > 0) {
      const text = Buffer.concat([...this.part, bytes.subarray(0, end)]).toString();
      this.part = [];
      this.take(text);
    }
    if (end < bytes.length) this.part.push(bytes.subarray(end));
  }

  /** @param {string} text of whole lines */
  take(text) {
    try {
      for (const answer of parsedLines(text)) this.known.set(this.open[this.taken++], answer);
    } catch {
      this.fail(new Failure(`unexpected output from ${this.program}`, 3, 'engine'));
      return;
    }
    if (this.taken < this.open.length) {
      this.progress(`symq answered ${this.taken} of ${counted(this.open.length, 'query')}`);
      return;
    }
    this.progress('');
    this.waiting?.resolve();
    this.waiting = null;
  }

  /** How many of the open lines have their answer. */
  taken = 0;

  /**
   * @param {unknown[][]} queries
   * @returns {Promise<any[]>} the answers, in order
   */
  ask(queries) {
    const lines = queries.map(Asked.line);
    const asked = this.turn.then(async () => {
      const open = this.missing(lines);
      if (open.length > 0) await this.round(open);
      return this.answers(lines);
    });
    this.turn = asked.then(() => {}, () => {});
    return asked;
  }

  /** Ends with the round before: one is under way at a time. @type {Promise<unknown>} */
  turn = Promise.resolve();

  /** @param {string[]} lines @returns {Promise<void>} */
  async round(lines) {
    if (this.failure) throw this.failure;
    const { stdin } = this.start();
    this.open = lines;
    this.taken = 0;
    this.progress(`waiting for symq: ${counted(lines.length, 'query')}`);
    const answered = new Promise((resolve, reject) => (this.waiting = { resolve: () => resolve(undefined), reject }));
    answered.catch(() => {});
    let part = '';
    for (const line of lines) {
      part += `${line}\n`;
      if (part.length < WAITING) continue;
      if (!stdin.write(part)) await Promise.race([answered, drained(stdin)]);
      part = '';
    }
    stdin.write(part);
    await answered;
  }

  /** @returns {Promise<void>} when the process has ended; what it started itself may go on, and holds nothing up */
  close() {
    const { process: it } = this;
    return new Promise((resolve) => {
      if (it === null) {
        resolve();
        return;
      }
      if (it.pid === undefined || it.exitCode !== null || it.signalCode !== null) resolve();
      else it.once('exit', () => resolve());
      it.kill('SIGKILL');
      for (const stream of [it.stdin, it.stdout, it.stderr]) stream.destroy();
    });
  }
}

/** @param {import('node:stream').Writable} stream */
function drained(stream) {
  return new Promise((resolve) => stream.once('drain', resolve));
}
