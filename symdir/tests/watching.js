// A run with `--watch`, which is told of changes by the files alone, beside fresh runs on the same folder.
import assert from 'node:assert/strict';
import { spawn } from 'node:child_process';

import { BIN, symdir } from './helper.js';

/** After which a difference that doesn't come is a failure, in milliseconds. */
const LONGEST = 60_000;

/** @param {unknown} value @returns {unknown[]} */
function itemsOf(value) {
  return value === undefined ? [] : [value].flat();
}

/** @param {[string, string[]][]} rows @returns {Record<string, string[]>} those with items, by their keys */
function inOrder(rows) {
  return Object.fromEntries(rows.filter(([, items]) => items.length > 0).sort(([a], [b]) => (a < b ? -1 : 1)));
}

/** @param {Record<string, unknown>} answer @returns {Record<string, string[]>} the items of its lists, in an order of their own */
function sorted(answer) {
  const rows = Object.entries(answer).map(([key, value]) => /** @type {[string, string[]]} */ ([key, itemsOf(value).map((it) => JSON.stringify(it)).sort()]));
  return inOrder(rows);
}

/** @param {string[]} words @returns {{ answer: Record<string, string[]>, faults: string[], status: number | null } | { failure: string, status: number | null }} what a run without `--watch` says */
export function fresh(words) {
  const { status, stdout, stderr } = symdir([...words, '--json']);
  const lines = stderr.split('\n').filter((it) => it !== '').map((it) => it.replace(/^symdir: /, ''));
  return stdout === '' ? { failure: lines.join('\n'), status } : { answer: sorted(JSON.parse(stdout)), faults: lines, status };
}

/** @param {Record<string, string[]>} answer @param {{ removed: Record<string, unknown[]>, added: Record<string, unknown[]> }} difference @returns {Record<string, string[]>} the answer with it */
function withDifference(answer, { removed, added }) {
  const found = Object.fromEntries(Object.entries(answer).map(([key, items]) => [key, [...items]]));
  for (const [key, items] of Object.entries(removed)) {
    for (const it of items) {
      const at = (found[key] ?? []).indexOf(JSON.stringify(it));
      assert.notEqual(at, -1, `${JSON.stringify(it)} of ${key} is removed and wasn't there`);
      found[key].splice(at, 1);
    }
  }
  for (const [key, items] of Object.entries(added)) found[key] = [...found[key] ?? [], ...items.map((it) => JSON.stringify(it))];
  return inOrder(Object.entries(found).map(([key, items]) => [key, items.sort()]));
}

export class Watching {
  /** @param {string[]} words of a command with a folder @param {{ cwd?: string, env?: Record<string, string>, json?: boolean }} [how] */
  constructor(words, how = {}) {
    const { cwd, env, json = true } = how;
    this.words = words;
    this.child = spawn(process.execPath, [BIN, ...words, '--watch', ...(json ? ['--json'] : [])], { cwd, env: { ...process.env, ...env }, stdio: ['ignore', 'pipe', 'pipe'] });
    this.text = '';
    this.said = '';
    /** @type {string[]} lines that nobody took */
    this.lines = [];
    /** @type {(() => void) | null} */
    this.wake = null;
    /** @type {ReturnType<typeof fresh>} */
    this.state = { failure: '', status: null };
    /** @type {Record<string, string[]>} the last answer, whatever failed behind it */
    this.answer = {};
    this.child.stdout.setEncoding('utf8').on('data', (it) => this.receive(it));
    this.child.stderr.setEncoding('utf8').on('data', (it) => (this.said += it));
    /** @type {Promise<{ status: number | null, signal: string | null }>} */
    this.ended = new Promise((resolve) => this.child.on('close', (status, signal) => {
      this.wake?.();
      resolve({ status, signal });
    }));
  }

  /** @param {string} part */
  receive(part) {
    const lines = (this.text + part).split('\n');
    this.text = lines.pop() ?? '';
    this.lines.push(...lines);
    this.wake?.();
  }

  /** @param {number} [longest] in milliseconds @returns {Promise<string | null>} the next line; null where none comes */
  async line(longest = LONGEST) {
    const last = Date.now() + longest;
    while (this.lines.length === 0 && Date.now() < last && this.child.exitCode === null && this.child.signalCode === null) {
      await new Promise((resolve) => {
        const timer = setTimeout(() => resolve(undefined), Math.max(0, last - Date.now()));
        this.wake = () => {
          clearTimeout(timer);
          resolve(undefined);
        };
      });
    }
    return this.lines.shift() ?? null;
  }

  /** @param {string} line of `--json`, which is taken in @returns {any} what it says */
  take(line) {
    const said = JSON.parse(line);
    if (said.answer) this.answer = sorted(said.answer);
    if (said.removed) this.answer = withDifference(this.answer, said);
    this.state = said.failure === undefined ? { answer: this.answer, faults: said.faults, status: said.status } : { failure: said.failure, status: said.status };
    return said;
  }

  /**
   * Waits until what is printed is what a fresh run says.
   * @param {number} [least] so many lines are waited for in any case
   * @returns {Promise<any[]>} the lines that were printed until then
   */
  async settled(least = 0) {
    const wanted = fresh(this.words);
    /** @type {any[]} */
    const taken = [];
    for (const last = Date.now() + LONGEST; taken.length < least || JSON.stringify(this.state) !== JSON.stringify(wanted);) {
      const line = await this.line(last - Date.now());
      if (line === null) assert.deepEqual({ state: this.state, said: this.said }, { state: wanted, said: '' });
      taken.push(this.take(/** @type {string} */ (line)));
    }
    return taken;
  }

  /** @param {NodeJS.Signals} [signal] @returns {Promise<{ status: number | null, signal: string | null }>} when it has ended */
  end(signal = 'SIGKILL') {
    this.child.kill(signal);
    return this.ended;
  }
}

/** @param {string[]} words @param {(watching: Watching) => Promise<void>} work with a run that has said its first answer, and that ends with it @param {ConstructorParameters<typeof Watching>[1]} [how] */
export async function watched(words, work, how) {
  const watching = new Watching(words, how);
  try {
    if (how?.json ?? true) await watching.settled();
    await work(watching);
  } finally {
    await watching.end();
  }
}
