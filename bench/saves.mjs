// Times `--watch`: from the save of a file to the line that is printed.
//
//   node bench/saves.mjs [--saves N] [--command NAME] [--symq FILE] [--typescript DIR] FOLDER FILE
//
// The command stays on a copy of the directory, without cached trees at its start. Each save adds an exported name to the file, which is one
// of TypeScript, and the next one comes when the command is idle again. It prints the median and the worst of the times on the clock, and
// of the processor times of the command's process, without those of symq, which ends with each answer.
import { spawn } from 'node:child_process';
import { cpSync, existsSync, mkdtempSync, readFileSync, rmSync, writeFileSync } from 'node:fs';
import os from 'node:os';
import path from 'node:path';
import { setTimeout } from 'node:timers/promises';
import { fileURLToPath } from 'node:url';

import { SYMQ, argumentsOf, needSymq, plainEnvironment, usageError } from './measuring.mjs';

const SYMDIR = fileURLToPath(new URL('../symdir/bin/symdir.js', import.meta.url));
const USAGE = 'usage: node bench/saves.mjs [--saves N] [--command NAME] [--symq FILE] [--typescript DIR] FOLDER FILE';
const WATCHED = ['api', 'leaks', 'missing'];
/** How long nothing is printed and no processor is used, in milliseconds, before the command counts as idle. */
const IDLE = 400;
/** After which a line that doesn't come is a failure, in milliseconds. */
const LONGEST = 300_000;

/** A command that stays. */
class Staying {
  /** @param {string[]} words of symdir @param {NodeJS.ProcessEnv} env */
  constructor(words, env) {
    this.child = spawn(process.execPath, [SYMDIR, ...words], { stdio: ['ignore', 'pipe', 'inherit'], env });
    this.text = '';
    this.wake = () => {};
    this.child.stdout.setEncoding('utf8').on('data', (it) => {
      this.text += it;
      this.wake();
    });
    this.child.on('exit', () => this.wake());
  }

  /** @returns {number} the processor time of its process in milliseconds; not known but on Linux */
  processors() {
    const file = `/proc/${this.child.pid}/schedstat`;
    return existsSync(file) ? Number(readFileSync(file, 'utf8').split(' ')[0]) / 1e6 : NaN;
  }

  /** @param {string} text @returns {Promise<number>} when it is printed */
  async printed(text) {
    for (const last = performance.now() + LONGEST; !this.text.includes(text);) {
      if (this.child.exitCode !== null || performance.now() > last) throw new Error(`${text} isn't printed`);
      await Promise.race([new Promise((resolve) => (this.wake = () => resolve(undefined))), setTimeout(1000)]);
    }
    return performance.now();
  }

  /** Waits until it has nothing to do. */
  async idle() {
    for (let before = [NaN, '']; before[0] !== this.processors() || before[1] !== this.text; await setTimeout(IDLE)) before = [this.processors(), this.text];
  }

  /** @returns {Promise<unknown>} when it has ended */
  end() {
    const ended = new Promise((resolve) => this.child.on('exit', resolve));
    this.child.kill();
    return ended;
  }
}

/** @param {number[]} times @returns {string} */
function timesText(times) {
  const sorted = [...times].sort((a, b) => a - b);
  return `median ${sorted[Math.floor(sorted.length / 2)].toFixed(0)} ms, worst ${sorted[sorted.length - 1].toFixed(0)} ms`;
}

/** @param {string} folder @param {string} file in it */
async function measure(folder, file) {
  const made = mkdtempSync(path.join(os.tmpdir(), 'saves-'));
  const copy = path.join(made, path.basename(folder));
  cpSync(folder, copy, { recursive: true, dereference: true });
  const PATH = values.typescript ? `${path.join(values.typescript, 'bin')}${path.delimiter}${process.env.PATH}` : process.env.PATH;
  const staying = new Staying([String(values.command), copy, '--watch', '--json'], { ...plainEnvironment(), PATH, SYMQ: values.symq, XDG_CACHE_HOME: path.join(made, 'cache') });
  const text = readFileSync(path.join(copy, file), 'utf8');
  /** @type {{ clock: number[], processors: number[] }} */
  const times = { clock: [], processors: [] };
  try {
    await staying.printed('\n');
    for (let i = 0; i < Number(values.saves); i++) {
      await staying.idle();
      staying.text = '';
      const [began, before] = [performance.now(), staying.processors()];
      writeFileSync(path.join(copy, file), `${text}\nexport declare const added${i}: number;\n`);
      times.clock.push(await staying.printed('\n') - began);
      await staying.idle();
      times.processors.push(staying.processors() - before);
    }
  } finally {
    await staying.end();
    rmSync(made, { recursive: true });
  }
  console.log(`${path.basename(folder)} ${values.command} --watch, ${values.saves} saves of ${file}: clock ${timesText(times.clock)}; its process ${timesText(times.processors)}`);
}

const { values, positionals: [folder, file] } = argumentsOf(USAGE, {
  saves: { type: 'string', default: '20' }, command: { type: 'string', default: 'api' }, typescript: { type: 'string' }, symq: SYMQ });
if (!(Number(values.saves) >= 1)) usageError(USAGE, '--saves is a number from 1');
if (!WATCHED.includes(String(values.command))) usageError(USAGE, `no command ${values.command}; there are ${WATCHED.join(', ')}`);
if (folder === undefined || file === undefined) usageError(USAGE, 'which directory, and which file in it?');
if (!existsSync(path.join(folder, file))) usageError(USAGE, `no file ${file} in ${folder}`);
needSymq(USAGE, String(values.symq));
await measure(path.resolve(folder), file);
