// What these programs share: how they are called, runs of Node that are timed, the least time of several, and ratios of times.
import { spawnSync } from 'node:child_process';
import { existsSync, readFileSync, readdirSync, rmSync } from 'node:fs';
import path from 'node:path';
import { fileURLToPath } from 'node:url';
import { parseArgs } from 'node:util';

/** @typedef {{ clock: number, processors: number }} Time in seconds, on the clock and of all processors */
/** @typedef {{ time: Time, status: number | null, signal: NodeJS.Signals | null, stdout: string, stderr: string }} Timed */

/** The option that names symq. */
export const SYMQ = { type: /** @type {const} */ ('string'), default: fileURLToPath(new URL('../crates/symq/out/symq', import.meta.url)) };

/** @param {string} usage of this program, which ends @param {string} text what is wrong with its arguments @returns {never} */
export function usageError(usage, text) {
  console.error(`${path.basename(process.argv[1])}: ${text}\n${usage}`);
  process.exit(2);
}

/**
 * Reads the arguments of this program. `--help` prints the usage.
 * @template {NonNullable<import('node:util').ParseArgsConfig['options']>} T
 * @param {string} usage
 * @param {T} options
 */
export function argumentsOf(usage, options) {
  try {
    const { values, positionals } = parseArgs({ allowPositionals: true, options: { ...options, help: { type: /** @type {const} */ ('boolean'), short: 'h' } } });
    if (!(/** @type {{ help?: boolean }} */ (values).help)) return { values, positionals };
  } catch (error) {
    usageError(usage, /** @type {Error} */ (error).message.split('. To specify')[0]);
  }
  console.log(usage);
  process.exit(0);
}

/** @param {string} usage @param {string} symq a program that has to be there */
export function needSymq(usage, symq) {
  if (!existsSync(symq)) usageError(usage, `no program ${symq}: \`make symq\` builds it, --symq FILE names it`);
}

/** @returns {NodeJS.ProcessEnv} that of this process without further certificates, which Node reads before it starts */
export function plainEnvironment() {
  const { NODE_EXTRA_CA_CERTS: _, ...plain } = process.env;
  return plain;
}

/** @returns {number} the processor time in seconds of all ended child processes, and of theirs; not known but on Linux */
function processors() {
  if (!existsSync('/proc/self/stat')) return NaN;
  const [user, system] = readFileSync('/proc/self/stat', 'utf8').split(') ')[1].split(' ').slice(13, 15);
  return (Number(user) + Number(system)) / 100;
}

/** @param {string[]} words of Node @param {NodeJS.ProcessEnv} env @param {number} most a status above it is an error @returns {Timed} */
export function timedRun(words, env, most) {
  const [began, before] = [performance.now(), processors()];
  const { status, signal, stdout, stderr } = spawnSync(process.execPath, words, { encoding: 'utf8', maxBuffer: 1 << 28, env });
  const time = { clock: (performance.now() - began) / 1000, processors: processors() - before };
  if (status === null || status > most) throw new Error(`${words.join(' ')}: status ${status}, signal ${signal}: ${stderr}`);
  return { time, status, signal, stdout, stderr };
}

/** @param {Time[]} times @returns {Time} the least of each */
export function least(times) {
  return { clock: Math.min(...times.map((it) => it.clock)), processors: Math.min(...times.map((it) => it.processors)) };
}

/** @param {Time} time @param {Time} [other] @returns {string} with its ratio to the other */
export function timeText(time, other) {
  const text = (/** @type {'clock' | 'processors'} */ it) => `${time[it].toFixed(2)} s${other ? ` (${(time[it] / other[it]).toFixed(2)})` : ''}`;
  return `clock ${text('clock')}, processors ${text('processors')}`;
}

/** @param {string} folder a cache, whose trees and graphs are removed */
export function forgetTrees(folder) {
  for (const it of readdirSync(folder)) if (/\.(trees|graph|result)$/.test(it)) rmSync(path.join(folder, it));
}
