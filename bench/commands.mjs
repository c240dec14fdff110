// Times each command of symdir beside TypeScript's language service doing the same.
//
//   node bench/commands.mjs [--rounds N] [--symq FILE] [--typescript DIR] [--commands NAME,..] FOLDER..
//
// In each round three processes run one after the other: the service; the command without cached trees, but with TypeScript's compiled
// form, which any earlier run caches; and the command with what the run before cached: the trees and the graph, and of `api --html` and
// `diff` the page and the surface. Both take the TypeScript in DIR, or the newest that is installed, and read the modules of TypeScript
// below the directory. Both write what they find to a pipe. `diff` compares the directory with a copy, in which an entry exports one more
// name: neither finds the second one cached where the first isn't. The service describes what the page shows, and Graphviz draws the same
// picture for both. Only the command writes HTML.
// It prints the least times of the rounds, their ratios to the service's, on the clock and of the processors, and how much each found. The
// last lines are a table: ratios on the clock, cold and cached.
import { appendFileSync, cpSync, existsSync, mkdtempSync, rmSync } from 'node:fs';
import os from 'node:os';
import path from 'node:path';
import { fileURLToPath } from 'node:url';

import { SYMQ, argumentsOf, forgetTrees, least, needSymq, plainEnvironment, timeText, timedRun, usageError } from './measuring.mjs';

const SYMDIR = fileURLToPath(new URL('../symdir/bin/symdir.js', import.meta.url));
const SERVICE = fileURLToPath(new URL('./service.mjs', import.meta.url));
const USAGE = 'usage: node bench/commands.mjs [--rounds N] [--symq FILE] [--typescript DIR] [--commands NAME,..] FOLDER..';
const SCRIPTS = ['--skip', '\\.[mc]?jsx?$'];

/** @typedef {{ entries: string[], spot: string, other: string, picture: string }} Asked what the service is told of a directory: its entries, the place of a public name, a copy with one name more, and what Graphviz draws */
/** @typedef {import('./measuring.mjs').Time} Time */

/** @type {Record<string, (folder: string, asked: Asked) => string[]>} the words of each command */
const COMMANDS = {
  api: (folder) => ['api', folder, '--json'],
  'api --html': (folder) => ['api', folder, '--html'],
  leaks: (folder) => ['leaks', folder, '--json'],
  missing: (folder) => ['missing', folder, '--json'],
  where: (folder, { spot }) => ['where', folder, spot, '--json'],
  uses: (folder, { spot }) => ['uses', folder, spot, '--bodies', '--json'],
  unused: (folder) => ['unused', folder, '--json'],
  cycles: (folder) => ['cycles', folder, '--json'],
  web: (folder) => ['web', folder, '--json'],
  diff: (folder, { other }) => ['diff', folder, other, '--json'],
};

/** @param {string[]} words of Node @param {string} cache @returns {{ time: Time, stdout: string }} */
function timed(words, cache) {
  const PATH = values.typescript ? `${path.join(String(values.typescript), 'bin')}${path.delimiter}${process.env.PATH}` : process.env.PATH;
  return timedRun(words, { ...plainEnvironment(), PATH, SYMQ: String(values.symq), XDG_CACHE_HOME: cache }, 1);
}

/** @param {string} folder @param {string} entry in it @param {string} to an empty directory @returns {string} a copy of the directory, in which the entry exports one more name */
function copyOf(folder, entry, to) {
  const other = path.join(to, path.basename(folder));
  cpSync(folder, other, { recursive: true, dereference: true });
  appendFileSync(path.join(other, entry), '\nexport declare const addedToTheCopy: number;\n');
  return other;
}

/** @param {string} folder @param {string} cache @param {string} copies an empty directory @returns {Asked} */
function askedOf(folder, cache, copies) {
  const { entries, names: exported } = JSON.parse(timed([SYMDIR, 'api', folder, '--json', ...SCRIPTS], cache).stdout);
  const all = exported.flatMap((/** @type {any} */ it) => it.defined.filter((/** @type {any} */ one) => !one.by && it.name !== 'default'));
  const { file, line, column } = all[Math.floor(all.length / 2)];
  const picture = names.includes('api --html') ? timed([SYMDIR, 'web', folder, ...SCRIPTS], cache).stdout : '';
  return { entries, spot: `${file}:${line}:${column}`, other: names.includes('diff') ? copyOf(folder, entries[0], copies) : '', picture };
}

/** @param {string} name @param {string} stdout of a command @returns {number} how much it found */
function countOf(name, stdout) {
  // names and members
  if (name === 'api --html') return stdout.split(/<li (?:class="row" )?data-name=/).length - 1;
  const out = JSON.parse(stdout);
  if (name === 'where') return out.flatMap((/** @type {any} */ it) => it.ways.filter((/** @type {any} */ one) => one.defined)).length;
  if (name === 'uses') return out.flatMap((/** @type {any} */ it) => it.uses.filter((/** @type {any} */ one) => one.how !== 'export *')).length;
  return (/** @type {Record<string, any[]>} */ ({ api: out.names, leaks: out.leaks, missing: out.missing, unused: out.exports, cycles: out.cycles, web: out.edges, diff: out.changes }))[name].length;
}

/** @param {string} folder @param {string} name of a command @param {Asked} asked @param {string} cache @returns {string} the cell of the table */
function compare(folder, name, asked, cache) {
  /** @type {Record<'service' | 'cold' | 'cached', Time[]>} */
  const runs = { service: [], cold: [], cached: [] };
  const words = [SYMDIR, ...COMMANDS[name](folder, asked), ...SCRIPTS];
  const counts = new Set();
  for (let i = 0; i < Number(values.rounds); i++) {
    const service = timed([SERVICE, name, folder, JSON.stringify(asked)], cache);
    runs.service.push(service.time);
    forgetTrees(path.join(cache, 'symdir'));
    for (const sort of /** @type {const} */ (['cold', 'cached'])) {
      const { time, stdout } = timed(words, cache);
      runs[sort].push(time);
      counts.add(`symdir ${countOf(name, stdout)}, service ${service.stdout.trim()}`);
    }
  }
  const [service, cold, cached] = [runs.service, runs.cold, runs.cached].map(least);
  console.log(`${path.basename(folder)} ${name}: service ${timeText(service)}\n  cold    ${timeText(cold, service)}\n  cached  ${timeText(cached, service)}\n  ${[...counts].join('; ')}`);
  return `${(cold.clock / service.clock).toFixed(2)}; ${(cached.clock / service.clock).toFixed(2)}`;
}

/** @param {string[]} folders @param {string[]} names of commands */
function compareAll(folders, names) {
  const cache = mkdtempSync(path.join(os.tmpdir(), 'commands-'));
  const cells = new Map(names.map((it) => [it, /** @type {string[]} */ ([])]));
  for (const folder of folders) {
    const copies = mkdtempSync(path.join(os.tmpdir(), 'commands-'));
    const asked = askedOf(folder, cache, copies);
    for (const name of names) cells.get(name)?.push(compare(folder, name, asked, cache));
    rmSync(copies, { recursive: true });
  }
  rmSync(cache, { recursive: true });
  console.log(`\n| command | ${folders.map((it) => path.basename(it)).join(' | ')} |\n|---|${folders.map(() => '---|').join('')}`);
  for (const [name, row] of cells) console.log(`| \`${name}\` | ${row.join(' | ')} |`);
}

const { values, positionals } = argumentsOf(USAGE, {
  rounds: { type: 'string', default: '3' }, symq: SYMQ, typescript: { type: 'string' }, commands: { type: 'string', default: Object.keys(COMMANDS).join() } });
const names = String(values.commands).split(',');
if (!(Number(values.rounds) >= 1)) usageError(USAGE, '--rounds is a number from 1');
for (const it of names) if (!Object.hasOwn(COMMANDS, it)) usageError(USAGE, `no command ${it}; there are ${Object.keys(COMMANDS).join(', ')}`);
if (positionals.length === 0) usageError(USAGE, 'which directories?');
for (const it of positionals) if (!existsSync(it)) usageError(USAGE, `no directory ${it}`);
if (values.typescript && !existsSync(path.join(String(values.typescript), 'bin', 'tsc'))) usageError(USAGE, `no TypeScript in ${values.typescript}`);
needSymq(USAGE, String(values.symq));
compareAll(positionals.map((it) => path.resolve(it)), names);
